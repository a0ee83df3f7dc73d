"""What is asked of `why`: a group, a word and a kind of use."""

from __future__ import annotations

from typing import Optional

from mm.machine.words import ADDRESS_LIMIT, WORD_BYTES
from mm.names.expressions import NoAddress, address_of
from mm.names.numbers import number_of
from mm.names.symbols import Symbols
from mm.records import dataclass
from mm.status import usage
from mm.why.check import KINDS
from mm.words import MOST_GROUP


# What people say for a kind.
OTHER_NAMES = {"read": "touch", "load": "touch", "store": "write"}


@dataclass(frozen=True)
class Asked:
    """A group, the address of a word, and what is to be done with it."""

    group: int
    address: int
    kind: str

    @property
    def words(self) -> list[str]:
        """The same as words of `mmachine`."""
        return [str(self.group), str(self.address), self.kind]


def address_of_word(word: str, symbols: Optional[Symbols]) -> int:
    """The address that a word tells: a name where there are symbols, or a number."""
    try:
        found = number_of(word) if symbols is None else address_of(word, symbols)
    except NoAddress as error:
        raise usage(f"mm: {error}") from None
    if found is None or not 0 <= found < ADDRESS_LIMIT or found % WORD_BYTES:
        raise usage(f"mm: `{word}` is not an address of a word: a multiple of {WORD_BYTES} below 2^54")
    return found


def asked(group: str, word: str, kind: str, symbols: Optional[Symbols] = None) -> Asked:
    """What words ask. With symbols the word may be told by a name, and the kind as people say it."""
    number = number_of(group)
    if number is None or not 0 <= number <= MOST_GROUP:
        raise usage(f"mm: `{group}` is not a group: 0 to {MOST_GROUP}")
    address = address_of_word(word, symbols)
    kind = kind if symbols is None else OTHER_NAMES.get(kind, kind)
    if kind not in KINDS:
        raise usage(f"mm: `{kind}` is neither touch (or read) nor write")
    return Asked(number, address, kind)
