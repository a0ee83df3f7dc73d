"""Words, pointers and cells, as docs/MACHINE.md and docs/FORMATS.md describe them."""

from __future__ import annotations

from enum import Enum
from typing import Optional

from mm.records import dataclass

ADDRESS_BITS = 54
ADDRESS_LIMIT = 1 << ADDRESS_BITS
LONGEST = 54
WORD_BYTES = 8
WORD_MASK = (1 << 64) - 1


class Permission(Enum):
    """What may be done through a pointer: the code in its first four bits, its name in a source, its name in full."""

    RO = (1, "ro", "read-only")
    RW = (2, "rw", "read/write")
    XU = (3, "xu", "execute-user")
    XP = (4, "xp", "execute-privileged")
    EU = (5, "eu", "enter-user")
    EP = (6, "ep", "enter-privileged")
    KEY = (7, "key", "key")

    def __init__(self, code: int, short: str, full: str) -> None:
        self.code, self.short, self.full = code, short, full

    @property
    def loads(self) -> bool:
        return self.code <= 4

    @property
    def stores(self) -> bool:
        return self is Permission.RW

    @property
    def executes(self) -> bool:
        return self in (Permission.XU, Permission.XP)

    @property
    def enters(self) -> bool:
        return self in (Permission.EU, Permission.EP)

    @property
    def may_become(self) -> tuple[Permission, ...]:
        """What `restrict` may make of it."""
        return tuple(BY_SHORT[short] for short in _BECOMES[self.short].split())

    @classmethod
    def of_code(cls, code: int) -> Optional[Permission]:
        return BY_CODE.get(code)


_BECOMES = {"ro": "key", "rw": "ro key", "xu": "ro eu key", "xp": "xu ro eu ep key", "eu": "", "ep": "", "key": ""}
BY_CODE = {permission.code: permission for permission in Permission}
BY_SHORT = {permission.short: permission for permission in Permission}


@dataclass(frozen=True)
class Pointer:
    """A guarded pointer: a permission, the logarithm of its segment's length, and an address in the segment."""

    permission: Permission
    log: int
    address: int

    @classmethod
    def of_bits(cls, bits: int) -> Optional[Pointer]:
        """The pointer that 64 bits spell, or none if they spell none."""
        permission, log = BY_CODE.get(bits >> 60), bits >> ADDRESS_BITS & 63
        return cls(permission, log, bits & ADDRESS_LIMIT - 1) if permission and log <= LONGEST else None

    @property
    def bits(self) -> int:
        return self.permission.code << 60 | self.log << ADDRESS_BITS | self.address

    @property
    def base(self) -> int:
        return self.address >> self.log << self.log

    @property
    def end(self) -> int:
        """The first address after the segment."""
        return self.base + (1 << self.log)

    def covers(self, address: int, length: int = 1) -> bool:
        return self.base <= address and address + length <= self.end


@dataclass(frozen=True)
class Word:
    """64 bits and the tag that says whether they are a pointer."""

    bits: int
    tagged: bool = False

    @property
    def pointer(self) -> Optional[Pointer]:
        return Pointer.of_bits(self.bits) if self.tagged else None

    @property
    def signed(self) -> int:
        return self.bits - (1 << 64) if self.bits >> 63 else self.bits

    @classmethod
    def parse(cls, text: str) -> "Word":
        """A word as a report writes it: `i` or `p`, and 16 hexadecimal digits."""
        return cls(int(text[1:], 16), text[0] == "p")

    def __str__(self) -> str:
        return f"{'p' if self.tagged else 'i'}{self.bits:016x}"


ZERO = Word(0)


@dataclass(frozen=True)
class Cell:
    """A word in memory and its synchronisation bit."""

    word: Word = ZERO
    full: bool = True


def letter_of(bits: int) -> Optional[str]:
    """The printable letter that a word is, if it is one."""
    return chr(bits) if 32 <= bits < 127 else None


def bytes_in_words(log: int) -> str:
    """How long a segment is, for people: `64 bytes`, `1 MiB`."""
    for shift, unit in ((50, "PiB"), (40, "TiB"), (30, "GiB"), (20, "MiB"), (10, "KiB")):
        if log >= shift:
            return f"{1 << log - shift} {unit}"
    return "1 byte" if log == 0 else f"{1 << log} bytes"
