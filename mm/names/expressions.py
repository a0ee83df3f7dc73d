"""Addresses as people write them: `box`, `box+8`, `gate.door`, `0x100100`, `counter.asm:20`."""

from __future__ import annotations

import re
from typing import Optional

from mm.machine.words import ADDRESS_LIMIT
from mm.names.numbers import hexadecimal, is_of_two_kinds, number_of, printed_address
from mm.names.symbols import Symbol, Symbols

NAMED = re.compile(r"([A-Za-z_][A-Za-z0-9_.]*)(?:\s*([+-])\s*(\w+))?")
LINE = re.compile(r"(.*):([0-9]{1,18})")
# A longer name is none that was meant to be another.
LONGEST_NEAR = 64


class NoAddress(Exception):
    """A text that is no address, with the reason in words. If it is a name that is not there, `near` is a question for
    one that is, or empty, and `lists` says what lists the names."""

    def __init__(self, why: str, near: str = "", lists: str = "") -> None:
        super().__init__(why + (near or lists))
        self.why, self.near, self.lists = why, near, lists


def nearest(name: str, names: list[str]) -> Optional[str]:
    """A name that may have been meant."""
    import difflib

    if len(name) > LONGEST_NEAR:
        return None
    found = difflib.get_close_matches(name, [near for near in names if len(near) <= LONGEST_NEAR], 1, 0.6)
    return found[0] if found else None


def _symbol(name: str, symbols: Symbols) -> Symbol:
    found = symbols.named(name)
    if len(found) == 1:
        return found[0]
    if found:
        several = [symbols.region(symbol.address) for symbol in found]
        raise NoAddress(
            f"there are several `{name}`: say {' or '.join(f'{region.name}.{name}' for region in several if region)}"
        )
    if not symbols:
        raise NoAddress(
            f"`{name}` is not known: this image has no names. Give the sources that it was made of, or write a number, as 0x100100"
        )
    near = nearest(name, [symbol.name for symbol in symbols.symbols])
    raise NoAddress(
        f"there is no label or segment `{name}`",
        f"; do you mean `{near}`?" if near else "",
        "; `info symbols` and `mm symbols` list the names",
    )


def _of_line(path: str, line: int, symbols: Symbols) -> int:
    of_c = symbols.place_of_c_line(path, line)
    if of_c is not None:
        return of_c
    paths = sorted({region.source.path for region in symbols.regions if region.source})
    in_c = symbols.c_paths()
    meant = [known for known in [*paths, *in_c] if known == path or known.endswith("/" + path)]
    if len(meant) == 1 and meant[0] in in_c:
        raise NoAddress(f"no code comes from line {line} of {meant[0]} or one after it")
    paths += in_c
    if len(meant) != 1:
        raise NoAddress(f"there is no source `{path}`; the sources are {', '.join(paths) or 'not known'}")
    address = symbols.place_of_line(meant[0], line)
    if address is None:
        raise NoAddress(f"no word comes from line {line} of {meant[0]} or one after it")
    return address


def span_of(text: str, symbols: Symbols) -> tuple[int, int]:
    """The address that a text names, and how many bytes the name covers: 8 for a number or a name with an offset."""
    text = text.strip().lstrip("&*")
    if is_of_two_kinds(text):
        raise NoAddress(
            f"`{text}` may be a decimal number, or an address as reports print it:"
            f" write {hexadecimal(int(text))} for the first, {hexadecimal(int(text, 16))} for the second"
        )
    number, line = printed_address(text), LINE.fullmatch(text)
    number = number_of(text) if number is None else number
    match = NAMED.fullmatch(text)
    if number is not None:
        address, length = number, 8
    elif line:
        address, length = _of_line(line[1], int(line[2]), symbols), 8
    elif match and not symbols.named(match[1]) and symbols.places_of_inlined(match[1]):
        address, length = symbols.places_of_inlined(match[1])[0], 8
    elif match:
        symbol = _symbol(match[1], symbols)
        by = number_of(match[3]) if match[3] else 0
        if by is None:
            raise NoAddress(f"`{match[3]}` is not a number")
        address, length = symbol.address + (-by if match[2] == "-" else by), 8 if match[2] else symbol.length
    else:
        raise NoAddress(f"`{text}` is not an address: write a name, a name and an offset as box+8, or a number as 0x100100")
    if not 0 <= address < ADDRESS_LIMIT:
        raise NoAddress(f"{hexadecimal(address)} is not an address: addresses are below 2^54")
    return address, length


def address_of(text: str, symbols: Symbols) -> int:
    return span_of(text, symbols)[0]
