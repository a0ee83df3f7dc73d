"""How C is translated, and what the options of a command say of it."""

from __future__ import annotations

import re
from typing import Optional

from mm.names.numbers import number_of
from mm.records import dataclass, field
from mm.status import usage
from mm.table import CLANG, HEAP, LEVEL, PREFIX, QUARANTINE, SLOT, STACK, Option
from mm.words import Words

LEVELS = ("0", "1", "2", "3", "s")
# What a prefix may be, so that names with it are names.
PREFIXES = "([A-Za-z_][A-Za-z0-9_]{0,11})?"


@dataclass
class Options:
    """The level of optimisation, words for Clang, and what the program's thread is like."""

    level: str = "1"
    flags: list[str] = field(default_factory=list)
    slot: int = 0
    prefix: str = ""
    stack: int = 16
    heap: int = 16
    # Whether an object stands at the end of its segment, so that the first byte after it is outside.
    at_end: bool = True
    lines: bool = True
    # Whether the code compares itself with a second reckoning of each value, and stops where they differ.
    checked: bool = False
    # How many bytes of freed blocks are held back before pointers to them are taken away; without it they never are.
    quarantine: Optional[int] = None


def _number(said: Words, option: Option, low: int, high: int, default: int) -> int:
    text = said.value(option)
    if text is None:
        return default
    number = number_of(text)
    if number is None or not low <= number <= high:
        raise usage(f"mm: {option.name}: `{text}` is not a number from {low} to {high}")
    return number


def options_of(said: Words) -> Options:
    level: Optional[str] = said.value(LEVEL)
    if level is not None and level not in LEVELS:
        raise usage(f"mm: {LEVEL.name}: `{level}` is not a level: {', '.join(LEVELS)}")
    prefix: str = said.value(PREFIX) or ""
    if not re.fullmatch(PREFIXES, prefix):
        raise usage(f"mm: {PREFIX.name}: `{prefix}` is not the beginning of a name: at most 12 letters, digits and `_`, no digit first")
    return Options(
        level or "1",
        said.all(CLANG),
        _number(said, SLOT, 0, 15, 0),
        prefix,
        _number(said, STACK, 8, 20, 16),
        _number(said, HEAP, 4, 20, 16),
        quarantine=_number(said, QUARANTINE, 0, 1 << 20, 0) if said.value(QUARANTINE) is not None else None,
    )
