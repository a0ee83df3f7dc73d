"""Long lines of help, folded to the width of the terminal."""

from __future__ import annotations

import os
import re
import sys
from typing import Iterable, Iterator

NARROWEST, WIDEST = 60, 100
COLUMN = re.compile(r"(?<=\S) {2,}(?=\S)|^ +(?=\S)")


def indent_of(line: str, width: int) -> int:
    """Where the rest of a line goes on: under its last column, if that leaves room, else under its beginning."""
    ends = [match.end() for match in COLUMN.finditer(line)]
    return ends[-1] if ends and ends[-1] <= 2 * width // 3 else ends[0] if ends and line.startswith(" ") else 0


def columns() -> int:
    """How wide the terminal is; very wide if there is none."""
    said = os.environ.get("COLUMNS", "")
    if re.fullmatch("[0-9]{1,9}", said) and int(said):
        return int(said)
    try:
        return os.get_terminal_size(sys.__stdout__.fileno()).columns or WIDEST if sys.__stdout__ else WIDEST
    except (OSError, ValueError):
        return WIDEST


def fold(lines: Iterable[str]) -> Iterator[str]:
    """Lines that are no longer than the terminal is wide."""
    width = max(NARROWEST, min(WIDEST, columns()))
    for line in lines:
        if len(line) <= width:
            yield line
        else:
            import textwrap

            yield from textwrap.wrap(
                line,
                width,
                subsequent_indent=" " * indent_of(line, width),
                drop_whitespace=True,
                break_long_words=False,
                break_on_hyphens=False,
            )
