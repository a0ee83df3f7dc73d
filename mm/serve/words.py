"""What commands say, for a reader who has a page and no terminal."""

from __future__ import annotations

import re
from typing import Iterable

# Lines that tell how a command is typed, and the beginnings and ends of lines that do.
TYPED = re.compile(r"^\s*(?:usage: mm |`mm help )")
BEGINNING = re.compile(r"^mm: (?:(?:why|holders|keeps|audit|explore|symbols|trace|note): )?")
END = re.compile(
    r": `mm save` and `mm continue` make a longer one of two$|; `info symbols` and `mm symbols` list the names$"
)


def for_page(lines: Iterable[str]) -> list[str]:
    """The same lines without what is to be typed."""
    shorter = (END.sub("", BEGINNING.sub("", line)) for line in lines)
    return [line for line in shorter if not TYPED.search(line)]
