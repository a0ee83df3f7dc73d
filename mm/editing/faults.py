"""Mistakes with the places that an editor marks: from a letter of a line up to another, counted as editors count
them."""

from __future__ import annotations

import re
from dataclasses import dataclass
from typing import Iterator, Mapping

from mm.source.text import lines_of
from mm.source.tokens import LONG_LINE, token_at
from mm.status import Refused

# What Clang writes of a mistake.
OF_CLANG = re.compile(r"(.*?):(\d+):(\d+): (?:fatal )?(?:error|warning): (.*)")


@dataclass(frozen=True)
class Fault:
    """A mistake: its file, its line from 1, its letters from 0, and what is said of it."""

    path: str
    line: int
    begin: int
    end: int
    message: str
    hints: tuple[str, ...] = ()


def letters(line: str, column: int) -> int:
    """How many letters come before a column (from 1, in bytes) of a line in latin-1, as UTF-16 counts them."""
    before = line[: max(0, column - 1)].encode("latin-1", "replace").decode("utf-8", "replace")
    return len(before.encode("utf-16-le", "surrogatepass")) // 2


def column_of(line: str, letter: int) -> int:
    """The column, from 1 and in bytes, of a letter of a line in latin-1."""
    text = line.encode("latin-1", "replace").decode("utf-8", "replace")
    before = text.encode("utf-16-le", "surrogatepass")[: 2 * letter].decode("utf-16-le", "replace")
    return len(before.encode("utf-8", "surrogatepass")) + 1


def span(line: str, column: int) -> tuple[int, int]:
    """The letters of the token that begins at a column; the last letter of the line where none does."""
    token = token_at(line, column) if column <= LONG_LINE else None
    begin = letters(line, column)
    end = letters(line, token.end) if token else min(begin + 1, letters(line, len(line) + 1))
    return (begin, end) if end > begin else (max(0, begin - 1), max(1, begin))


def faults_of(refused: Refused, datas: Mapping[str, bytes]) -> Iterator[Fault]:
    """The mistakes of a refusal. One that has no line is put on the first."""
    texts = {path: lines_of(data) for path, data in datas.items()}
    for told in refused.diagnostics:
        lines = texts.get(told.path, [])
        number = told.line or 1
        line = lines[number - 1] if 0 < number <= len(lines) else ""
        begin, end = span(line, told.column) if told.column else (0, letters(line, len(line) + 1))
        yield Fault(told.path, number, begin, end, told.message, tuple(told.hints))


def of_clang(lines: list[str]) -> Iterator[Fault]:
    """The mistakes in messages of Clang."""
    for line in lines:
        found = OF_CLANG.fullmatch(line)
        if found:
            path, number, column, message = found.groups()
            begin = max(0, int(column) - 1)
            yield Fault(path, int(number), begin, begin + 1, message)
