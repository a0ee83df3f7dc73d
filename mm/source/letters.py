"""Letters in a source: `'A'` for a number, and `.ascii "Hi"` and `.asciiz "Hi"` for lines `.int`. They are forms of
`mm` alone.

`mmachine asm` is given the source without them. A letter becomes its number, with blanks up to the same width, so that
columns stay. A text becomes a line for each of its letters, and of each of these lines it is known from which it comes."""

from __future__ import annotations

import re
from dataclasses import dataclass, field
from typing import Optional

from mm.source.wants import Directive

ESCAPES = {"n": 10, "t": 9, "r": 13, "0": 0, "\\": 92, "'": 39, '"': 34}
ESCAPE = r"\\(?:[ntr0\\'\"]|x[0-9A-Fa-f]{2})"
LITERAL = re.compile(rf"'({ESCAPE}|[ -&(-\[\]-~])'")
TEXT = re.compile(
    r"(?P<before>[ \t\r]*(?:[A-Za-z_][A-Za-z0-9_]*[ \t\r]*:[ \t\r]*)?)(?P<head>\.asciiz?)[ \t\r]*"
    rf"\"(?P<text>(?:{ESCAPE}|[^\"\\;\x00-\x1f]|;)*)\"[ \t\r]*(?:;.*)?"
)
LETTER = re.compile(rf"{ESCAPE}|.", re.S)
TEXT_DIRECTIVES = {
    ".ascii": Directive(
        '.ascii "TEXT"',
        '.ascii "Hello"',
        "a word for each letter of the text; \\n, \\t, \\0, \\\\, \\\" and \\x41 stand for others",
    ),
    ".asciiz": Directive('.asciiz "TEXT"', '.asciiz "Hello"', "the same, and after them a word that holds 0"),
}
# What a source that has none of these forms does not have.
MARK, TEXT_MARK = b"'", b".ascii"


def value_of(letter: str) -> int:
    """The number of a letter, or of what stands for one after `\\`."""
    if not letter.startswith("\\"):
        return ord(letter)
    return int(letter[2:], 16) if letter[1] == "x" else ESCAPES[letter[1]]


def letters_of(line: str) -> Optional[list[int]]:
    """The words that a line `.ascii` or `.asciiz` makes, or none if it is no such line."""
    found = TEXT.fullmatch(line) if ".ascii" in line else None
    if found is None:
        return None
    values = [value_of(one[0]) for one in LETTER.finditer(found["text"])]
    return values + [0] if found["head"] == ".asciiz" else values


def head_of(line: str) -> str:
    """The directive of a line of which `letters_of` has the words."""
    found = TEXT.fullmatch(line)
    return found["head"] if found else ""


def _number_of(found: re.Match[str]) -> str:
    return str(value_of(found[1])).ljust(len(found[0]))


def without_letters(line: str) -> str:
    """A line in which each letter in quotes is its number, in the same columns. Its comment stays."""
    if "'" not in line:
        return line
    code, semicolon, comment = _divided(line)
    return LITERAL.sub(_number_of, code) + semicolon + comment


def _divided(line: str) -> tuple[str, str, str]:
    """A line at the `;` of its comment, which is none inside of quotes."""
    at = 0
    while at < len(line):
        found = LITERAL.match(line, at)
        if found:
            at = found.end()
        elif line[at] == ";":
            return line[:at], ";", line[at + 1 :]
        else:
            at += 1
    return line, "", ""


@dataclass(frozen=True)
class Plain:
    """A source as `mmachine asm` takes it, and the line of the written source from which each of its lines comes, where
    these differ."""

    data: bytes
    origins: list[int] = field(default_factory=list)

    def line(self, number: int) -> int:
        """The line that was written, by the line that `mmachine` names."""
        return self.origins[number - 1] if 0 < number <= len(self.origins) else number


def _lines_of(line: str) -> list[str]:
    """The lines that a line becomes. The first has what stands before the text, so a fault there has its column."""
    values = letters_of(line)
    if values is None:
        return [without_letters(line)]
    found = TEXT.fullmatch(line)
    before = found["before"] if found else ""
    blank = " " * len(before)
    return [(blank if place else before) + f".int {value}" for place, value in enumerate(values)] or [before]


def plain(data: bytes) -> Plain:
    """A source without letters in quotes and without texts. One that has none stays as it is."""
    if MARK not in data and TEXT_MARK not in data:
        return Plain(data)
    written, made, origins = data.decode("latin-1").split("\n"), [], []
    for number, line in enumerate(written, 1):
        lines = _lines_of(line)
        made += lines
        origins += [number] * len(lines)
    return Plain("\n".join(made).encode("latin-1"), origins)
