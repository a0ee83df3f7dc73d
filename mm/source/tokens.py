"""The tokens of a line. Text is held as latin-1, so that a column is a byte."""

from __future__ import annotations

import re
from enum import Enum
from typing import Optional

from mm.records import dataclass


class TokenKind(Enum):
    """The kinds of tokens; a byte that begins none is a token of its own kind here."""

    NAME = "name"
    DIRECTIVE = "directive"
    NUMBER = "number"
    SIGN = "sign"
    BAD = "bad"


@dataclass(frozen=True)
class Token:
    """A piece of a line, and the column where it begins, from 1."""

    kind: TokenKind
    text: str
    column: int

    @property
    def end(self) -> int:
        return self.column + len(self.text)

    @property
    def value(self) -> int:
        """What a number token is worth; of one with more digits than any range has, some number beyond all ranges."""
        return value_of_digits(self.text)


def readable(line: str) -> str:
    """A line as people wrote it, from the latin-1 in which columns are bytes."""
    return line.encode("latin-1").decode("utf-8", "replace")


BLANKS = " \t\r"
MOST_DIGITS = 40
BEYOND = 1 << 80


def value_of_digits(text: str) -> int:
    """The number that digits spell, with `-` or `0x` before them."""
    sign, digits = (-1, text[1:]) if text.startswith("-") else (1, text)
    base, digits = (16, digits[2:]) if digits.startswith("0x") else (10, digits)
    plain = digits.lstrip("0") or "0"
    return sign * (int(plain, base) if len(plain) <= MOST_DIGITS else BEYOND)


# A line that is longer is no line of a person: only so much of it is looked at for hints.
LONG_LINE = 2_000
MOST_SHOWN = 40


def cut(text: str) -> str:
    """A text for a message, which may be very long."""
    return text if len(text) <= MOST_SHOWN else f"{text[: MOST_SHOWN - 2]}.."


TOKEN = re.compile(
    r"[ \t\r]*(?:(?P<NAME>[A-Za-z_][A-Za-z0-9_]*)|(?P<DIRECTIVE>\.[A-Za-z_][A-Za-z0-9_]*)"
    r"|(?P<NUMBER>0x[0-9A-Fa-f]+|-?[0-9]+)|(?P<SIGN>[,:+])|(?P<COMMENT>;.*)|(?P<BAD>.))"
)


def token_at(line: str, column: int) -> Optional[Token]:
    """The token that begins at a column."""
    match = TOKEN.match(line, column - 1, column - 1 + LONG_LINE)
    kind = match.lastgroup if match else None
    if match is None or kind is None or kind == "COMMENT" or match.start(kind) != column - 1:
        return None
    return Token(TokenKind[kind], match[kind], column)


def tokens_of(line: str) -> list[Token]:
    """The tokens of a line, without its comment. Of a very long line those of its beginning."""
    found = []
    for match in TOKEN.finditer(line, 0, LONG_LINE):
        kind = match.lastgroup
        if kind == "COMMENT":
            break
        if kind and (kind != "BAD" or match[kind] not in BLANKS):
            found.append(Token(TokenKind[kind], match[kind], match.start(kind) + 1))
    return found
