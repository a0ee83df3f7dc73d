"""A line of a source: its label, its statement, and the first token that does not fit."""

from __future__ import annotations

from typing import Callable, NoReturn, Optional

from mm.records import dataclass, field
from mm.source import wants
from mm.source.tokens import LONG_LINE, Token, TokenKind, tokens_of
from mm.source.wants import DIRECTIVES, OPERANDS, Want

BAD_BYTE, SYNTAX, NAME, RANGE = 1, 2, 3, 4
WORD_DIRECTIVES = (".int", ".ptr")
HEAD = Want(wants.Sort.NAME, "an operation, a directive, or a label and `:`")
EMPTY_WORD = Want(wants.Sort.NAME, "a word: .int, .ptr or an operation")


@dataclass(frozen=True)
class Mismatch:
    """The first token of a line that is not what its place takes; no token where one is missing."""

    fault: int
    column: int
    want: Want
    token: Optional[Token]


@dataclass
class Line:
    """What a line says. `head` is its directive or operation, that after `.empty` if it has one; `operands` are the tokens that fit."""

    label: Optional[Token] = None
    head: Optional[Token] = None
    empty: bool = False
    operands: list[tuple[Want, Token]] = field(default_factory=list)
    mismatch: Optional[Mismatch] = None

    def operand(self, want: Want) -> Optional[Token]:
        """The token in a place."""
        return next((token for place, token in self.operands if place is want), None)

    @property
    def makes_word(self) -> bool:
        return self.head is not None and (self.head.text in OPERANDS or self.head.text in WORD_DIRECTIVES)


class _Stop(Exception):
    """The rest of the line is not looked at."""


class _Reader:
    """A line that is being read."""

    def __init__(self, text: str) -> None:
        self.tokens = tokens_of(text)
        self.at, self.end = 0, min(len(text), LONG_LINE) + 1
        self.line = Line()

    def peek(self) -> Optional[Token]:
        return self.tokens[self.at] if self.at < len(self.tokens) else None

    def refuse(self, fault: int, want: Want) -> NoReturn:
        token = self.peek()
        self.line.mismatch = Mismatch(fault, token.column if token else self.end, want, token)
        raise _Stop

    def take(self, want: Want) -> Token:
        token = self.peek()
        fault = want.fault_of(token)
        if fault or token is None:
            self.refuse(BAD_BYTE if token and token.kind is TokenKind.BAD else fault or SYNTAX, want)
        self.at += 1
        self.line.operands.append((want, token))
        return token

    def ends(self) -> None:
        if self.peek():
            self.take(wants.END)

    def target(self) -> None:
        self.take(wants.TARGET)
        token = self.peek()
        if token and token.text == "+":
            self.take(wants.PLUS)
            self.take(wants.ADDEND)

    def read_label(self) -> None:
        if len(self.tokens) > 1 and self.tokens[0].kind is TokenKind.NAME and self.tokens[1].text == ":":
            if len(self.tokens[0].text) > wants.LONGEST_NAME:
                self.refuse(NAME, wants.TARGET)
            self.line.label = self.tokens[0]
            self.at = 2

    def read_statement(self) -> None:
        head = self.peek()
        if head is None:
            return
        if head.text == ".empty":
            self.at += 1
            self.line.empty = True
            head = self.peek()
            if head is None or head.kind not in (TokenKind.NAME, TokenKind.DIRECTIVE):
                self.refuse(BAD_BYTE if head and head.kind is TokenKind.BAD else SYNTAX, EMPTY_WORD)
            if head.kind is TokenKind.DIRECTIVE and head.text in DIRECTIVES and head.text not in WORD_DIRECTIVES:
                self.refuse(SYNTAX, EMPTY_WORD)
        self.read_head(head)

    def read_head(self, head: Token) -> None:
        if head.kind not in (TokenKind.NAME, TokenKind.DIRECTIVE):
            self.refuse(BAD_BYTE if head.kind is TokenKind.BAD else SYNTAX, HEAD)
        if head.text not in OPERANDS and head.text not in DIRECTIVES:
            self.refuse(NAME, HEAD)
        self.line.head = head
        self.at += 1
        if head.text in OPERANDS:
            self.read_operands(OPERANDS[head.text])
        else:
            _DIRECTIVE_READERS[head.text](self)
        self.ends()

    def read_operands(self, operands: tuple[Want, ...]) -> None:
        for place, want in enumerate(operands):
            if place:
                self.take(wants.COMMA)
            self.take(want)


def _pointer(reader: _Reader) -> None:
    reader.take(wants.PERMISSION)
    reader.target()


def _segment(reader: _Reader) -> None:
    reader.take(wants.SEGMENT_NAME)
    reader.take(wants.LOG)


def _thread(reader: _Reader) -> None:
    slot = reader.take(wants.SLOT)
    reader.take(wants.GROUP)
    handler = reader.peek()
    if handler and handler.kind is TokenKind.NUMBER and handler.value == slot.value:
        reader.refuse(RANGE, wants.HANDLER)
    reader.take(wants.HANDLER)
    reader.take(wants.CODE_PERMISSION)
    reader.target()


def _register(reader: _Reader) -> None:
    reader.take(wants.REGISTER_NUMBER)
    if reader.take(wants.VALUE).text == "int":
        reader.take(wants.ANY_NUMBER)
    else:
        _pointer(reader)


_DIRECTIVE_READERS: dict[str, Callable[[_Reader], object]] = {
    ".segment": _segment,
    ".int": lambda reader: reader.take(wants.ANY_NUMBER),
    ".ptr": _pointer,
    ".fill": lambda reader: reader.take(wants.COUNT),
    ".thread": _thread,
    ".reg": _register,
    ".spare": lambda reader: reader.take(wants.FRAMES),
}


def read_line(text: str) -> Line:
    """What a line says, as far as it can be read."""
    reader = _Reader(text)
    try:
        reader.read_label()
        reader.read_statement()
    except _Stop:
        pass
    return reader.line
