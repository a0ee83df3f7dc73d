"""What may stand in each place of a statement. Operations bring their operands from the table of operations."""

from __future__ import annotations

from enum import Enum
from typing import Optional

from mm.machine.isa import OPERATIONS, Kind
from mm.machine.words import BY_SHORT
from mm.records import dataclass
from mm.source.tokens import Token, TokenKind

LONGEST_NAME = 31
SYNTAX, NAME, RANGE = 2, 3, 4
REGISTERS = {f"r{number}": number for number in range(16)}


class Sort(Enum):
    """How a place is tested."""

    NAME = "name"
    NUMBER = "number"
    CHOICE = "choice"
    WORD = "word"
    HANDLER = "handler"
    REGISTER = "register"
    PLACE = "place"
    SIGN = "sign"
    END = "end"


@dataclass(frozen=True)
class Want:
    """A place: how it is tested, what may stand there in words, and the range or the words that it takes."""

    sort: Sort
    says: str
    low: int = 0
    high: int = 0
    choices: tuple[str, ...] = ()

    def fault_of(self, token: Optional[Token]) -> Optional[int]:
        """The number of the fault that a token is in this place, or none."""
        if self.sort is Sort.END:
            return SYNTAX if token else None
        return SYNTAX if token is None else _TESTS[self.sort](self, token)


def _name(_: Want, token: Token) -> Optional[int]:
    if token.kind is not TokenKind.NAME:
        return SYNTAX
    return NAME if len(token.text) > LONGEST_NAME else None


def _number(want: Want, token: Token) -> Optional[int]:
    if token.kind is not TokenKind.NUMBER:
        return SYNTAX
    return None if want.low <= token.value <= want.high else RANGE


def _choice(want: Want, token: Token) -> Optional[int]:
    if token.kind is not TokenKind.NAME:
        return SYNTAX
    return None if token.text in want.choices else NAME


def _word(want: Want, token: Token) -> Optional[int]:
    return None if token.kind is TokenKind.NAME and token.text in want.choices else SYNTAX


def _handler(want: Want, token: Token) -> Optional[int]:
    return _number(want, token) if token.kind is TokenKind.NUMBER else _word(want, token)


def _register(want: Want, token: Token) -> Optional[int]:
    if token.kind is not TokenKind.NAME or token.text not in REGISTERS:
        return SYNTAX
    return None if REGISTERS[token.text] <= want.high else RANGE


def _place(want: Want, token: Token) -> Optional[int]:
    return _name(want, token) if token.kind is TokenKind.NAME else _number(want, token)


def _sign(want: Want, token: Token) -> Optional[int]:
    return None if token.kind is TokenKind.SIGN and token.text in want.choices else SYNTAX


_TESTS = {
    Sort.NAME: _name,
    Sort.NUMBER: _number,
    Sort.CHOICE: _choice,
    Sort.WORD: _word,
    Sort.HANDLER: _handler,
    Sort.REGISTER: _register,
    Sort.PLACE: _place,
    Sort.SIGN: _sign,
}

COMMA = Want(Sort.SIGN, "a comma", choices=(",",))
PLUS = Want(Sort.SIGN, "`+`", choices=("+",))
END = Want(Sort.END, "the end of the line")
TARGET = Want(Sort.NAME, "the name of a label or a segment")
ADDEND = Want(Sort.NUMBER, "an offset in bytes, 0 to 1048575", 0, (1 << 20) - 1)
PERMISSION = Want(Sort.CHOICE, "a permission: ro, rw, xu, xp, eu, ep or key", choices=tuple(BY_SHORT))
CODE_PERMISSION = Want(Sort.CHOICE, "xu (user code) or xp (privileged code)", choices=("xu", "xp"))
ANY_NUMBER = Want(Sort.NUMBER, "a number from -2^63 to 2^64 - 1", -(1 << 63), (1 << 64) - 1)
SEGMENT_NAME = Want(Sort.NAME, "the segment's name")
LOG = Want(Sort.NUMBER, "the logarithm of the segment's length in bytes, 3 to 20", 3, 20)
COUNT = Want(Sort.NUMBER, "how many words, 0 to 131072", 0, 131_072)
FRAMES = Want(Sort.NUMBER, "how many frames, 0 to 256", 0, 256)
SLOT = Want(Sort.NUMBER, "the thread's slot, 0 to 15", 0, 15)
GROUP = Want(Sort.NUMBER, "the thread's group, 0 to 15", 0, 15)
HANDLER = Want(Sort.HANDLER, "the handler's slot, 0 to 15, or none", 0, 15, ("none",))
REGISTER_NUMBER = Want(Sort.NUMBER, "the number of a register, 0 to 15", 0, 15)
VALUE = Want(Sort.WORD, "int or ptr", choices=("int", "ptr"))


def _of_kind(kind: Kind) -> Want:
    if kind.is_register:
        return Want(Sort.REGISTER, kind.wanted, high=12 if kind is Kind.RD4 else 15)
    if kind.choices:
        return Want(Sort.CHOICE, kind.wanted, choices=kind.choices)
    low, high = (0, 15) if kind is Kind.REGISTER else (-(1 << 31), (1 << 32) - 1)
    return Want(Sort.PLACE if kind is Kind.PLACE else Sort.NUMBER, kind.wanted, low, high)


OPERANDS = {name: tuple(_of_kind(kind) for kind in operation.operands) for name, operation in OPERATIONS.items()}


@dataclass(frozen=True)
class Directive:
    """A directive: how it is written, an example, and what it means."""

    usage: str
    example: str
    meaning: str


DIRECTIVES = {
    ".segment": Directive(
        ".segment NAME L", ".segment main 6", "begins a segment of 2^L bytes, L from 3 to 20: room for 2^(L-3) words"
    ),
    ".int": Directive(".int NUMBER", ".int 65", "a word that holds the number"),
    ".ptr": Directive(
        ".ptr PERMISSION TARGET", ".ptr rw box + 8", "a word that holds a pointer to a label or a segment"
    ),
    ".fill": Directive(".fill COUNT", ".fill 8", "COUNT words that hold 0"),
    ".empty": Directive(
        ".empty WORD", ".empty .int 0", "a word whose synchronisation bit is empty; WORD is .int, .ptr or an operation"
    ),
    ".thread": Directive(
        ".thread SLOT GROUP HANDLER PERMISSION TARGET",
        ".thread 0 0 none xu main",
        "starts a thread at the target; HANDLER is a slot or none, PERMISSION is xu or xp",
    ),
    ".reg": Directive(
        ".reg NUMBER int VALUE | ptr PERMISSION TARGET",
        ".reg 1 ptr rw box",
        "what a register of the last thread begins with",
    ),
    ".spare": Directive(".spare FRAMES", ".spare 2", "how many frames the machine has besides those of its pages"),
}
