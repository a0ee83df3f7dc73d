"""The code of a function on its way to the machine: operations over registers without number, in blocks."""

from __future__ import annotations

from dataclasses import dataclass, field
from typing import Any, NamedTuple, Optional

# The registers. Arguments come in the first six; those from FIRST_KEPT to LAST_KEPT are kept by a function that is
# called.
ARGUMENTS = 6
VARIADIC = 6
FIRST_KEPT, LAST_KEPT = 7, 11
FRAME = 11
SCRATCH, SECOND, LINK, STACK = 12, 13, 14, 15


@dataclass(frozen=True)
class Fixed:
    """A value that can be made anywhere: a number, the pointer of a global, of a local object, or of a place in the
    text."""

    kind: str
    number: int = 0
    name: str = ""


@dataclass
class Call:
    """A call: its arguments in registers and on the stack, what it gives, and words that a variadic function reads."""

    label: str = ""
    arguments: list[int] = field(default_factory=list)
    stacked: list[int] = field(default_factory=list)
    variadic: bool = False
    words: list[int] = field(default_factory=list)
    results: list[int] = field(default_factory=list)
    twice: bool = False


class Variable(NamedTuple):
    """A variable of C: what LLVM's text says of it and of the place where it is declared, by their numbers there."""

    node: str
    location: str


@dataclass(frozen=True)
class Where:
    """Where a variable is: the sum of values and a number, or in memory there. Each value is in several registers, not
    always in all of them. The address of a global may be a part too."""

    parts: tuple[tuple[int, ...], ...] = ()
    number: int = 0
    memory: bool = False
    global_: str = ""


class Op:
    """An operation: what it defines, up to two registers and a number. `late` are registers that are still read after
    it defines, `temporary` others that it needs meanwhile."""

    __slots__ = ("name", "d", "a", "b", "number", "extra", "late", "temporary", "line")

    def __init__(self, name: str, d: Optional[int] = None, a: Optional[int] = None, b: Optional[int] = None,
                 number: int = 0, extra: object = None, late: tuple[int, ...] = (),
                 temporary: tuple[int, ...] = ()) -> None:
        self.name, self.d, self.a, self.b, self.number, self.extra = name, d, a, b, number, extra
        self.late, self.temporary = late, temporary
        self.line: Optional[str] = None

    def uses(self) -> list[int]:
        found = [register for register in (self.a, self.b) if register is not None]
        extra = self.extra
        if type(extra) is Call:
            found += extra.arguments + extra.stacked + extra.words
        elif type(extra) is tuple:
            found += extra
        return found

    def defines(self) -> list[int]:
        if self.name == "call":
            return self.extra.results  # type: ignore[attr-defined, no-any-return]
        if self.name == "entry":
            return self.extra.results  # type: ignore[attr-defined, no-any-return]
        return [self.d] if self.d is not None else []

    def __repr__(self) -> str:
        return f"{self.name} d={self.d} a={self.a} b={self.b} {self.number} {self.extra}"


@dataclass
class CodeBlock:
    """A block: operations, and the blocks that may follow."""

    label: str
    body: list[Op] = field(default_factory=list)
    next: list[str] = field(default_factory=list)
    depth: int = 0
    # Where variables are, each from an operation of the block on.
    events: list[Any] = field(default_factory=list)


@dataclass
class LocalObject:
    """An object in a frame, with a segment of its own: its size, the place in its segment, and the segment's length."""

    name: str
    size: int
    align: int
    log: int
    place: int
    at: int = 0
    variable: Optional[Variable] = None


@dataclass
class Code:
    """The code of a function."""

    name: str
    label: str
    blocks: list[CodeBlock] = field(default_factory=list)
    registers: int = 0
    fixed: dict[int, Fixed] = field(default_factory=dict)
    objects: list[LocalObject] = field(default_factory=list)
    dynamic: bool = False
    twice: bool = False
    variadic: bool = False

    def new(self) -> int:
        self.registers += 1
        return self.registers - 1


def log_of(size: int) -> int:
    """The least length of a segment, at least a word, that holds so many bytes."""
    return max(3, (size - 1).bit_length() if size > 0 else 3)


def place_in(size: int, align: int, log: int, at_end: bool) -> int:
    """Where an object stands in its segment: at the end, as far as its alignment allows, or at the beginning."""
    return ((1 << log) - max(size, 1)) // align * align if at_end else 0
