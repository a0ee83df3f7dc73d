"""What a turn can change: a class for each line of a log that is no turn, with how the line is read.

Each class has the first word of its line as `key`, `read` that makes it of the line's words, and `line` that writes the line again."""

from __future__ import annotations

from dataclasses import dataclass
from typing import Any, ClassVar, Optional, Union

from mm.machine.words import Cell, Word
from mm.outputs.report import state_of, state_text


@dataclass(frozen=True)
class IpSet:
    """A slot's instruction pointer or its `past` is another."""

    key: ClassVar[str] = "ip"
    slot: int
    ip: Word
    past: bool

    @classmethod
    def read(cls, words: list[str]) -> IpSet:
        return cls(int(words[1]), Word.parse(words[2]), words[-1] == "past")

    @property
    def line(self) -> str:
        return f"ip {self.slot} {self.ip}{' past' if self.past else ''}"


@dataclass(frozen=True)
class StateSet:
    """A slot's state is another; `fault` is the number of the fault that halted it."""

    key: ClassVar[str] = "state"
    slot: int
    state: str
    fault: Optional[int]

    @classmethod
    def read(cls, words: list[str]) -> StateSet:
        return cls(int(words[1]), *state_of(words[2:]))

    @property
    def line(self) -> str:
        return f"state {self.slot} {state_text(self.state, self.fault)}"


@dataclass(frozen=True)
class RegisterSet:
    """A register has another word, or with none is empty: its load has not arrived."""

    key: ClassVar[str] = "r"
    slot: int
    register: int
    word: Optional[Word]

    @classmethod
    def read(cls, words: list[str]) -> RegisterSet:
        return cls(int(words[1]), int(words[2]), None if words[3] == "empty" else Word.parse(words[3]))

    @property
    def line(self) -> str:
        return f"r {self.slot} {self.register} {self.word or 'empty'}"


@dataclass(frozen=True)
class LoadIssued:
    """A load is pending: the word that will come to a register."""

    key: ClassVar[str] = "load"
    slot: int
    register: int
    word: Word

    @classmethod
    def read(cls, words: list[str]) -> LoadIssued:
        return cls(int(words[1]), int(words[2]), Word.parse(words[3]))

    @property
    def line(self) -> str:
        return f"load {self.slot} {self.register} {self.word}"


@dataclass(frozen=True)
class EventQueued:
    """A fault of a slot waits in its handler's queue, with the instruction pointer and the two operands."""

    key: ClassVar[str] = "event"
    handler: int
    slot: int
    fault: int
    ip: Word
    address: Word
    data: Word

    @classmethod
    def read(cls, words: list[str]) -> EventQueued:
        return cls(int(words[1]), int(words[2]), int(words[3]), *map(Word.parse, words[4:7]))

    @property
    def line(self) -> str:
        return f"event {self.handler} {self.slot} {self.fault} {self.ip} {self.address} {self.data}"


@dataclass(frozen=True)
class EventTaken:
    """A handler has read the first event of its queue."""

    key: ClassVar[str] = "taken"
    handler: int

    @classmethod
    def read(cls, words: list[str]) -> EventTaken:
        return cls(int(words[1]))

    @property
    def line(self) -> str:
        return f"taken {self.handler}"


@dataclass(frozen=True)
class ByteOut:
    """A group has put out a byte."""

    key: ClassVar[str] = "out"
    group: int
    byte: int

    @classmethod
    def read(cls, words: list[str]) -> ByteOut:
        return cls(int(words[1]), int(words[2], 16))

    @property
    def line(self) -> str:
        return f"out {self.group} {self.byte:02x}"


@dataclass(frozen=True)
class PageSet:
    """A page is new, or gone."""

    key: ClassVar[str] = "page"
    page: int
    new: bool

    @classmethod
    def read(cls, words: list[str]) -> PageSet:
        return cls(int(words[1], 16), words[2] == "new")

    @property
    def line(self) -> str:
        return f"page {self.page:011x} {'new' if self.new else 'gone'}"


@dataclass(frozen=True)
class CellSet:
    """A word in memory or its bit is another."""

    key: ClassVar[str] = "cell"
    address: int
    cell: Cell

    @classmethod
    def read(cls, words: list[str]) -> CellSet:
        return cls(int(words[1], 16), Cell(Word.parse(words[2]), words[3] == "full"))

    @property
    def line(self) -> str:
        return f"cell {self.address:014x} {self.cell.word} {'full' if self.cell.full else 'empty'}"


KINDS: tuple[Any, ...] = (IpSet, StateSet, RegisterSet, LoadIssued, EventQueued, EventTaken, ByteOut, PageSet, CellSet)
Change = Union[IpSet, StateSet, RegisterSet, LoadIssued, EventQueued, EventTaken, ByteOut, PageSet, CellSet]
READERS = {kind.key: kind.read for kind in KINDS}


def read_change(line: str) -> Optional[Change]:
    """The change that a line tells, or none if it is no such line."""
    words = line.split()
    reader = READERS.get(words[0]) if words else None
    return reader(words) if reader else None
