"""A program under one run of an exercise. It is run, audited and explored if a line asks for it."""

from __future__ import annotations

from functools import cached_property
from typing import Callable, Optional

from mm.build import Built, Unit
from mm.console import Console, Order
from mm.grading.ran import Ran, what_ran
from mm.grading.sheet import Case, Sheet
from mm.machine.words import Cell, Pointer
from mm.named import NamedFile
from mm.names.expressions import NoAddress, span_of
from mm.names.numbers import number_of
from mm.outputs.audit import Audit, read_audit
from mm.outputs.exploration import Exploration, read_exploration
from mm.outputs.report import Report, SlotState, read_report
from mm.views.spell import Memory, Speller
from mm.words import cycles_of, groups_of

CYCLES, STATES = 100_000, 100_000
REGISTERS = 16


class WrongLine(Exception):
    """A line of a sheet that cannot be looked at, with the reason."""


class NotSo(Exception):
    """What is so in the place of what a line expects."""


class Program:
    """A program that is looked at."""

    def __init__(
        self, console: Console, built: Built, sheet: Sheet, case: Case, official: Optional[Callable[[], Program]] = None
    ) -> None:
        self.console, self.built, self.sheet, self.case = console, built, sheet, case
        self._official = official

    @cached_property
    def official(self) -> Program:
        """The first answer of the sheet under the same run."""
        if self._official is None:
            raise WrongLine("there is no answer to compare with")
        return self._official()

    @cached_property
    def cycles(self) -> int:
        cycles = cycles_of(self.case.cycles)
        return CYCLES if cycles is None else cycles

    @cached_property
    def order(self) -> Order:
        if self.case.schedule is None:
            return Order()
        file = NamedFile("schedule", self.case.schedule.encode())
        return Order(file, self.console.workshop.keep(file.data, ".schedule"))

    @cached_property
    def report(self) -> Report:
        words = ["run", self.built.path, str(self.cycles), *self.order.words]
        answer = self.console.ask(words, [self.built.file, *self.order.files])
        return read_report(answer.text.splitlines())

    @cached_property
    def ran(self) -> Ran:
        return what_ran(self.console, self.built, self.order, self.cycles)

    @cached_property
    def exploration(self) -> Exploration:
        return read_exploration(self.console.ask(["explore", self.built.path, str(STATES)], [self.built.file]).text)

    @cached_property
    def memory(self) -> Memory:
        """The memory at the end of the run."""
        return Memory.after(self.built.image, self.report)

    @property
    def speller(self) -> Speller:
        return Speller(self.built.symbols)

    def audit(self, groups: str = "") -> Audit:
        words = [groups_of(groups)] if groups else []
        return read_audit(self.console.ask(["grants", self.built.path, *words], [self.built.file]).text)

    @cached_property
    def operations(self) -> set[str]:
        """The operations of the sources."""
        texts = [unit.source for unit in self.built.units if unit.source]
        return {run.head for text in texts for segment in text.segments for run in segment.runs}

    @property
    def unread(self) -> Optional[str]:
        """A file of which there is no source, so that nothing can be said of its operations."""
        names = [unit.name for unit in self.built.units if unit.source is None]
        if not self.built.units:
            names = [self.built.name]
        return names[0] if names else None

    def slot(self, number: str) -> SlotState:
        """A slot at the end of the run."""
        found = self.report.slot(number_in(number))
        if found is None:
            raise NotSo(f"there is no slot {number}")
        return found

    def span(self, name: str) -> tuple[int, int]:
        """The first address of a name, and the one after its last byte: a label is a word, a segment all its words."""
        begin, length = span_in(self.built, name)
        return begin, begin + length

    def address(self, name: str) -> int:
        return address_in(self.built, name)

    def cell(self, name: str) -> Cell:
        """The cell at a name, at the end of the run."""
        cell = self.memory.cell(self.address(name))
        if cell is None:
            raise NotSo(f"there is no memory at {name}")
        return cell

    def given(self, name: str) -> Unit:
        """A source that the sheet names, assembled."""
        return unit_of(self.console, self.sheet, name)


def span_in(built: Built, name: str) -> tuple[int, int]:
    """The first address of a name of a program, and how many bytes it covers."""
    try:
        return span_of(name, built.symbols)
    except NoAddress as no:
        asked = ", and the exercise asks for one" if no.lists else ""
        raise NotSo(f"{no.why}{no.near or asked}") from None


def address_in(built: Built, name: str) -> int:
    return span_in(built, name)[0]


def unit_of(console: Console, sheet: Sheet, name: str) -> Unit:
    """A source that a sheet names, assembled."""
    try:
        with open(sheet.path(name), "rb") as file:
            data = file.read()
    except OSError as error:
        raise WrongLine(f"{name} cannot be read: {error.strerror}") from None
    return console.workshop.unit(name, data)


def number_in(text: str) -> int:
    number = number_of(text)
    if number is None:
        raise WrongLine(f"`{text}` is not a number")
    return number


def register_in(text: str) -> int:
    place = number_of(text[1:]) if text.startswith("r") else None
    if place is None or not 0 <= place < REGISTERS:
        raise WrongLine(f"`{text}` is not a register: r0 to r15")
    return place


def slot_in(text: str) -> Optional[int]:
    """A slot, or none for any of them."""
    return None if text == "any" else number_in(text)


def overlaps(pointer: Pointer, begin: int, end: int) -> bool:
    return pointer.base < end and begin < pointer.end
