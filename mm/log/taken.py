"""The log of a run of `mm`: a window of its turns, with the machine as it was before the first of them."""

from __future__ import annotations

import contextlib
from itertools import islice
from typing import Iterator, Optional

from mm.build import Built, refused
from mm.console import Console, Order
from mm.log.read import LogReader, Step
from mm.log.replay import Machine
from mm.outputs.report import Report
from mm.outputs.trace import numbered
from mm.records import dataclass, field
from mm.status import Status, Stop
from mm.table import FROM
from mm.words import MOST_CYCLES, Words, cycles_of

# How many cycles a run has whose length was not said, and how many turns a window has at most.
FIRST_LOOK, MOST_TURNS = 10_000, 20_000
# How many of the turns at the end are kept that change nothing but counts: enough to see that a slot waits.
QUIET_TURNS = 12


def first_of(said: Words) -> int:
    """What --from says."""
    first = cycles_of(said.value(FROM))
    return max(1, first or 1)


@dataclass
class Window:
    """Turns of a run, each with its cycle; the machine before them; the report of the cycles that were run.

    `goes_on` says that the run has turns after the window, `stuck` that it has, but that none of them changes anything any more."""

    machine: Machine
    first: int
    steps: list[tuple[int, Step]] = field(default_factory=list)
    report: Report = field(default_factory=Report)
    goes_on: bool = False
    stuck: bool = False

    @property
    def last(self) -> int:
        """The last cycle of the window, its first less one where it is empty."""
        return self.steps[-1][0] if self.steps else self.first - 1


def length_of(cycles: Optional[int], first: int) -> int:
    """How many cycles are run: as many as were said, or a first look."""
    return min(MOST_CYCLES, first - 1 + FIRST_LOOK) if cycles is None else cycles


@contextlib.contextmanager
def opened(
    console: Console, built: Built, order: Order, cycles: int
) -> Iterator[tuple[LogReader, Iterator[tuple[int, Step]]]]:
    """The log of so many cycles, read as it comes: its steps with their cycles, and after them its report."""
    words = ["log", built.path, str(cycles), *order.words]
    with console.program.lines(words) as (answer, lines):
        if answer.status == Status.USAGE:
            raise Stop(
                Status.USAGE,
                f"mm: {console.program.path} has no command `log`, which `mm {console.name}` needs",
                "    build the program of this checkout, or name another one by --program",
            )
        if answer.status:
            raise refused(answer, [built.file, *order.files])
        reader = LogReader(lines)
        yield reader, numbered(reader.steps(), order.schedule)


def take_window(
    console: Console, built: Built, order: Order, cycles: Optional[int], first: int = 1, most: int = MOST_TURNS
) -> Window:
    """The turns of a run from cycle `first` on, as `mmachine log` tells them."""
    asked = min(length_of(cycles, first), first - 1 + max(most, FIRST_LOOK))
    window = Window(Machine(built.image), first)
    with opened(console, built, order, asked) as (reader, steps):
        fill(window, steps, most)
        window.report = reader.report
    cut = window.report.cycles == asked and (cycles is None or asked < cycles)
    window.goes_on = window.goes_on or (cut and has_more(window.report, order))
    if cycles is None:
        cut_quiet(window)
    return window


def has_more(report: Report, order: Order) -> bool:
    """Whether a run could go on after the cycles of a report."""
    if order.schedule is None:
        return any(slot.running for slot in report.slots)
    return order.schedule.length > report.cycles


def fill(window: Window, steps: Iterator[tuple[int, Step]], most: int) -> None:
    """Carries out the turns before a window, and keeps those in it. All others are read, since the report comes after them."""
    for cycle, step in steps:
        if cycle < window.first:
            window.machine.carry_out(step)
        else:
            window.steps.append((cycle, step))
            window.steps += islice(steps, most - 1)
            break
    window.goes_on = any(True for _ in steps)
    for _ in steps:
        pass


def cut_quiet(window: Window) -> None:
    """Leaves a few of the turns at the end that change nothing, where only such turns can come any more. A load on its way may still
    arrive."""
    if any(slot.pending for slot in window.report.slots):
        return
    quiet = 0
    for _, step in reversed(window.steps):
        if step.changes:
            break
        quiet += 1
    running = [slot.number for slot in window.report.slots if slot.running]
    last = {step.turn.slot for _, step in window.steps[len(window.steps) - quiet :]}
    if running and quiet > QUIET_TURNS and set(running) <= last:
        del window.steps[len(window.steps) - quiet + QUIET_TURNS :]
        window.stuck, window.goes_on = True, False
