"""Runs: their reports, which slots wait, and what is said of faults."""

from __future__ import annotations

from typing import TYPE_CHECKING, Optional

from mm.build import Built
from mm.console import Console, Order
from mm.named import NamedFile
from mm.outputs.report import Report, read_report
from mm.records import dataclass, field
from mm.views.said import FaultSaid
from mm.words import MOST_CYCLES

if TYPE_CHECKING:
    from mm.outputs.trace import Turn
    from mm.views.waiting import Waiting

# A run whose length was not said is looked at after so many cycles: where nothing can change any more it ends there.
FIRST_LOOK = 10_000
TAIL_BYTES = 1 << 16


@dataclass
class Run:
    """A finished run: its report, which slots wait, and what is said of the fault of each slot that one has halted."""

    report: Report
    waits: dict[int, Waiting] = field(default_factory=dict)
    faults: dict[int, FaultSaid] = field(default_factory=dict)

    @property
    def stuck(self) -> bool:
        return any(wait.stuck for wait in self.waits.values())


class Runner:
    """Runs an image in an order."""

    def __init__(self, console: Console, built: Built, order: Order) -> None:
        self.console, self.built, self.order = console, built, order

    def words(self, command: str, cycles: int) -> list[str]:
        return [command, self.built.path, str(cycles), *self.order.words]

    @property
    def files(self) -> list[NamedFile]:
        return [self.built.file, *self.order.files]

    def report(self, cycles: int) -> Report:
        """The state after so many cycles."""
        return read_report(self.console.ask(self.words("run", cycles), self.files).text.splitlines())

    def run(self, cycles: int) -> Run:
        """A run of at most so many cycles."""
        run = self.waits(cycles)
        run.faults = self.faults(run.report)
        return run

    def waits(self, cycles: int) -> Run:
        """A run, of whose faults nothing is said yet."""
        answer = self.console.ask(self.words("run", cycles), self.files)
        report = read_report(answer.text.splitlines())
        if not any(slot.running for slot in report.slots):
            return Run(report)
        from mm.outputs.trace import read_turn
        from mm.views.waiting import waiting

        turns = map(read_turn, reversed(self.last_turns(report.cycles, len(answer.out))))
        return Run(report, waiting(filter(None, turns), report, self.built.image.split))

    def run_to_end(self, cycles: Optional[int]) -> Run:
        """A run of as many cycles as were said, or as many as it takes until nothing changes any more."""
        run = self.waits_to_end() if cycles is None else self.waits(cycles)
        run.faults = self.faults(run.report)
        return run

    def waits_to_end(self) -> Run:
        """A run until nothing changes any more, of whose faults nothing is said yet."""
        early = self.waits(FIRST_LOOK)
        ended = early.report.cycles < FIRST_LOOK
        return early if ended or early.stuck else self.waits(MOST_CYCLES)

    def last_turns(self, cycles: int, report_length: int) -> list[str]:
        """The last lines of the trace of a run, whose report has a known length."""
        wanted = report_length + TAIL_BYTES
        tail = self.console.program.tail(self.words("trace", cycles), wanted)
        lines = tail[: max(0, len(tail) - report_length)].decode("latin-1").splitlines()
        return lines[1:] if len(tail) == wanted else lines

    def faults(self, report: Report) -> dict[int, FaultSaid]:
        """What is said of each fault that has halted a slot, from the state right after its turn."""
        found: dict[int, FaultSaid] = {}
        if not any(slot.fault for slot in report.slots):
            return found
        from mm.log.past import Past
        from mm.views.faults import said_at
        from mm.views.spell import Speller

        speller = Speller(self.built.symbols)
        for cycle, turn in self.last_faults(report):
            past = Past(self.console.program, self.words("log", cycle)[1:], self.built.image, turn.slot)
            said = said_at(self.report(cycle), turn.slot, turn, self.built.image, speller, past)
            if said:
                found[turn.slot] = said
        return found

    def last_faults(self, report: Report) -> list[tuple[int, Turn]]:
        """The turns whose faults have halted slots, each the last of its slot, with their cycles."""
        slots = [slot.number for slot in report.slots if slot.fault]
        if not slots:
            return []
        from mm.outputs.trace import cycles_of, item_of, read_turn

        items: list[int] = []
        found: dict[str, int] = {}
        turns: dict[str, str] = {}
        with self.console.program.lines(self.words("trace", report.cycles)) as (_, lines):
            for line in lines:
                if line.startswith("cycles "):
                    break
                items.append(item_of(line) if self.order.files else 0)
                if " faulted " in line:
                    slot = line.split(None, 2)[1]
                    found[slot], turns[slot] = len(items), line
        cycles = list(cycles_of(items, self.order.schedule))
        told = [(cycles[found[str(slot)] - 1], read_turn(turns[str(slot)])) for slot in slots if str(slot) in found]
        return [(cycle, turn) for cycle, turn in told if turn]
