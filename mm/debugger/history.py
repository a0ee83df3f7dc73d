"""A run by its cycles: the turn of each, and the state after it."""

from __future__ import annotations

import bisect
import re
from typing import Iterator, Optional

from mm.build import Built
from mm.console import Console, Order
from mm.log.past import Past
from mm.outputs.report import Report, read_report
from mm.outputs.trace import Turn, cycles_of, item_of, read_turn, split_trace
from mm.views.waiting import waiting
from mm.words import MOST_CYCLES

FIRST_TURNS = 2_000
GROWTH = 8
STATES_KEPT = 64
LOOKED_AT = 2_000


class History:
    """The turns of a run, as many as were asked for so far, and its states."""

    def __init__(self, console: Console, built: Built, order: Order) -> None:
        self.console, self.built, self.order = console, built, order
        self.schedule = order.schedule
        self.lines: list[str] = []
        self.cycles: list[int] = []
        self.asked = 0
        self.states: dict[int, Report] = {}
        # The one that was looked at last.
        self.pasts: dict[tuple[int, int], Past] = {}
        self.files = [built.file, *order.files]
        self.end: Optional[int] = None
        # Up to which cycle a search for turns after one has come.
        self.looked = 0
        # Whether the run ends here since each slot that runs waits, and nothing can change that.
        self.stuck = False

    def report(self, total: int) -> Report:
        """The state after so many cycles."""
        if total not in self.states:
            answer = self.console.ask(["run", self.built.path, str(total), *self.order.words], self.files)
            if len(self.states) >= STATES_KEPT:
                self.states.pop(next(iter(self.states)))
            self.states[total] = read_report(answer.text.splitlines())
        return self.states[total]

    def past(self, cycle: int, slot: int) -> Past:
        """The run up to a cycle, in which a slot faults."""
        if (cycle, slot) not in self.pasts:
            words = [self.built.path, str(cycle), *self.order.words]
            self.pasts = {(cycle, slot): Past(self.console.program, words, self.built.image, slot)}
        return self.pasts[cycle, slot]

    @property
    def last(self) -> int:
        """At which cycle the run is known to end, or the limit."""
        return self.end if self.end is not None else MOST_CYCLES

    def reach(self, cycle: int) -> None:
        """Asks for the turns up to a cycle, and for more of them each time."""
        while cycle > self.asked and self.end is None:
            wanted = min(MOST_CYCLES, max(cycle, FIRST_TURNS, GROWTH * self.asked))
            answer = self.console.ask(["trace", self.built.path, str(wanted), *self.order.words], self.files)
            self.lines, report = split_trace(answer.text)
            self.cycles = list(cycles_of(map(item_of, self.lines), self.schedule))
            self.asked = wanted
            turns = filter(None, map(read_turn, reversed(self.lines[-LOOKED_AT:])))
            waits = waiting(turns, report, self.built.image.split)
            arriving = self.schedule is not None and any(slot.pending for slot in report.slots)
            self.stuck = any(wait.stuck for wait in waits.values()) and not arriving
            if report.cycles < wanted or wanted == MOST_CYCLES or self.stuck:
                self.end = report.cycles

    def index(self, cycle: int) -> int:
        """The place of the first line of a cycle or a later one."""
        if self.schedule is None:
            return min(max(cycle, 1) - 1, len(self.lines))
        return bisect.bisect_left(self.cycles, cycle)

    def turn(self, cycle: int) -> Optional[Turn]:
        """The turn of a cycle, or none if it is idle or the run has ended."""
        self.reach(cycle)
        at = self.index(cycle)
        return read_turn(self.lines[at]) if at < len(self.lines) and self.cycles[at] == cycle else None

    def after(self, cycle: int, wanted: re.Pattern[str]) -> Iterator[tuple[int, Turn]]:
        """The turns after a cycle whose line has a pattern, as far as the run goes."""
        seen = cycle
        while True:
            self.looked = seen
            self.reach(seen + 1)
            for at in range(self.index(seen + 1), len(self.lines)):
                if wanted.search(self.lines[at]):
                    turn = read_turn(self.lines[at])
                    if turn:
                        yield self.cycles[at], turn
            seen = self.asked
            if self.end is not None:
                return

    def before(self, cycle: int, wanted: re.Pattern[str]) -> Iterator[tuple[int, Turn]]:
        """The turns up to a cycle whose line has a pattern, the latest first."""
        self.reach(cycle)
        for at in range(self.index(cycle + 1) - 1, -1, -1):
            if wanted.search(self.lines[at]):
                turn = read_turn(self.lines[at])
                if turn:
                    yield self.cycles[at], turn

    def previous(self, cycle: int, slot: int) -> Optional[tuple[int, Turn]]:
        """The turn of a slot before a cycle, with its own cycle."""
        return next(self.before(cycle - 1, re.compile(rf"^t {slot} ")), None)

    def fault_of(self, total: int, slot: int) -> Optional[tuple[int, Turn]]:
        """The last turn of a slot that faulted, up to a moment."""
        return next(self.before(total, re.compile(rf"^t {slot} \d+ faulted ")), None)
