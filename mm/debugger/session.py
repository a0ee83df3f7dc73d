"""A session: a moment of a run, the slot that is looked at, and the points."""

from __future__ import annotations

import re
from typing import TYPE_CHECKING, Callable, Optional

from mm.build import Built
from mm.console import Console, Order
from mm.debugger.history import History
from mm.debugger.points import Point, PointKind, pattern_of
from mm.names.symbols import Symbols
from mm.outputs.report import Report, SlotState
from mm.outputs.trace import Turn
from mm.records import dataclass
from mm.views.cvalues import CValues
from mm.views.faults import said_at, stopped
from mm.views.spell import Memory, Speller
from mm.views.said import FaultSaid

if TYPE_CHECKING:
    from mm.debugger.conditions import Condition

ANY_TURN = re.compile("^t ")


@dataclass(frozen=True)
class Halt:
    """Why a run has stopped: at a point, by a turn, or at its end."""

    point: Optional[Point] = None
    turn: Optional[Turn] = None
    ended: bool = False
    # The cycle of the turn.
    cycle: int = 0
    # Why the condition of the point could not be reckoned.
    trouble: str = ""


class Session:
    """A run that is looked at after so many cycles."""

    def __init__(self, console: Console, built: Built, order: Order) -> None:
        self.built = built
        self.history = History(console, built, order)
        self.symbols: Symbols = built.symbols
        self.speller = Speller(built.symbols)
        self.total = 0
        self.slot = built.image.slots[0].number
        # The function of C that was chosen to be looked at, as so many calls out, and the moment and the slot of that.
        self.chosen = (0, 0, 0)
        self.points = [Point(0, PointKind.FAULT, "")]
        self.made = 0

    @property
    def report(self) -> Report:
        return self.history.report(self.total)

    @property
    def memory(self) -> Memory:
        return self.memory_at(self.total)

    def memory_at(self, total: int) -> Memory:
        """The memory after so many cycles."""
        return Memory.after(self.built.image, self.history.report(max(0, total)))

    @property
    def faults(self) -> dict[int, FaultSaid]:
        """What is said of the fault of each slot that one has halted, from the moment at which it came."""
        found = {}
        for slot in stopped(self.report):
            met = self.history.fault_of(self.total, slot)
            said = self.fault_at(*met) if met else None
            if said:
                found[slot] = said
        return found

    def fault_at(self, cycle: int, turn: Turn) -> Optional[FaultSaid]:
        """What is said of a turn that faulted."""
        report, built = self.history.report(cycle), self.built
        return said_at(report, turn.slot, turn, built.image, self.speller, self.history.past(cycle, turn.slot))

    @property
    def current(self) -> Optional[SlotState]:
        return self.report.slot(self.slot)

    @property
    def values(self) -> Optional[CValues]:
        """The variables of C that the current slot's code can see, from the function that was chosen here."""
        slot = self.current
        return CValues(slot, self.memory, self.speller, self.depth) if slot else None

    @property
    def depth(self) -> int:
        """How many calls out the function is that is looked at: none after each move."""
        number, *there = self.chosen
        return number if there == [self.total, self.slot] else 0

    def choose(self, number: int) -> None:
        """Looks at another function of C that is being carried out."""
        self.chosen = (number, self.total, self.slot)

    @property
    def last_turn(self) -> Optional[Turn]:
        return self.history.turn(self.total) if self.total else None

    @property
    def next_turn(self) -> Optional[Turn]:
        """The turn of the next cycle that is not idle."""
        return next((turn for _, turn in self.history.after(self.total, ANY_TURN)), None)

    @property
    def active(self) -> list[Point]:
        """The points at which the run stops."""
        return [point for point in self.points if point.enabled]

    def add(
        self,
        kind: PointKind,
        text: str,
        address: int = 0,
        length: int = 8,
        slot: Optional[int] = None,
        once: bool = False,
        condition: Optional[Condition] = None,
    ) -> Point:
        self.made += 1
        point = Point(self.made, kind, text, address, length, slot, once, condition)
        self.points.append(point)
        return point

    def go(self, total: int) -> Halt:
        """Goes to a moment, which ends where the run ends."""
        self.history.reach(total)
        self.total = max(0, min(total, self.history.last))
        turn = self.last_turn
        if turn:
            self.slot = turn.slot
        return Halt(turn=turn, ended=self.total < total, cycle=self.total)

    def step(self, count: int) -> Halt:
        return self.go(self.total + count)

    def back(self, count: int) -> Halt:
        return self.go(max(0, self.total - count))

    def _stop(self, cycle: int, turn: Turn, point: Point) -> Halt:
        """Stops at a point: before a turn for a break, after it for all others."""
        self.total = cycle - 1 if point.kind.before else cycle
        self.slot = turn.slot
        point.hits += 1
        if point.once:
            self.points.remove(point)
        trouble = point.condition.trouble(self) if point.condition else ""
        return Halt(point, None if point.kind.before else turn, cycle=cycle, trouble=trouble)

    def _met(self, cycle: int, turn: Turn) -> Optional[Point]:
        """The point that a turn meets. A break is met once by a slot that waits at it."""
        for point in sorted(self.active, key=lambda point: not point.kind.before):
            if self._meets(cycle, turn, point) and not (point.kind.before and self._was_there(cycle, turn, point)):
                return point
        return None

    def _meets(self, cycle: int, turn: Turn, point: Point) -> bool:
        """Whether a turn meets a point, and its condition holds: before the turn for a break, after it for all others."""
        if not point.meets(turn) or point.condition is None:
            return point.meets(turn)
        here = self.total, self.slot
        self.total, self.slot = cycle - 1 if point.kind.before else cycle, turn.slot
        try:
            return point.condition.holds(self)
        finally:
            self.total, self.slot = here

    def _was_there(self, cycle: int, turn: Turn, point: Point) -> bool:
        """Whether a slot waits at a break since an earlier turn, or is in a range since then."""
        _, previous = self.history.previous(cycle, turn.slot) or (0, None)
        if previous is None or previous.fetch is None:
            return False
        return (
            previous.outcome == "blocked" and previous.fetch == turn.fetch or point.length > 8 and point.meets(previous)
        )

    def resume(self) -> Halt:
        """Goes on to the next point, or to the end. A break right here does not count."""
        seen = self.total
        try:
            for cycle, turn in self.history.after(self.total, pattern_of(self.active)):
                seen = cycle - 1
                here = [point for point in self.active if point.kind.before] if cycle == self.total + 1 else []
                point = (
                    next((each for each in self.active if each not in here and self._meets(cycle, turn, each)), None)
                    if here
                    else self._met(cycle, turn)
                )
                if point and not self._goes_on(point):
                    return self._stop(cycle, turn, point)
        except KeyboardInterrupt:
            self.go(max(seen, self.history.looked))
            raise
        return self._to_end()

    @staticmethod
    def _goes_on(point: Point) -> bool:
        """Whether the run goes on at a point once more, since it was told to."""
        if not point.ignored:
            return False
        point.ignored, point.hits = point.ignored - 1, point.hits + 1
        return True

    def _to_end(self) -> Halt:
        self.go(self.history.last)
        return Halt(ended=True)

    def reverse(self) -> Halt:
        """Goes back to the last point before here, or to the start."""
        for cycle, turn in self.history.before(self.total, pattern_of(self.active)):
            point = self._met(cycle, turn)
            if point and (cycle - 1 if point.kind.before else cycle) < self.total:
                return self._stop(cycle, turn, point)
        return self.go(0)

    def follow(self, until: Callable[[Turn], bool]) -> Halt:
        """Goes on to before the turn of the current slot at which a condition holds, or to a point before it."""
        mine = re.compile("|".join(filter(None, [rf"^t {self.slot} ", pattern_of(self.active).pattern])))
        slot, first = self.slot, True
        for cycle, turn in self.history.after(self.total, mine):
            if turn.slot == slot and not first and until(turn):
                self.total, self.slot = cycle - 1, slot
                done, previous = self.history.previous(cycle, slot) or (0, None)
                return Halt(turn=previous, cycle=done)
            point = None if first and turn.slot == slot else self._met(cycle, turn)
            if point is None:
                after = [each for each in self.active if not each.kind.before]
                point = next((each for each in after if self._meets(cycle, turn, each)), None)
            if point and not self._goes_on(point):
                return self._stop(cycle, turn, point)
            first = first and turn.slot != slot
        return self._to_end()
