"""Gives registers of the machine to those of a function's code: the most used ones first, over all blocks."""

from __future__ import annotations

from bisect import bisect_left, bisect_right, insort
from typing import Optional

from mm.cc.code import ARGUMENTS, FIRST_KEPT, LAST_KEPT, VARIADIC, Call, Code
from mm.cc.liveness import Interval, Liveness, Range

# After every place of a function.
NEVER = 1 << 60
# How many times longer a list must be than another one, to be searched rather than gone through.
MANY = 8


class Allocation:
    """Where each register of the code is: a register of the machine, or a slot of the frame; fixed values may be in
    neither, and are made where they are used."""

    def __init__(self, code: Code) -> None:
        self.code = code
        self.live = Liveness(code)
        self.same: dict[int, int] = {}
        self.home: dict[int, int] = {}
        self.slot: dict[int, int] = {}
        self.slots = 0
        events = any(block.events for block in code.blocks)
        # Of each register, for the debugger, its own ranges, before any are joined, and where these end.
        self.own: dict[int, list[Range]] = {}
        self.own_ends: dict[int, list[int]] = {}
        for register, interval in self.live.intervals.items() if events else ():
            self.own[register] = list(interval.ranges)
            self.own_ends[register] = [end for _, end in interval.ranges]
        self._give_fixed_ranges()
        self._join_moves()
        self._mark_calls()
        self._allocate()

    def root(self, register: int) -> int:
        """The register that one was joined to; the way there is made short."""
        found = register
        while found in self.same:
            found = self.same[found]
        while register != found:
            self.same[register], register = found, self.same[register]
        return found

    def of(self, register: int) -> Optional[int]:
        """The machine's register, if there is one."""
        return self.home.get(self.root(register))

    def slot_of(self, register: int) -> int:
        return self.slot[self.root(register)]

    def has_slot(self, register: int) -> bool:
        return self.root(register) in self.slot

    def range_at(self, register: int, place: int) -> Range:
        """Where a register of the code has its value, from the first such range on that ends after a place."""
        at = bisect_right(self.own_ends.get(register, ()), place)
        ranges = self.own.get(register, [])
        return ranges[at] if at < len(ranges) else (NEVER, NEVER)

    def _give_fixed_ranges(self) -> None:
        """A fixed value is made at the beginning of the function, so it is live from there on to where liveness finds
        it."""
        for register in self.code.fixed:
            interval = self.live.intervals.get(register)
            if interval is not None and interval.ranges[0][0] > 1:
                first = interval.ranges[0]
                interval.ranges[0] = (1, first[1])

    # Moves

    def _join_moves(self) -> None:
        """Registers that are moved into one another become one, where they are never live at one place with different
        values."""
        intervals, fixed = self.live.intervals, self.code.fixed
        for _, op in sorted(self.live.moves, key=lambda item: -item[0]):
            assert op.d is not None and op.a is not None
            d, a = self.root(op.d), self.root(op.a)
            if d == a or d in fixed or a in fixed:
                continue
            first, second = intervals.get(d), intervals.get(a)
            if first is None or second is None or first.urgent or second.urgent:
                continue
            if not overlap(first.ranges, second.ranges):
                first.ranges = union(first.ranges, second.ranges)
                first.weight += second.weight
                first.uses += second.uses
                self.same[a] = d
                del intervals[a]

    def _mark_calls(self) -> None:
        calls = self.live.calls
        if not calls:
            return
        for interval in self.live.intervals.values():
            for start, end in interval.ranges:
                at = bisect_left(calls, start)
                if at < len(calls) and calls[at] + 1 < end:
                    interval.over_call = True
                    break

    # Registers

    def _worth(self, interval: Interval) -> float:
        if interval.urgent:
            return float("inf")
        if interval.register in self.code.fixed:
            fixed = self.code.fixed[interval.register]
            cost = 2 if fixed.kind in ("global", "local") or not -(1 << 31) <= fixed.number < 1 << 31 else 1
            return cost * (interval.weight - 1.5) / (interval.length + 2)
        return interval.weight / (interval.length + 2)

    def _allocate(self) -> None:
        last = LAST_KEPT - 1 if self.code.dynamic else LAST_KEPT
        kept = list(range(FIRST_KEPT, last + 1))
        free = list(range(FIRST_KEPT))
        taken: dict[int, list[Range]] = {register: [] for register in [*free, *kept]}
        hints = self._hints()
        spilled: list[Interval] = []
        order = sorted(self.live.intervals.values(), key=lambda item: -self._worth(item))
        for interval in order:
            worth = self._worth(interval)
            if worth <= 0 or self.code.twice and not interval.urgent and interval.over_call:
                spilled.append(interval)
                continue
            choices = kept if interval.over_call else self._choices(hints.get(interval.register), free, kept, taken)
            for register in choices:
                if not meets(taken[register], interval.ranges):
                    if register >= FIRST_KEPT and not taken[register] and worth * (interval.length + 2) < 2.5:
                        continue
                    self.home[interval.register] = register
                    for found in interval.ranges:
                        insort(taken[register], found)
                    break
            else:
                spilled.append(interval)
        self.used_kept = [register for register in kept if taken[register]]
        self._give_slots(spilled)

    @staticmethod
    def _choices(hint: Optional[int], free: list[int], kept: list[int], taken: dict[int, list[Range]]) -> list[int]:
        used = [register for register in kept if taken[register]]
        unused = [register for register in kept if not taken[register]]
        rest = [*free, *used, *unused]
        return rest if hint is None else [hint, *rest]

    def _hints(self) -> dict[int, int]:
        """The registers in which arguments and results come and go."""
        hints: dict[int, int] = {}
        for block in self.code.blocks:
            for op in block.body:
                if op.name == "call" and isinstance(op.extra, Call):
                    for number, register in enumerate(op.extra.arguments):
                        hints.setdefault(self.root(register), number)
                    for number, register in enumerate(op.extra.results):
                        hints.setdefault(self.root(register), number)
                elif op.name == "entry" and isinstance(op.extra, Call):
                    for number, register in enumerate(op.extra.results[:ARGUMENTS]):
                        hints[self.root(register)] = number
                    if op.d is not None:
                        hints[self.root(op.d)] = VARIADIC
                elif op.name == "ret":
                    for number, register in enumerate(op.extra):  # type: ignore[arg-type, var-annotated]
                        hints.setdefault(self.root(register), number)
        return hints

    # Slots

    def _give_slots(self, spilled: list[Interval]) -> None:
        """Slots are shared by what is never live together, but for functions that may return twice."""
        rows: list[list[Range]] = []
        for interval in spilled:
            fixed = self.code.fixed.get(interval.register)
            if fixed is not None and fixed.kind != "local":
                continue
            for number, row in enumerate(rows):
                if not self.code.twice and not meets(row, interval.ranges):
                    break
            else:
                number = len(rows)
                rows.append([])
            self.slot[interval.register] = number
            for found in interval.ranges:
                insort(rows[number], found)
        self.slots = len(rows)


def overlap(first: list[Range], second: list[Range]) -> bool:
    """Whether two ascending lists of ranges have a common place."""
    if len(first) > MANY * len(second) or len(second) > MANY * len(first):
        return meets(first, second) if len(first) > len(second) else meets(second, first)
    at = other = 0
    while at < len(first) and other < len(second):
        if first[at][1] <= second[other][0]:
            at += 1
        elif second[other][1] <= first[at][0]:
            other += 1
        else:
            return True
    return False


def union(first: list[Range], second: list[Range]) -> list[Range]:
    """The ranges of both. A short list is put into a long one, which is changed."""
    if len(first) > MANY * len(second) or len(second) > MANY * len(first):
        long, short = (first, second) if len(first) > len(second) else (second, first)
        for each in short:
            _put(long, *each)
        return long
    found: list[Range] = []
    for start, end in sorted(first + second):
        if found and found[-1][1] >= start:
            found[-1] = (found[-1][0], max(end, found[-1][1]))
        else:
            found.append((start, end))
    return found


def _put(ranges: list[Range], start: int, end: int) -> None:
    """Puts a range into ascending ones, joined with those that it touches."""
    at = bisect_left(ranges, (start,))
    if at and ranges[at - 1][1] >= start:
        at -= 1
        start, end = ranges[at][0], max(end, ranges[at][1])
    after = at
    while after < len(ranges) and ranges[after][0] <= end:
        end = max(end, ranges[after][1])
        after += 1
    ranges[at:after] = [(start, end)]


def meets(taken: list[Range], ranges: list[Range]) -> bool:
    """Whether ranges meet a register's ascending ranges."""
    if not taken:
        return False
    for start, end in ranges:
        at = bisect_right(taken, (start, 1 << 60)) - 1
        if at >= 0 and taken[at][1] > start:
            return True
        if at + 1 < len(taken) and taken[at + 1][0] < end:
            return True
    return False
