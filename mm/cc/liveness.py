"""When each register of a function's code holds something that is still used: ranges of places, over blocks and
loops."""

from __future__ import annotations

from dataclasses import dataclass, field
from typing import Iterator

from mm.cc.code import Code, CodeBlock, Op

Range = tuple[int, int]


def _bits(number: int) -> Iterator[int]:
    """The places of the bits that are set."""
    while number:
        low = number & -number
        yield low.bit_length() - 1
        number ^= low


@dataclass
class Interval:
    """The places where a register is live, ascending, and how much its uses are worth."""

    register: int
    ranges: list[Range] = field(default_factory=list)
    weight: float = 0.0
    uses: int = 0
    urgent: bool = False
    over_call: bool = False

    @property
    def length(self) -> int:
        return sum(end - start for start, end in self.ranges)


def depths(blocks: list[CodeBlock]) -> None:
    """How many loops each block is in: a jump back makes a loop of all blocks on the way."""
    at = {block.label: number for number, block in enumerate(blocks)}
    change = [0] * (len(blocks) + 1)
    for number, block in enumerate(blocks):
        for label in block.next:
            target = at[label]
            if target <= number:
                change[target] += 1
                change[number + 1] -= 1
    depth = 0
    for number, block in enumerate(blocks):
        depth += change[number]
        block.depth = min(depth, 5)


class Liveness:
    """The intervals of a function's registers. Operation k of the whole function reads at place 2k and defines at 2k
    + 1."""

    def __init__(self, code: Code) -> None:
        self.code = code
        depths(code.blocks)
        self.calls: list[int] = []
        self.intervals: dict[int, Interval] = {}
        self.moves: list[tuple[int, Op]] = []
        self._ranges(*self._before_and_after())

    def _before_and_after(self) -> tuple[list[int], list[int]]:
        """The registers that are live at the beginning and at the end of each block, as bits."""
        blocks = self.code.blocks
        at = {block.label: number for number, block in enumerate(blocks)}
        used, made = self._used_and_made()
        before = list(used)
        after = [0] * len(blocks)
        nexts = [[at[label] for label in block.next] for block in blocks]
        leads: list[list[int]] = [[] for _ in blocks]
        for number, targets in enumerate(nexts):
            for target in targets:
                leads[target].append(number)
        work = list(range(len(blocks)))
        waiting = [True] * len(blocks)
        while work:
            number = work.pop()
            waiting[number] = False
            out = 0
            for target in nexts[number]:
                out |= before[target]
            after[number] = out
            new = used[number] | out & ~made[number]
            if new != before[number]:
                before[number] = new
                for lead in leads[number]:
                    if not waiting[lead]:
                        waiting[lead] = True
                        work.append(lead)
        return before, after

    def _used_and_made(self) -> tuple[list[int], list[int]]:
        """The registers that each block reads before it defines them, and those that it defines, as bits."""
        used, made = [], []
        for block in self.code.blocks:
            uses = defines = 0
            for op in block.body:
                for register in op.uses():
                    bit = 1 << register
                    if not defines & bit:
                        uses |= bit
                for register in op.defines():
                    defines |= 1 << register
                if op.name == "entry" and op.d is not None:
                    defines |= 1 << op.d
            used.append(uses)
            made.append(defines)
        return used, made

    def _ranges(self, before: list[int], after: list[int]) -> None:
        """Goes through the code backwards. What is live from one block into the next stays open between them, so each
        block costs what it has and changes."""
        place = 2 * sum(len(block.body) for block in self.code.blocks)
        open_: dict[int, int] = {}
        known = 0
        ranges: dict[int, list[Range]] = {}
        weights: dict[int, float] = {}
        uses: dict[int, int] = {}
        urgent: set[int] = set()
        for block, begins, live in zip(reversed(self.code.blocks), reversed(before), reversed(after)):
            end = place
            worth = 10.0**block.depth
            for register in _bits(known & ~live):
                self._add(ranges.setdefault(register, []), end, open_.pop(register))
            for register in _bits(live & ~known):
                open_[register] = end
            for op in reversed(block.body):
                place -= 2
                self._operation(op, place, open_, ranges)
                for register in op.defines():
                    weights[register] = weights.get(register, 0) + worth
                for register in op.uses():
                    weights[register] = weights.get(register, 0) + worth
                    uses[register] = uses.get(register, 0) + 1
                for register in op.temporary:
                    ranges.setdefault(register, []).append((place, place + 2))
                    urgent.add(register)
                if op.name == "mov":
                    self.moves.append((block.depth, op))
            known = begins
        for register, last in open_.items():
            self._add(ranges.setdefault(register, []), 0, last)
        for register, found in ranges.items():
            found.reverse()
            self.intervals[register] = Interval(register, found, weights.get(register, 0), uses.get(register, 0),
                                                register in urgent)
        self.calls.reverse()

    def _operation(self, op: Op, place: int, open_: dict[int, int], ranges: dict[int, list[Range]]) -> None:
        if op.name == "call":
            self.calls.append(place)
        defines = op.defines()
        if op.name == "entry" and op.d is not None:
            defines = [*defines, op.d]
        for register in defines:
            last = open_.pop(register, place + 2)
            self._add(ranges.setdefault(register, []), place + 1, last)
        for register in op.uses():
            if register not in open_:
                open_[register] = place + 2 if register in op.late else place + 1
        for register in op.late:
            if open_.get(register, 0) < place + 2:
                open_[register] = place + 2

    @staticmethod
    def _add(ranges: list[Range], start: int, end: int) -> None:
        """Adds a range before all others; ranges stand in falling order here."""
        if ranges and ranges[-1][0] <= end:
            ranges[-1] = (start, max(end, ranges[-1][1]))
        else:
            ranges.append((start, end))
