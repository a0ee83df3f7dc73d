"""How often each operation had each outcome: counted from logs and the machines that they rebuild."""

from __future__ import annotations

from collections import Counter
from typing import Iterable, Iterator, Optional

from mm.log.changes import PageSet, RegisterSet
from mm.log.read import Step
from mm.log.replay import Machine
from mm.machine.causes import Cause
from mm.machine.isa import OPERATIONS, Instruction, decode

FETCH, PORT = "(fetch)", "(port)"
DID, BLOCKED = "did", "blocked"
Cell = tuple[str, str]


def instruction_of(machine: Machine, step: Step) -> Optional[Instruction]:
    """The instruction of a turn, before it is carried out; none if the turn ended before one was known."""
    cell = None if step.turn.fetch is None else machine.cell(step.turn.fetch)
    return decode(cell.word.bits) if cell and not cell.word.tagged else None


def outcome_of(step: Step) -> str:
    fault = Cause.of_number(step.turn.fault) if step.turn.fault else None
    return fault.title if fault else step.turn.outcome


def blocked_by(step: Step) -> str:
    """Why a turn is blocked: by a load of its own slot or of the one that it serves, a bit, or a lack of events."""
    for change in step.changes:
        if isinstance(change, RegisterSet):
            return "own load" if change.slot == step.turn.slot else "served slot's load"
    return "bit" if step.turn.access else "event"


def ways_of(machine: Machine, instruction: Instruction, step: Step) -> Iterator[str]:
    """What more than its outcome can be told of a turn that was done."""
    name = instruction.name
    if name in ("bz", "bnz"):
        yield "taken" if branch_taken(machine, instruction, step) else "not taken"
    if name in ("map", "unmap"):
        yield "a page" if any(isinstance(change, PageSet) for change in step.changes) else "no page"
    if name == "resume":
        yield instruction.choice("how")
    if name in ("jmp", "jal"):
        yield "enters" if step.turn.entered else "jumps"
    if name in ("ld", "st"):
        yield f"{instruction.choice('pre')}, {instruction.choice('post')}"
    slot = machine.slots[step.turn.slot]
    if slot.ip.pointer and slot.ip.pointer.permission.short == "xp":
        yield "privileged"


def branch_taken(machine: Machine, instruction: Instruction, step: Step) -> bool:
    word = machine.slots[step.turn.slot].registers[instruction.value("ra")]
    return (word is not None and word.bits == 0) == (instruction.name == "bz")


class Tally:
    """Counts of turns by operation and outcome, and of ways in which they came to it."""

    def __init__(self) -> None:
        self.cells: Counter[Cell] = Counter()
        self.ways: Counter[Cell] = Counter()
        self.cases = self.turns = 0

    def add(self, other: "Tally") -> None:
        self.cells.update(other.cells)
        self.ways.update(other.ways)
        self.cases += other.cases
        self.turns += other.turns

    def count(self, machine: Machine, steps: Iterable[Step]) -> None:
        """Counts the turns of a log, which are carried out on the machine."""
        self.cases += 1
        for step in steps:
            self.turns += 1
            self._turn(machine, step)
            machine.carry_out(step)

    def _turn(self, machine: Machine, step: Step) -> None:
        outcome = outcome_of(step)
        if step.turn.delivered is not None:
            self.cells[PORT, DID] += 1
            self.ways[PORT, machine.slots[step.turn.slot].state] += 1
            return
        instruction = instruction_of(machine, step)
        if instruction is None:
            self.cells[FETCH, outcome] += 1
            past = machine.slots[step.turn.slot].past
            self.ways[FETCH, f"{outcome}, past" if past else outcome] += 1
            return
        self.cells[instruction.name, outcome] += 1
        if outcome == BLOCKED:
            self.ways[instruction.name, f"blocked: {blocked_by(step)}"] += 1
        elif outcome == DID:
            for way in ways_of(machine, instruction, step):
                self.ways[instruction.name, way] += 1

    def lines(self) -> Iterator[str]:
        """The table, and below it the ways."""
        yield f"{self.cases} cases, {self.turns} turns"
        yield ""
        yield "| operation | done | blocked | faulted |"
        yield "|---|---|---|---|"
        for name in (FETCH, *OPERATIONS, PORT):
            done, blocked = (str(self.cells[name, outcome] or "") for outcome in (DID, BLOCKED))
            faults = ((cause.title, self.cells[name, cause.title]) for cause in Cause)
            faulted = ", ".join(f"{title} {count}" for title, count in faults if count)
            yield f"| {name} | {done} | {blocked} | {faulted} |"
        yield ""
        for name in (FETCH, *OPERATIONS, PORT):
            ways = sorted((way, count) for (of, way), count in self.ways.items() if of == name)
            if ways:
                yield f"{name}: " + "; ".join(f"{way} {count}" for way, count in ways)
