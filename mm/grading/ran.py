"""What a run did: the instructions that its slots carried out, by its log, and the words that their registers held."""

from __future__ import annotations

from collections import defaultdict
from dataclasses import dataclass, field
from typing import Iterator, Optional

from mm.build import Built
from mm.console import Console, Order
from mm.log.changes import CellSet, RegisterSet
from mm.log.read import Step
from mm.log.replay import Machine, SlotNow
from mm.log.taken import opened
from mm.machine.isa import Instruction, Kind
from mm.machine.words import ZERO, Pointer, Word
from mm.outputs.trace import Turn


@dataclass(frozen=True)
class Done:
    """An instruction that a slot carried out: its operation and place, the access that it made, the words that it left
    in registers of its slot, and the enter pointer that it went through. `number` counts the instructions of all slots,
    and `operand` is the number of the one that made the word in the operand `ra`."""

    number: int
    slot: int
    operation: str
    place: int
    access: Optional[str] = None
    address: Optional[int] = None
    results: tuple[Word, ...] = ()
    entered: Optional[Word] = None
    operand: Optional[int] = None


@dataclass(frozen=True)
class Stopped:
    """An instruction that a fault stopped: its operation, the word in the register that it uses as a pointer, and how
    many bytes from there on the instruction uses it."""

    operation: str
    used: Optional[Word] = None
    offset: int = 0


@dataclass
class Call:
    """A jump through an enter pointer: from which segment it came, and the registers before it and after the way back
    to this segment. The register into which the jump itself put the way back does not count."""

    slot: int
    door: int
    caller: Pointer
    before: list[Optional[Word]]
    kept: Optional[int]
    after: Optional[list[Optional[Word]]] = None

    @property
    def left(self) -> Iterator[tuple[int, Word]]:
        """What the call has left in registers: each word that was not there before, but for the integer 0."""
        for place, (old, new) in enumerate(zip(self.before, self.after or [])):
            if place != self.kept and new is not None and new not in (old, ZERO):
                yield place, new


@dataclass
class Ran:
    """A run: what was done, where each slot was stopped last, the bits of the pointers that each slot held, the calls
    through enter pointers, which slot made which word full or empty, and the number of the instruction that made the
    word in a register of a slot."""

    done: list[Done] = field(default_factory=list)
    stopped: dict[int, Stopped] = field(default_factory=dict)
    pointers: dict[int, set[int]] = field(default_factory=lambda: defaultdict(set))
    calls: list[Call] = field(default_factory=list)
    bits: list[tuple[int, int, bool]] = field(default_factory=list)
    makers: dict[tuple[int, int], int] = field(default_factory=dict)

    def of(self, slot: Optional[int]) -> Iterator[Done]:
        """What a slot did, or any slot."""
        return (done for done in self.done if slot is None or done.slot == slot)

    def hold(self, slot: int, word: Optional[Word]) -> None:
        if word is not None and word.tagged:
            self.pointers[slot].add(word.bits)

    def changed(self, step: Step) -> None:
        """Takes into account what a turn changed: pointers that slots get, also from other slots, and bits of words."""
        for change in step.changes:
            if isinstance(change, RegisterSet):
                self.hold(change.slot, change.word)
                if change.slot != step.turn.slot:
                    self.makers.pop((change.slot, change.register), None)
            elif isinstance(change, CellSet) and (change.cell.full or step.turn.access == "loadset"):
                self.bits.append((step.turn.slot, change.address, change.cell.full))

    def did(self, turn: Turn, place: int, instruction: Instruction, slot: SlotNow) -> None:
        """Takes an instruction into account that was carried out. A word that is copied keeps its maker."""
        number, registers = len(self.done), registers_of(instruction)
        # The log names only those that are others than before.
        words = tuple(word for word in (slot.registers[register] for register in registers) if word is not None)
        operand = self.makers.get((slot.number, instruction.value("ra"))) if instruction.has("ra") else None
        name, door = instruction.name, turn.entered
        self.done.append(Done(number, slot.number, name, place, turn.access, turn.address, words, door, operand))
        maker = operand if name == "mov" and operand is not None else number
        self.makers.update({(slot.number, register): maker for register in registers})

    def back(self, slot: SlotNow, place: int) -> None:
        """Ends each call of a slot that is back in the segment it came from. A load that has not arrived counts."""
        for call in self.calls:
            if call.slot == slot.number and call.after is None and call.caller.covers(place):
                call.after = list(slot.registers)
                for register, word in slot.pending:
                    call.after[register] = word


def take(ran: Ran, machine: Machine, step: Step) -> None:
    """Lets the machine carry out a turn, and takes it into account. A `trap` is carried out by its fault."""
    turn = step.turn
    instruction = machine.memory.instruction(turn.fetch) if turn.fetch is not None else None
    slot = machine.slots[turn.slot]
    before, caller = list(slot.registers), slot.ip.pointer
    if turn.fetch is not None:
        ran.back(slot, turn.fetch)
    machine.carry_out(step)
    ran.changed(step)
    if instruction is None or turn.fetch is None:
        return
    if turn.outcome == "faulted":
        used = before[instruction.value("ra")] if instruction.has("ra") else None
        offset = instruction.value("imm") if instruction.has("imm") else 0
        ran.stopped[turn.slot] = Stopped(instruction.name, used, offset)
    door = turn.entered.pointer if turn.entered else None
    if door and caller:
        kept = instruction.value("rd") if instruction.has("rd") else None
        ran.calls.append(Call(turn.slot, door.address, caller, before, kept))
    if turn.outcome == "did" or (turn.outcome == "faulted" and instruction.name == "trap"):
        ran.did(turn, turn.fetch, instruction, slot)


def registers_of(instruction: Instruction) -> range:
    """The registers in which an instruction leaves words."""
    if not instruction.has("rd"):
        return range(0)
    first = instruction.value("rd")
    return range(first, first + (4 if Kind.RD4 in instruction.operation.operands else 1))


def what_ran(console: Console, built: Built, order: Order, cycles: int) -> Ran:
    """What a run did."""
    ran, machine = Ran(), Machine(built.image)
    for slot in machine.slots.values():
        for word in slot.registers:
            ran.hold(slot.number, word)
    with opened(console, built, order, cycles) as (_, steps):
        for _, step in steps:
            take(ran, machine, step)
    return ran
