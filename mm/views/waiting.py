"""Slots that wait: whose last turns were all blocked at one instruction."""

from __future__ import annotations

from typing import Callable, Iterable, Iterator, Optional

from mm.formats.image import Image
from mm.machine.isa import Instruction
from mm.machine.words import Word
from mm.outputs.report import Report, SlotState
from mm.outputs.trace import Turn
from mm.records import dataclass
from mm.views.spell import Memory, Speller

ENOUGH = 2
# In a split machine a blocked turn may deliver a load: one of 16 of its own, or of 16 of a slot that it handles. After more blocked
# turns than that it waits for a bit or an event.
ENOUGH_SPLIT = 34


@dataclass(frozen=True)
class Waiting:
    """A slot whose last turns were blocked: how many, and whether no slot can change that any more."""

    slot: int
    turns: int
    stuck: bool


def waiting(backwards: Iterable[Turn], report: Report, split: bool = False) -> dict[int, Waiting]:
    """The running slots of which every turn among the last was blocked, from the last turn of theirs that was not. `backwards` are the
    turns of the run, the last one first.

    Once each running slot was blocked and none did anything in between, no slot can do anything any more: they wait for ever. The state
    then stays as it is but for the counts, and for loads of a split machine that a port delivers, on which no waiting slot depends.
    """
    running = {slot.number for slot in report.slots if slot.running}
    blocked, quiet = _count_blocked(backwards, running)
    needed = ENOUGH_SPLIT if split else 1
    stuck = bool(running) and all(quiet.get(slot, 0) >= needed for slot in running)
    return {slot: Waiting(slot, turns, stuck) for slot, turns in blocked.items() if turns >= ENOUGH or stuck}


def _count_blocked(backwards: Iterable[Turn], running: set[int]) -> tuple[dict[int, int], dict[int, int]]:
    """Of each running slot how many of its last turns were blocked in a row, and how many since any slot last did something."""
    blocked: dict[int, int] = {}
    quiet: dict[int, int] = {}
    going: set[int] = set(running)
    moved = False
    for turn in backwards:
        moved = moved or turn.outcome != "blocked"
        if turn.outcome != "blocked":
            going.discard(turn.slot)
        elif turn.slot in going:
            blocked[turn.slot] = blocked.get(turn.slot, 0) + 1
            quiet[turn.slot] = quiet.get(turn.slot, 0) + (not moved)
        if not going:
            break
    return blocked, quiet


# Instructions that may leave a slot where it is though they were carried out.
JUMPS = ("br", "bz", "bnz", "jmp", "jal")


def turns_by_reports(report_at: Callable[[int], Report], last: int, image: Image, most: int) -> Iterator[Turn]:
    """The last turns of a run of which there is no trace, the last one first, as far as a wait can be told from them: by the reports
    after each of its last cycles."""
    after = report_at(last)
    for cycle in range(last, max(0, last - most), -1):
        before = report_at(cycle - 1)
        turn = _turn_between(before, after, Memory.after(image, before))
        if turn:
            yield turn
        after = before


def _turn_between(before: Report, after: Report, memory: Memory) -> Optional[Turn]:
    """The turn of one cycle: blocked if its slot has not moved though its instruction would have moved it; none if it was idle."""
    for old, new in zip(before.slots, after.slots):
        if old.turns != new.turns:
            instruction = memory.instruction(old.ip.pointer.address) if old.ip.pointer else None
            stayed = (old.ip, old.past, old.state) == (new.ip, new.past, new.state)
            jumps = instruction is None or instruction.name in JUMPS
            waits = stayed and (not jumps or (instruction is not None and bool(needed_loads(old, instruction))))
            return Turn(old.number, new.turns, "blocked" if waits else "did")
        if old.pending != new.pending:
            return Turn(old.number, 0, "delivered", delivered=old.pending[0][0] if old.pending else 0)
    return None


def needed_loads(slot: SlotState, instruction: Instruction) -> list[int]:
    """The registers that an instruction names and that wait for their loads."""
    named = {instruction.value(kind.field) for kind in instruction.operation.operands if kind.is_register}
    return sorted(number for number in named if slot.register(number) is None)


def what_for(slot: SlotState, memory: Memory, speller: Speller) -> str:
    """What a waiting slot waits for, by its instruction."""
    ip = slot.ip.pointer
    instruction = memory.instruction(ip.address) if ip else None
    if instruction is None or ip is None:
        return "waiting"
    text = speller.instruction(instruction, ip.address)
    if instruction.name == "evt":
        return f"waiting at {text} for a fault of a slot that it handles"
    missing = needed_loads(slot, instruction)
    if missing:
        return f"waiting at {text} for the load of {' and '.join(f'r{number}' for number in missing)}"
    if instruction.name in ("ld", "st"):
        return f"waiting at {text} for {_word(slot, instruction, speller)} to be {instruction.choice('pre')}"
    return f"waiting at {text}"


def _word(slot: SlotState, instruction: Instruction, speller: Speller) -> str:
    pointer = (slot.register(instruction.value("ra")) or Word(0)).pointer
    return speller.symbols.show(pointer.address + instruction.value("imm")) if pointer else "the word"
