"""What is told of a difference: the case, the turn before, the instruction with what it reads, and what each says."""

from __future__ import annotations

import os
from itertools import islice
from typing import Iterator, Optional

from mm.formats.image import read_image
from mm.formats.schedule import PORT
from mm.lockstep.case import Case, schedule_text
from mm.lockstep.compare import Difference, is_report, item_of
from mm.lockstep.lines import for_people
from mm.lockstep.programs import Command, Room
from mm.log.read import LogReader, NoLog
from mm.log.replay import Machine, SlotNow
from mm.machine.isa import Instruction, decode
from mm.machine.words import Word
from mm.names.symbols import Symbols
from mm.views.spell import Speller

SPELLER = Speller(Symbols())
MOST_LINES, MOST_ITEMS = 24, 200


def row(title: str, text: str) -> str:
    return f"  {title:<9} {text}".rstrip()


def spelled(word: Optional[Word]) -> str:
    """A word as logs have it, and for people."""
    return SPELLER.register(word) if word is None else f"{word}  {SPELLER.word(word)}"


def machine_and_items(
    model: Command, case: Case, turns: int, files: Room
) -> tuple[Machine, tuple[int, ...]]:
    """The model's machine after so many turns, rebuilt from its log, and the items that made these turns."""
    image = files.file("told.img", case.image)
    schedule = files.file("told.schedule", schedule_text(case.items).encode("ascii"))
    machine, items = Machine(read_image(case.image)), []
    with model.run(image, len(case.items), schedule) as running:
        for step in islice(LogReader(running.lines).steps(), turns):
            machine.carry_out(step)
            items.append(step.item)
    return machine, tuple(items)


def handler_of(slot: SlotNow) -> str:
    return "no handler" if slot.handler is None else f"handler {slot.handler}"


def read_registers(instruction: Instruction) -> list[int]:
    """The registers whose words an instruction reads, in its order."""
    fields = ["ra", "rb"] + (["rd"] if instruction.name == "ldhi" else [])
    return sorted({instruction.value(field) for field in fields if instruction.has(field)})


def served(machine: Machine, slot: SlotNow, instruction: Instruction) -> Iterator[str]:
    """The slot that `resume`, `rreg` and `wreg` name, and the event that `evt` takes."""
    if instruction.name in ("resume", "rreg", "wreg"):
        word = slot.registers[instruction.value("ra")]
        other = machine.slots.get(word.bits) if word else None
        if other is None:
            yield row("serves", "no slot of the image")
        else:
            yield row("serves", f"slot {other.number}, {other.state}, {handler_of(other)}, at {spelled(other.ip)}")
    if instruction.name == "evt":
        yield row("event", slot.queue[0].line if slot.queue else "none")


def accessed(machine: Machine, slot: SlotNow, instruction: Instruction) -> Iterator[str]:
    """The cell that `ld` and `st` reach."""
    word = slot.registers[instruction.value("ra")] if instruction.name in ("ld", "st") else None
    pointer = word.pointer if word else None
    if pointer:
        address = pointer.address + instruction.value("imm")
        cell = machine.cell(address)
        there = f"{spelled(cell.word)}, {'full' if cell.full else 'empty'}" if cell else "no page"
        yield row("cell", f"0x{address:x}: {there}")


def instruction_lines(machine: Machine, slot: SlotNow) -> Iterator[str]:
    """What a slot is about to do."""
    address = slot.ip.pointer.address if slot.ip.pointer else 0
    cell = machine.cell(address)
    past = ", past its segment" if slot.past else ""
    yield row("at", f"{spelled(slot.ip)}{past}")
    instruction = decode(cell.word.bits) if cell and not cell.word.tagged else None
    if instruction is None or cell is None:
        yield row("word", f"no instruction: {spelled(cell.word)}" if cell else "no page is here")
        return
    yield row("word", f"{cell.word}  {SPELLER.instruction(instruction, address)}")
    for register in read_registers(instruction):
        yield row("reads", f"r{register}  {spelled(slot.registers[register])}")
    yield from accessed(machine, slot, instruction)
    yield from served(machine, slot, instruction)


def turn_lines(machine: Machine, found: Difference) -> Iterator[str]:
    """Whose turn it is, and what it is about to do."""
    items = [item_of(turn) for turn in (found.model, found.other) if turn]
    item = next((item for item in items if item is not None), None)
    slot = None if item is None else machine.slots.get(item % PORT)
    if slot is None or item is None:
        return
    mode = "split" if machine.image.split else "plain"
    whose = f"the port of slot {slot.number}" if item >= PORT else f"slot {slot.number}, its turn {slot.turns + 1}"
    yield row("turn", f"{whose}, {slot.state}, group {slot.group}, {handler_of(slot)}, in a {mode} machine")
    for register, word in slot.pending:
        yield row("pending", f"r{register}  {spelled(word)}")
    if item < PORT:
        yield from instruction_lines(machine, slot)


def said(title: str, turn: Optional[list[str]], others: Optional[list[str]], wrong: list[str]) -> Iterator[str]:
    """What one program says. A line that the other one does not have is marked."""
    lines = [f"{' ' if others and line in others else '>'} {for_people(line)}" for line in turn or []]
    if is_report(turn):
        lines = [line for line in lines if line.startswith(">")] if is_report(others) else ["> its report"]
    lines = lines or (["> nothing more"] if others else [])
    lines = lines[:MOST_LINES] + ([f"  and {len(lines) - MOST_LINES} lines more"] if len(lines) > MOST_LINES else [])
    for line in lines + [f"> {line}" for line in wrong]:
        yield row(title, line)
        title = ""


def headline(found: Difference) -> str:
    """Where two logs part, in a few words."""
    if is_report(found.model) and is_report(found.other):
        return f"the reports after {found.same} turns differ"
    if found.model is None and found.other is None:
        return f"all {found.same} turns are the same, but not how the programs end"
    return f"turn {found.same + 1} differs"


def report(
    case: Case, items: tuple[int, ...], found: Difference, note: str, names: tuple[str, str], machine: Optional[Machine]
) -> list[str]:
    """The lines of a difference."""
    image, schedule = names
    shown = schedule_text(items).strip() if len(items) <= MOST_ITEMS else "as in the file"
    lines = [f"case {case.name}: {headline(found)}"]
    lines.append(row("image", image))
    lines.append(row("schedule", f"{schedule}: {shown}  ({note})"))
    if found.before:
        lines += [row("before" if at == 0 else "", for_people(line)) for at, line in enumerate(found.before)]
    if machine:
        lines += turn_lines(machine, found)
    lines += said("model", found.model, found.other, found.model_wrong)
    lines += said("other", found.other, found.model, found.other_wrong)
    return lines


def kept(folder: str, case: Case, items: tuple[int, ...]) -> tuple[str, str]:
    """Writes the image and the schedule of a difference, and gives their names."""
    os.makedirs(folder, exist_ok=True)
    image, schedule = (os.path.join(folder, f"lockstep-{case.name}.{kind}") for kind in ("img", "schedule"))
    with open(image, "wb") as file:
        file.write(case.image)
    with open(schedule, "w", encoding="ascii") as file:
        file.write(schedule_text(items))
    return image, schedule


def machine_of(model: Command, case: Case, items: tuple[int, ...], found: Difference, files: Room) -> Optional[Machine]:
    """The machine before the difference; none if the model wrote no log."""
    try:
        return machine_and_items(model, Case(case.name, case.image, items), found.same, files)[0]
    except (NoLog, KeyError, ValueError):
        return None
