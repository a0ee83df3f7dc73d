"""The lines of an exercise that look at the parts of a program that were given, and at how its threads begin."""

from __future__ import annotations

from typing import Iterator, Optional

from mm.build import Built
from mm.formats.image import PAGE_BYTES, Image, Slot
from mm.formats.object import Segment
from mm.grading.checks import Check, no_group
from mm.grading.program import NotSo, Program, WrongLine, number_in, overlaps, register_in
from mm.machine.words import Permission, Pointer, Word

DATA = (Permission.RO, Permission.RW)


def given(program: Program, name: str, *segments: str) -> Optional[str]:
    """Segments of the program are those of a source that the sheet names."""
    wanted = {segment.name: segment for segment in program.given(name).made.segments}
    found = {segment.name: segment for unit in program.built.units for segment in unit.made.segments}
    for segment in segments:
        if segment not in wanted:
            raise WrongLine(f"{name} has no segment `{segment}`")
        if segment not in found:
            return f"there is no segment `{segment}`"
        if not _same(wanted[segment], found[segment]):
            return f"`{segment}` is not as it was given"
    return None


def _same(one: Segment, other: Segment) -> bool:
    """Whether two segments have the same length, and the same words up to the zeros at their ends."""
    most = max(len(one.words), len(other.words))
    cells = [
        [*zip(segment.words, segment.full), *[(0, True)] * (most - len(segment.words))] for segment in (one, other)
    ]
    return one.log == other.log and cells[0] == cells[1] and one.relocations == other.relocations


def _slot(program: Program, number: str) -> Slot:
    """A slot before the run."""
    found = program.built.image.slot(number_in(number))
    if found is None:
        raise NotSo(f"there is no slot {number}")
    return found


def starts(program: Program, name: str, *slots: str) -> Optional[str]:
    """Threads begin as in a source that the sheet names: with the same group, handler and permission, and with the same
    words in the registers that it gives. In the others they may have integers."""
    unit = program.given(name)
    link = program.console.workshop.link([unit])
    for number in slots:
        found, wanted = _slot(program, number), link.image.slot(number_in(number))
        if wanted is None:
            raise WrongLine(f"{name} has no thread in slot {number}")
        if (found.group, found.handler, found.ip.permission) != (wanted.group, wanted.handler, wanted.ip.permission):
            return f"the thread in slot {number} is not as it was given"
        for place, (ours, theirs) in enumerate(zip(found.registers, wanted.registers)):
            expected = theirs if theirs != Word(0) else None
            if expected is None and ours.tagged:
                return f"r{place} of slot {number} begins with a pointer that was not given"
            if expected is not None and _named(program.built, ours) != _named(link, theirs):
                return f"r{place} of slot {number} does not begin as it was given"
    return None


def _named(built: Built, word: Word) -> object:
    """A word by what it means: an integer, or a pointer with the segment in which it leads and how far into it."""
    pointer = word.pointer
    region = built.symbols.region(pointer.address) if pointer else None
    if pointer is None or region is None:
        return word
    return pointer.permission, pointer.log, region.name, pointer.address - region.base


def slots(program: Program, *numbers: str) -> Optional[str]:
    wanted, found = sorted(map(number_in, numbers)), sorted(slot.number for slot in program.built.image.slots)
    return None if wanted == found else f"the threads are in {', '.join(map(str, found)) or 'no slot'}"


def lacks(program: Program, number: str, name: str) -> Optional[str]:
    """A thread has no pointer by which it could load from a place, or store there: neither in a register, nor in memory
    that it can load without entering a gate."""
    begin, end = program.span(name)
    for pointer in _held(program.built.image, _slot(program, number)):
        if pointer.permission.loads and overlaps(pointer, begin, end):
            return f"slot {number} begins with a pointer to it, or can load one"
    return None


def _held(image: Image, slot: Slot) -> set[Pointer]:
    """The pointers with which a thread begins, and those that it can load through them."""
    todo = [slot.ip, *filter(None, (word.pointer for word in slot.registers))]
    held: set[Pointer] = set()
    while todo:
        pointer = todo.pop()
        if pointer not in held and pointer.permission.loads:
            todo += _pointers_in(image, pointer.base, pointer.end)
        held.add(pointer)
    return held


def _pointers_in(image: Image, begin: int, end: int) -> Iterator[Pointer]:
    """The pointers in the words of a range."""
    for number, page in image.pages.items():
        first = number * PAGE_BYTES
        if first + PAGE_BYTES <= begin or end <= first or not any(page.tags):
            continue
        for place in range(max(begin - first, 0) // 8, min(end - first, PAGE_BYTES) // 8):
            pointer = page.cell(place).word.pointer
            if pointer:
                yield pointer


def alike(program: Program, number: str, name: str, other: str, of_other: str) -> Optional[str]:
    """A register begins with a pointer, and another with the integer that has its bits."""
    one = _slot(program, number).registers[register_in(name)]
    two = _slot(program, other).registers[register_in(of_other)]
    if not one.tagged:
        return f"{name} of slot {number} does not begin with a pointer"
    return None if two == Word(one.bits) else f"{of_other} of slot {other} does not begin with the integer of its bits"


def clears(program: Program, number: str) -> Optional[str]:
    """At the end a slot can load through no register from a segment from which it could not load at the beginning, and
    can store through none into one into which it could not store."""
    before = _held(program.built.image, _slot(program, number))
    for place, word in sorted(program.slot(number).registers.items()):
        pointer = word.pointer if word is not None else None
        if pointer and pointer.permission.loads and not any(_gives(one, pointer) for one in before):
            return f"r{place} of slot {number} is {program.speller.register(word)} at the end"
    return None


def _gives(one: Pointer, other: Pointer) -> bool:
    """Whether a pointer allows each load and each store that another allows."""
    writes = other.permission is Permission.RW
    allows = one.permission is Permission.RW if writes else one.permission.loads
    return allows and one.base <= other.base and other.end <= one.end


def own(program: Program, group: str) -> Optional[str]:
    """A thread of the group begins with a pointer to data that no other group can touch, or can load one."""
    missing = no_group(program, (group,))
    if missing:
        return missing
    number, image = number_in(group), program.built.image
    others = [span for reach in program.audit().reaches if reach.group != number for span in reach.touch]
    for pointer in (one for slot in image.slots if slot.group == number for one in _held(image, slot)):
        is_data = pointer.permission in DATA
        if is_data and not any(overlaps(pointer, base, base + (1 << log)) for base, log in others):
            return None
    return f"group {group} has no pointer to data of its own"


OF_PARTS: dict[str, Check] = {
    "given": given, "starts": starts, "slots": slots, "lacks": lacks, "alike": alike, "clears": clears, "own": own,
}  # fmt: skip
