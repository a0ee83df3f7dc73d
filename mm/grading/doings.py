"""The lines of an exercise that look at what a run did, by its log: what is only written, and never carried out, does
not count."""

from __future__ import annotations

from collections import Counter
from typing import Iterable, Iterator, Optional

from mm.grading.checks import Check
from mm.grading.program import Program, number_in, overlaps, slot_in
from mm.grading.ran import Done
from mm.grading.values import is_value
from mm.machine.words import Pointer
from mm.names.numbers import counted


def _who(slot: str) -> str:
    return "no slot" if slot == "any" else f"slot {slot}"


def _did(slot: str) -> str:
    return "carries out" if slot == "any" else "does not carry out"


def _has(slot: str) -> str:
    return "has" if slot == "any" else "has not"


def executes(program: Program, slot: str, *operations: str) -> Optional[str]:
    counts = Counter(done.operation for done in program.ran.of(slot_in(slot)))
    for word in operations:
        names, _, most = word.partition("*")
        wanted, found = number_in(most or "1"), sum(counts[name] for name in names.split("|"))
        if found < wanted:
            said = names.replace("|", " or ")
            only = f"it carries out {said} {counted(found, 'time')}"
            return only if found else f"{_who(slot)} {_did(slot)} {said}"
    return None


def repeats(program: Program, slot: str, operation: str, number: str) -> Optional[str]:
    names = operation.split("|")
    counts = Counter(done.place for done in program.ran.of(slot_in(slot)) if done.operation in names)
    most = max(counts.values(), default=0)
    said = operation.replace("|", " or ")
    why = f"none of its {said} is carried out more than {counted(most, 'time')}, and a loop does so again and again"
    return None if most >= number_in(number) else why


def _results(program: Program, slot: str, operation: str) -> list[Done]:
    names = operation.split("|")
    return [done for done in program.ran.of(slot_in(slot)) if done.operation in names and done.results]


def gives(program: Program, slot: str, operation: str, value: str) -> Optional[str]:
    found = _results(program, slot, operation)
    if not found:
        return f"{_who(slot)} {_did(slot)} {operation}"
    is_so = any(is_value(word, value) for done in found for word in done.results)
    return None if is_so else f"no {operation} gives this"


def twins(program: Program, slot: str, operation: str) -> Optional[str]:
    is_so = _are_twins(_results(program, slot, operation))
    return None if is_so else f"no {operation} gives a pointer, while another gives the integer with the same bits"


def _are_twins(found: Iterable[Done]) -> bool:
    """Whether instructions gave a pointer and the integer with the same bits."""
    words = [word for done in found for word in done.results]
    pointers = {word.bits for word in words if word.tagged}
    return any(word.bits in pointers for word in words if not word.tagged)


def _loaded_again(program: Program, slot: str) -> Iterator[Done]:
    """The loads of a slot from places where it has stored before."""
    stored: set[Optional[int]] = set()
    for done in program.ran.of(slot_in(slot)):
        if done.access == "store":
            stored.add(done.address)
        elif done.address in stored:
            yield done


def reloads(program: Program, slot: str, operation: str) -> Optional[str]:
    """A pointer and its bits go through memory, and an operation then looks at each."""
    again = list(_loaded_again(program, slot))
    if not _are_twins(again):
        what = "stored a pointer and the integer with the same bits, and loaded both from there"
        return f"{_who(slot)} {_has(slot)} {what}"
    asked = {done.operand for done in program.ran.of(slot_in(slot)) if done.operation in operation.split("|")}
    is_so = _are_twins(done for done in again if done.number in asked)
    names = operation.replace("|", " or ")
    return None if is_so else f"{_who(slot)} {_did(slot)} {names} on each of the words it loads"


def _made_up(program: Program, slot: str) -> tuple[Optional[int], int]:
    """The integer that a slot used as a pointer when it was stopped, and how many bytes from there on it used it."""
    stopped = program.ran.stopped.get(number_in(slot))
    if stopped is None or stopped.used is None or stopped.used.tagged:
        return None, 0
    return stopped.used.bits, stopped.offset


def through(program: Program, slot: str, value: str) -> Optional[str]:
    """What the instruction that a fault stopped used as a pointer."""
    stopped = program.ran.stopped.get(number_in(slot))
    if stopped is None or stopped.used is None:
        return f"no instruction with a pointer has stopped slot {slot}"
    is_so = is_value(stopped.used, value)
    found = program.speller.word(stopped.used)
    return None if is_so else f"when slot {slot} stops, what it uses as a pointer is {found}"


def loses(program: Program, slot: str) -> Optional[str]:
    is_so = _made_up(program, slot)[0] in program.ran.pointers[number_in(slot)]
    why = f"when slot {slot} stops, what it uses as a pointer is not a pointer that it had, without the tag"
    return None if is_so else why


def forges(program: Program, slot: str, name: str) -> Optional[str]:
    begin, end = program.span(name)
    bits, offset = _made_up(program, slot)
    pointer = Pointer.of_bits(bits) if bits is not None else None
    is_so = pointer and (overlaps(pointer, begin, end) or begin <= pointer.address + offset < end)
    why = f"when slot {slot} stops, what it uses as a pointer does not have the bits of a pointer to {name}"
    return None if is_so else why


def _accesses(program: Program, slot: str, name: str, kinds: tuple[str, ...]) -> bool:
    begin, end = program.span(name)
    ours = (done for done in program.ran.of(slot_in(slot)) if done.access in kinds)
    return any(done.address is not None and begin <= done.address < end for done in ours)


def stores(program: Program, slot: str, name: str) -> Optional[str]:
    stored = "stores" if slot == "any" else "does not store"
    return None if _accesses(program, slot, name, ("store",)) else f"{_who(slot)} {stored} there"


def loads(program: Program, slot: str, name: str) -> Optional[str]:
    return None if _accesses(program, slot, name, ("load", "loadset")) else f"slot {slot} does not load from there"


def empties(program: Program, slot: str, name: str) -> Optional[str]:
    """A load that changes the word's bit, as one that takes a lock."""
    is_so = _accesses(program, slot, name, ("loadset",))
    return None if is_so else f"slot {slot} never takes the word there by its bit"


def _entries(program: Program, slot: str) -> list[int]:
    entered = [done.entered.pointer for done in program.ran.of(slot_in(slot)) if done.entered]
    return [pointer.address for pointer in entered if pointer]


def enters(program: Program, slot: str, name: str, number: str) -> Optional[str]:
    """How often a slot goes through an enter pointer: to a place, or to any."""
    entries = _entries(program, slot)
    found = len(entries) if name == "any" else entries.count(program.address(name))
    where = "by any enter pointer" if name == "any" else "there"
    return None if found == number_in(number) else f"slot {slot} enters {where} {counted(found, 'time')}"


def doors(program: Program, slot: str, number: str) -> Optional[str]:
    found = len(set(_entries(program, slot)))
    return None if found >= number_in(number) else f"slot {slot} enters by {counted(found, 'enter pointer')}"


def hides(program: Program, slot: str, name: str) -> Optional[str]:
    """Each call of a door leaves nothing in a register."""
    address = program.address(name)
    calls = [call for call in program.ran.calls if call.slot == number_in(slot) and call.door == address]
    if not any(call.after for call in calls):
        return f"slot {slot} {'does not come back from' if calls else 'never enters'} there"
    for call in calls:
        for place, word in call.left:
            return f"after a call, r{place} is {program.speller.register(word)}"
    return None


def holds(program: Program, slot: str, *names: str) -> Optional[str]:
    """At one moment a slot has made all these words empty, and none of them is full again."""
    places, taken = {program.address(name) for name in names}, set()
    for who, address, full in program.ran.bits:
        if full or who != number_in(slot):
            taken.discard(address)
        elif address in places:
            taken.add(address)
        if taken == places:
            return None
    return f"slot {slot} never has all of them at once"


OF_A_RUN: dict[str, Check] = {
    "executes": executes, "repeats": repeats, "gives": gives, "twins": twins, "reloads": reloads, "through": through,
    "loses": loses, "forges": forges, "stores": stores, "loads": loads, "empties": empties, "enters": enters,
    "doors": doors, "hides": hides, "holds": holds,
}  # fmt: skip
