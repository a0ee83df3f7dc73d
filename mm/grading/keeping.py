"""The line `keeps` of an exercise: whether a gate keeps its segments, whatever its callers do; leaks are told in words."""

from __future__ import annotations

from typing import Iterator, Optional, Sequence

from mm.build import Built, refused
from mm.grading.checks import Check
from mm.grading.program import NotSo, Program, WrongLine, address_in
from mm.machine.words import Pointer
from mm.names.kept import word_of
from mm.names.numbers import counted
from mm.names.symbols import Region
from mm.outputs.keeps import Leak, read_keeps
from mm.status import Status, Stop
from mm.views.keptwords import KeptWords

# How many threads of a kernel are looked at, and how many leaks are told.
THREADS, SHOWN = 20_000, 3
GATES = "gates"
OTHERS = {
    "more": f"nothing is known, since the gate has more than {THREADS} threads",
    "privileged": "nothing is kept, since somebody holds a pointer to privileged code, which can make any pointer",
}


def keeps(program: Program, *names: str) -> Optional[str]:
    console, built = program.console, program.built
    kept = sorted({(region.base, region.log) for name in names for region in _segments(built, name)})
    try:
        words = ["keeps", built.path, str(THREADS), word_of(kept)]
    except Stop as stop:
        raise WrongLine(stop.lines[0].removeprefix("mm: ")) from None
    answer = console.program.run(words)
    if answer.status == Status.USAGE:
        raise Stop(Status.USAGE, f"mm: {console.program.path} has no command `keeps`, which {program.sheet.name} needs")
    if answer.status:
        raise refused(answer, [built.file])
    found = read_keeps(answer.text)
    return OTHERS.get(found.verdict) or (told(found.leaks, KeptWords(built.symbols)) if found.verdict != "yes" else None)


def _segments(built: Built, name: str) -> list[Region]:
    """The segments that a name stands for: one, that of a label, all that begin so, or all that are entered."""
    regions = built.symbols.regions
    if name == GATES:
        found = [region for region in regions if any(region.base == pointer.base for pointer in _entered(built))]
    elif name.endswith("*"):
        found = [region for region in regions if region.name.startswith(name[:-1])]
    else:
        address = address_in(built, name)
        found = [region for region in regions if region.base <= address < region.end]
    if not found:
        raise NotSo("there is no gate" if name == GATES else f"there is no segment `{name}`")
    return found


def _entered(built: Built) -> Iterator[Pointer]:
    """The enter pointers of a program, in registers and in memory."""
    words = [word for slot in built.image.slots for word in slot.registers]
    words += [cell.word for _, cell in built.image.cells()]
    pointers = (word.pointer for word in words)
    return (pointer for pointer in pointers if pointer and pointer.permission.enters)


def told(leaks: Sequence[Leak], words: KeptWords) -> str:
    """Leaks in words, the first of them."""
    shown = "; ".join(_told(leak, words) for leak in leaks[:SHOWN])
    more = f"; and {counted(len(leaks) - SHOWN, 'more leak')}" if len(leaks) > SHOWN else ""
    return f"not whatever its callers do: {shown}{more}"


# A leak in a few words, by its kind. A fault without a register shows the instruction pointer.
SAID = {
    "across": "somebody holds {word}, which leads to more than is kept",
    "cell": "{place} is not kept, and holds {word}",
    "code": "the gate runs at {place}, and others can write there",
    "jump": "{register} is {word} when the gate is left at {place}",
    "enter": "the jump at {place} goes where {register} says, {word}, which depends on what the gate keeps",
    "store": "at {place} {word} of {register} is stored where others can load",
    "give": "at {place} {word} of {register} goes to a slot that is served",
    "fault": "a fault at {place} hands a handler of others {register}, {word}",
    "ip": "a fault at {place} hands a handler of others the pointer to the gate's code",
    "loose": "slot {slot}, which serves others, can go on as a caller",
}


def _told(leak: Leak, words: KeptWords) -> str:
    kind = "ip" if leak.kind == "fault" and leak.register is None else leak.kind
    place = "" if leak.address is None else words.symbols.show(leak.address)
    word = words.form(leak.form) if leak.form else ""
    return SAID[kind].format(place=place, register=f"r{leak.register}", word=word, slot=leak.slot)


OF_KEEPING: dict[str, Check] = {"keeps": keeps}
