"""The lines of an exercise that look at the end of a run, at the audit and at the outcomes. Each gives what is not
so."""

from __future__ import annotations

import re
import warnings
from typing import Callable, Optional

from mm.grading.program import NotSo, Program, WrongLine, number_in, register_in
from mm.grading.values import is_value
from mm.machine.causes import Cause
from mm.machine.words import Word
from mm.names.numbers import counted
from mm.outputs.exploration import ENDLESS, Exploration
from mm.outputs.report import SlotState
from mm.views.spell import bytes_as_text

Check = Callable[..., Optional[str]]
BYTES_SHOWN = 40
REACHES = ("touch", "write")


def said(data: bytes) -> str:
    """What a group prints, and no more of it than fits in a line."""
    if not data:
        return "it prints nothing"
    more = len(data) - BYTES_SHOWN
    return f"it prints {bytes_as_text(data[:BYTES_SHOWN])}" + (f" and {counted(more, 'more byte')}" if more > 0 else "")


def became(program: Program, slot: SlotState) -> str:
    """What became of a slot, in words."""
    if not slot.fault:
        still = f"still runs after {counted(program.report.cycles, 'cycle')}"
        words = {"running": still, "halted": "has halted"}
        return f"slot {slot.number} {words.get(slot.state, f'is {slot.state}')}"
    cause = Cause.of_number(slot.fault)
    title = f" {cause.title}: {cause.meaning}" if cause else ""
    return f"slot {slot.number} was stopped by fault {slot.fault}{title}"


def _bytes_of(text: str) -> bytes:
    try:
        with warnings.catch_warnings():
            # Of a `\` before another letter Python only warns.
            warnings.simplefilter("error")
            return text.encode("latin-1").decode("unicode_escape").encode("latin-1")
    except (UnicodeError, Warning):
        raise WrongLine(f"`{text}` is not a text of bytes: letters, and \\n, \\\\ or \\x41 for others") from None


def output(program: Program, group: str) -> bytes:
    """What a group has printed."""
    found = program.report.outputs.get(number_in(group))
    if found is None:
        raise NotSo(f"there is no group {group}")
    return found


def says(program: Program, group: str, text: str = "") -> Optional[str]:
    wanted, found = _bytes_of(text), output(program, group)
    return None if found == wanted else said(found)


def differs(program: Program, group: str, text: str = "") -> Optional[str]:
    unwanted, found = _bytes_of(text), output(program, group)
    return None if found and found != unwanted else said(found)


def shows(program: Program, group: str, name: str) -> Optional[str]:
    """The last byte of an output is the low byte of a word, as it is at the end."""
    data, found = output(program, group), program.cell(name).word
    is_so = data[-1:] == bytes([found.bits & 0xFF])
    return None if is_so else f"{said(data)}, and {name} is {program.speller.word(found)}"


def matches(program: Program, group: str, pattern: str) -> Optional[str]:
    found = output(program, group)
    try:
        return None if re.fullmatch(pattern.encode("latin-1"), found) else said(found)
    except (re.error, UnicodeEncodeError):
        raise WrongLine(f"`{pattern}` is not a pattern") from None


def halts(program: Program, *slots: str) -> Optional[str]:
    for number in slots:
        slot = program.slot(number)
        if slot.state != "halted":
            return became(program, slot)
    return None


def runs(program: Program, number: str, *operations: str) -> Optional[str]:
    """A slot still runs, and does not only wait or go round without doing what it should."""
    slot = program.slot(number)
    if slot.state != "running":
        return became(program, slot)
    done = list(program.ran.of(None))
    late = {each.operation for each in done[len(done) // 2 :] if each.slot == slot.number}
    missing = [names for names in operations if late.isdisjoint(names.split("|"))]
    said = f"in the second half of the run slot {number} does not carry out"
    return f"{said} {missing[0].replace('|', ' or ')}" if missing else None


def faults(program: Program, number: str, fault: str, operation: str = "") -> Optional[str]:
    cause = Cause.of_title(fault) or Cause.of_number(number_in(fault) if fault.isdigit() else 0)
    if cause is None:
        raise WrongLine(f"`{fault}` is not a fault: {', '.join(cause.title for cause in Cause)}, or a number")
    slot = program.slot(number)
    if slot.fault != cause.number:
        return became(program, slot)
    stopped = program.ran.stopped.get(slot.number)
    found = stopped.operation if stopped else None
    at = f"{became(program, slot).partition(':')[0]}, but at {f'a `{found}`' if found else 'no instruction'}"
    return None if not operation or found in operation.split("|") else at


def stops(program: Program, number: str, value: str) -> Optional[str]:
    slot = program.slot(number)
    if value == "past":
        return None if slot.past else f"slot {number} is not past the end of its segment"
    pointer = slot.ip.pointer
    cell = program.memory.cell(pointer.address) if pointer else None
    if cell is None:
        return f"there is no word at which slot {number} stands"
    return None if is_value(cell.word, value) else f"slot {number} stands at {program.speller.word(cell.word)}"


def together(program: Program, *slots: str) -> Optional[str]:
    places = {program.slot(number).ip.bits for number in slots}
    return None if len(places) == 1 else "these slots stand at different instructions"


def register(program: Program, number: str, name: str, value: str) -> Optional[str]:
    found = program.slot(number).register(register_in(name))
    is_so = found is not None and is_value(found, value)
    return None if is_so else f"{name} is {program.speller.register(found)}"


def fields(program: Program, number: str, *names: str) -> Optional[str]:
    slot = program.slot(number)
    *places, given = map(register_in, names)
    image = program.built.image.slot(slot.number)
    pointer = image.registers[given].pointer if image else None
    if pointer is None:
        return f"{names[3]} does not begin with a pointer"
    wanted = (pointer.permission.code, pointer.log, pointer.address)
    for name, place, value in zip(names, places, wanted):
        if slot.register(place) != Word(value):
            return f"{name} is {program.speller.register(slot.register(place))}"
    return None


def word(program: Program, name: str, value: str) -> Optional[str]:
    found = program.cell(name).word
    return None if is_value(found, value) else f"{name} is {program.speller.word(found)}"


def changes(program: Program, name: str) -> Optional[str]:
    before, after = program.built.image.cell(program.address(name)), program.cell(name).word
    is_so = before is None or before.word != after
    return None if is_so else f"{name} is still {program.speller.word(after)}"


def no_group(program: Program, groups: tuple[str, ...]) -> Optional[str]:
    """What is said if a group is not there: the audit would say of it that it stands apart."""
    missing = [group for group in groups if number_in(group) not in program.built.image.groups]
    return f"there is no group {missing[0]}" if missing else None


def apart(program: Program, *groups: str) -> Optional[str]:
    is_so = program.audit(",".join(groups)).aparts[-1].apart
    return no_group(program, groups) or (None if is_so else "the audit says that they do not")


def shares(program: Program, *groups: str) -> Optional[str]:
    is_so = not program.audit(",".join(groups)).aparts[-1].apart
    return no_group(program, groups) or (None if is_so else "the audit says that they stand apart")


def _reaches(program: Program, group: str, kind: str, name: str) -> bool:
    """Whether the audit grants a group all bytes of a name."""
    if kind not in REACHES:
        raise WrongLine(f"`{kind}` is not a kind of access: touch or write")
    missing = no_group(program, (group,))
    if missing:
        raise NotSo(missing)
    begin, end = program.span(name)
    reach = next(reach for reach in program.audit().reaches if reach.group == number_in(group))
    spans = reach.touch if kind == "touch" else reach.write
    return any(base <= begin and end <= base + (1 << log) for base, log in spans)


def can(program: Program, group: str, kind: str, name: str) -> Optional[str]:
    return None if _reaches(program, group, kind, name) else "the audit says that it cannot"


def cannot(program: Program, group: str, kind: str, name: str) -> Optional[str]:
    return "the audit says that it can" if _reaches(program, group, kind, name) else None


def common(program: Program, group: str, other: str) -> Optional[str]:
    """A word that a group can write, and another group can touch."""
    missing = no_group(program, (group, other))
    if missing:
        return missing
    reaches = {reach.group: reach for reach in program.audit().reaches}
    written, touched = reaches[number_in(group)].write, reaches[number_in(other)].touch
    is_so = any(meets(one, two) for one in written for two in touched)
    return None if is_so else f"the audit says that group {group} can write nothing that group {other} can touch"


def meets(one: tuple[int, int], other: tuple[int, int]) -> bool:
    """Whether two segments of an audit have a byte in common."""
    (base, log), (begin, of_other) = one, other
    return base < begin + (1 << of_other) and begin < base + (1 << log)


def _no_source(program: Program) -> Optional[str]:
    """What is said where the operations of a program are not known."""
    return f"{program.unread} is not a source, so its operations are not known" if program.unread else None


def uses(program: Program, *operations: str) -> Optional[str]:
    missing = [names for names in operations if program.operations.isdisjoint(names.split("|"))]
    return _no_source(program) or (f"there is no {missing[0].replace('|', ' and no ')}" if missing else None)


def without(program: Program, *operations: str) -> Optional[str]:
    there = [name for name in operations if name in program.operations]
    # A word of the source can be an instruction, and is not seen there.
    done = [name for name in operations if any(each.operation == name for each in program.ran.of(None))]
    if there or done:
        return f"there is a {there[0]}" if there else f"a {done[0]} was carried out"
    return _no_source(program)


def all_looked_at(found: Exploration) -> Optional[str]:
    return None if found.all else f"there are more than {found.count} configurations"


def outcomes(program: Program, number: str) -> Optional[str]:
    found = program.exploration
    if len(found.outcomes) != number_in(number):
        return f"there {'is 1' if len(found.outcomes) == 1 else f'are {len(found.outcomes)}'}"
    return all_looked_at(found)


def never(program: Program, what: str) -> Optional[str]:
    found = program.exploration
    left = [outcome for outcome in found.outcomes if not outcome.ended]
    if what == "stuck" and left:
        does = "goes on for ever" if left[0].kind == ENDLESS else "is"
        return f"it {does}, under the schedule {left[0].schedule}"
    if what == "faults" and found.faults:
        slot, cause, schedule = found.faults[0]
        title = Cause.of_number(cause)
        return f"slot {slot} has fault {cause}{f' {title.title}' if title else ''}, under the schedule {schedule}"
    if what not in ("stuck", "faults"):
        raise WrongLine(f"unknown line `never {what}`: never stuck, or never faults")
    return all_looked_at(found)


OF_THE_END: dict[str, Check] = {
    "says": says, "differs": differs, "matches": matches, "shows": shows, "halts": halts, "runs": runs,
    "faults": faults, "stops": stops, "together": together, "register": register, "word": word, "changes": changes,
    "fields": fields, "apart": apart, "shares": shares, "can": can, "cannot": cannot, "common": common, "uses": uses,
    "without": without, "outcomes": outcomes, "never": never,
}  # fmt: skip
