"""A case of the suite, and the usual shapes that cases have."""

from dataclasses import dataclass
from typing import Optional

from images import Image, Slot, pointer
from mm.machine.causes import Cause

NUMBERS = {cause.title: cause.number for cause in Cause}
# A page of data, a pointer to all of it, and the last word of it.
DATA, PAGE_LOG = 0x120000, 12
LAST_WORD = DATA + 0xFF8
ALL_DATA = pointer("rw", PAGE_LOG, DATA)
TOP_ADDRESS = 1 << 54


@dataclass(frozen=True)
class Case:
    """An image, and how long it is run in which order: round robin if there is no schedule. `shows` are beginnings
    of lines that its log must have, so that a case tests what its name says."""

    name: str
    image: Image
    cycles: int
    schedule: Optional[str]
    shows: tuple[str, ...] = ()


def lines_of(code):
    """A program from its text, a line for each instruction, or from a list."""
    return tuple(line.strip() for line in code.split(";")) if isinstance(code, str) else tuple(code)


def does(name, code, registers=None, shows=None, cells=None, pages=(), version=1, spare=0, turns=None, **slot):
    """A slot whose last instruction is carried out."""
    lines = lines_of(code)
    count = turns or len(lines)
    image = Image((Slot(0, lines, registers or {}, **slot),), cells or {}, pages, version=version, spare=spare)
    return Case(name, image, count, f"0*{count}", (shows or f"t 0 {count} did",))


READER = Slot(2, ("evt r4", "halt"))


def fails(name, cause, code, registers=None, cells=None, pages=(), spare=0, turns=None, **slot):
    """The last instruction is a fault: in slot 0, which has no handler and halts, or is blocked by Sync; and in slot 1,
    whose handler, slot 2, reads the event."""
    lines = lines_of(code)
    count = turns or len(lines)
    slots = (Slot(0, lines, registers or {}, **slot), Slot(1, lines, registers or {}, handler=2, **slot), READER)
    number = NUMBERS[cause]
    ends = "blocked" if cause == "Sync" else f"faulted {number}"
    image = Image(slots, cells or {}, pages, spare=spare)
    shows = (f"t 0 {count} {ends}", f"t 1 {count} faulted {number}", f"event 2 1 {number}", "t 2 1 did")
    return Case(name, image, 2 * count + 1, f"0*{count} 1*{count} 2", shows)


def runs(name, slots, schedule, shows=(), cycles=None, **image):
    """Several slots under a schedule."""
    count = sum(int(item.partition("*")[2] or 1) for item in schedule.split())
    return Case(name, Image(tuple(slots), **image), count if cycles is None else cycles, schedule, tuple(shows))
