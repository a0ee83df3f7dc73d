"""What a kernel keeps: the doors, the kept words that are used, the leaks, and what each group can reach."""

from __future__ import annotations

from typing import Optional

from mm.machine.words import Permission, Pointer, Word
from mm.outputs.audit import Apart, Reach, read_apart
from mm.records import dataclass, field

# A run of words: the address of the first, and how many there are.
Run = tuple[int, int]


@dataclass(frozen=True)
class Form:
    """What a word can be: `word` alone; or by its kind an integer, an open pointer of a permission, any open word, or a
    pointer of a permission into a segment."""

    kind: str
    word: Optional[Word] = None
    permission: Optional[Permission] = None
    base: int = 0
    log: int = 0


@dataclass
class Party:
    """A door or a slot of the kernel, with the kept words that threads from there read and write."""

    door: Optional[Pointer] = None
    slot: Optional[int] = None
    reads: list[Run] = field(default_factory=list)
    writes: list[Run] = field(default_factory=list)


@dataclass(frozen=True)
class Leak:
    """Something that goes out, or that others could use. Without a register a fault shows the instruction pointer."""

    kind: str
    address: Optional[int] = None
    register: Optional[int] = None
    form: Optional[Form] = None
    slot: Optional[int] = None


@dataclass
class Confined:
    """What a group can reach with the kernel's code as it is: its doors, its slots of the kernel, and what is not
    kept."""

    reach: Reach
    doors: list[Pointer] = field(default_factory=list)
    slots: list[int] = field(default_factory=list)
    apart: Optional[Apart] = None


@dataclass
class Kept:
    """An answer of `keeps`: `yes`, `no`, `more` or `privileged`, and its lines."""

    verdict: str = ""
    parties: list[Party] = field(default_factory=list)
    code: list[Run] = field(default_factory=list)
    cells: list[tuple[int, Form]] = field(default_factory=list)
    leaks: list[Leak] = field(default_factory=list)
    groups: list[Confined] = field(default_factory=list)

    @property
    def doors(self) -> list[Party]:
        return [party for party in self.parties if party.door is not None]

    @property
    def slots(self) -> list[int]:
        """The slots that are the kernel's."""
        return [party.slot for party in self.parties if party.slot is not None]

    def groups_with(self, door: Pointer) -> list[int]:
        """The groups that can have a door."""
        return [each.reach.group for each in self.groups if door in each.doors]


def form_of(words: list[str]) -> Form:
    """The form that words of a line spell."""
    kind = words[0]
    if kind in ("int", "any"):
        return Form(kind)
    if kind == "ptr":
        return Form(kind, permission=Permission.of_code(int(words[1])))
    if kind == "in":
        return Form(kind, permission=Permission.of_code(int(words[1])), base=int(words[2], 16), log=int(words[3]))
    return Form("word", word=Word.parse(kind))


def _leak(words: list[str]) -> Leak:
    kind, *rest = words
    if kind == "across":
        return Leak(kind, form=form_of(rest))
    if kind == "loose":
        return Leak(kind, slot=int(rest[0]))
    address = int(rest[0], 16)
    if kind == "code" or rest[1:] == ["ip"]:
        return Leak(kind, address)
    if kind == "cell":
        return Leak(kind, address, form=form_of(rest[1:]))
    return Leak(kind, address, int(rest[1]), form_of(rest[2:]))


def _pointer(text: str) -> Pointer:
    found = Word.parse(text).pointer
    if found is None:
        raise ValueError(f"{text} is not a pointer")
    return found


class Reader:
    """Reads the lines one after another. From the first group on they tell of groups."""

    def __init__(self) -> None:
        self.found = Kept()

    def take(self, key: str, words: list[str]) -> None:
        found = self.found
        if key == "keeps":
            found.verdict = words[0]
        elif key == "group":
            found.groups.append(Confined(Reach(int(words[0]), False)))
        elif found.groups:
            self.of_group(found.groups[-1], key, words)
        elif key == "door":
            found.parties.append(Party(door=_pointer(words[0])))
        elif key == "slot":
            found.parties.append(Party(slot=int(words[0])))
        elif key == "cell":
            found.cells.append((int(words[0], 16), form_of(words[1:])))
        elif key == "leak":
            found.leaks.append(_leak(words))
        else:
            party = found.parties[-1] if found.parties else Party()
            runs = {"reads": party.reads, "writes": party.writes, "code": found.code}[key]
            runs.append((int(words[0], 16), int(words[1])))

    @staticmethod
    def of_group(group: Confined, key: str, words: list[str]) -> None:
        """A line of a group."""
        if key == "door":
            group.doors.append(_pointer(words[0]))
        elif key == "slot":
            group.slots.append(int(words[0]))
        elif key == "apart":
            group.apart = read_apart([key, *words])
        else:
            segments = group.reach.touch if key == "touch" else group.reach.write
            segments.append((int(words[0], 16), int(words[1])))


def read_keeps(text: str) -> Kept:
    """The answer that a text spells."""
    reader = Reader()
    for line in text.splitlines():
        key, *words = line.split()
        reader.take(key, words)
    return reader.found
