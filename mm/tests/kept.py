"""What a kernel of an image keeps, and what the program says of it: which words are kept, open and fixed, and the text
of `keeps`, line by line."""

from __future__ import annotations

import re
from typing import Iterable, Iterator

from mm.formats.image import Image, Slot
from mm.machine.words import Permission, Pointer, Word
from mm.records import dataclass, field

Segment = tuple[int, int]
RW, EU, KEY = Permission.RW, Permission.EU, Permission.KEY
PRIVILEGED = (Permission.XP, Permission.EP)
# A row of the table of docs/KEEPS.md: the name of an image, its kept segments, and the first line of `keeps`.
ROW = re.compile(r"^\| \[(\w+)\]\([\w./]+\) \| [^|]+ \| `([\d/,]+)` \| `keeps (\w+)` \|", re.M)

class Broken(Exception):
    """A promise of `keeps yes` that a run does not keep."""


def text_of(kept: Iterable[Segment]) -> str:
    """Segments as the command line has them."""
    return ",".join(f"{base}/{log}" for base, log in kept)


def segments_of(text: str) -> tuple[Segment, ...]:
    """The segments that a word of the command line names."""
    pairs = [item.split("/") for item in text.split(",")]
    return tuple((int(base), int(log)) for base, log in pairs)


def table_of(page: str) -> dict[str, tuple[tuple[Segment, ...], str]]:
    """The examples that a page has in a table: by the name of each its kept segments and what is said of them."""
    return {name: (segments_of(kept), verdict) for name, kept, verdict in ROW.findall(page)}


def with_kernel(image: Image) -> bool:
    """Whether an image has a gate, or a slot with a handler."""
    kernel = Kernel(image, ())
    gates = any(pointer.permission in (EU, Permission.EP) for pointer in kernel.live())
    return gates or any(slot.handler is not None for slot in kernel.running)


@dataclass(frozen=True)
class Kernel:
    """An image and its kept segments: which words are kept, open and fixed."""

    image: Image
    kept: tuple[Segment, ...]

    def is_kept(self, address: int) -> bool:
        return any(address >> log == base >> log for base, log in self.kept)

    def meets(self, pointer: Pointer) -> bool:
        return any(pointer.base < base + (1 << log) and base < pointer.end for base, log in self.kept)

    def is_open(self, word: Word) -> bool:
        """Whether a caller may hold a word."""
        pointer = word.pointer
        if pointer is None or pointer.permission in (EU, KEY):
            return True
        return pointer.permission not in PRIVILEGED and not self.meets(pointer)

    def is_door(self, word: Word) -> bool:
        pointer = word.pointer
        return pointer is not None and pointer.permission is EU and self.meets(pointer)

    @property
    def running(self) -> list[Slot]:
        return [slot for slot in self.image.slots if not slot.halted]

    def is_kernel(self, slot: Slot) -> bool:
        """Whether a slot is the kernel's: it runs kept code, or holds what no caller may hold."""
        return not slot.halted and (self.meets(slot.ip) or not all(map(self.is_open, slot.registers)))

    def live(self) -> Iterator[Pointer]:
        """The pointers of running slots and of cells."""
        for slot in self.running:
            yield slot.ip
            yield from (word.pointer for word in slot.registers if word.pointer)
        yield from (cell.word.pointer for _, cell in self.image.cells() if cell.word.pointer)

    def writable(self) -> list[Pointer]:
        return [pointer for pointer in self.live() if pointer.permission is RW]


def is_fixed(address: int, writable: Iterable[Pointer]) -> bool:
    """Whether no pointer that stores covers a word."""
    return not any(pointer.covers(address, 8) for pointer in writable)


# 2. What the program says of a kernel.


@dataclass(frozen=True)
class Form:
    """What a kept word may hold, as a line `cell` has it."""

    words: tuple[str, ...]

    def stands_for(self, word: Word, kernel: Kernel) -> bool:
        kind, pointer = self.words[0], word.pointer
        if kind == "int":
            return not word.tagged
        if kind == "any":
            return kernel.is_open(word)
        if kind == "ptr":
            return pointer is not None and pointer.permission.code == int(self.words[1]) and kernel.is_open(word)
        if kind == "in":
            code, base, log = int(self.words[1]), int(self.words[2], 16), int(self.words[3])
            inside = pointer is not None and pointer.log <= log and pointer.address >> log == base >> log
            return inside and pointer is not None and pointer.permission.code == code
        return str(word) == kind


WORD, PLACE = "[ip][0-9a-f]{16}", "[0-9a-f]{14}"
FORM = rf"(?:{WORD}|int|any|ptr [1-7]|in [1-7] {PLACE} \d+)"
LEAK = rf"across {WORD}|code {PLACE}|cell {PLACE} {FORM}|fault {PLACE} ip|loose \d+"
LEAK += rf"|(?:jump|enter|store|give|fault) {PLACE} \d+ {FORM}"
APART = rf"apart \d+ (?:yes|handler \d+|writer \d+ word {PLACE})"
GROUP = rf"group \d+|(?:touch|write) {PLACE} \d+|{APART}"
USE = rf"door {WORD}|slot \d+|(?:reads|writes|code) {PLACE} \d+|cell {PLACE} {FORM}"
LINE = re.compile(rf"(?:{USE}|leak (?:{LEAK})|{GROUP})\n")
VERDICTS = ("yes", "no", "more", "privileged")


def words_from(place: str, count: str) -> Iterator[int]:
    """The addresses of a run of words."""
    return (int(place, 16) + 8 * k for k in range(int(count)))


@dataclass
class Origin:
    """A door or a slot of the kernel: the kept words that its threads use."""

    reads: set[int] = field(default_factory=set)
    writes: set[int] = field(default_factory=set)

    def uses(self, access: str, address: int) -> bool:
        """Whether its threads use a kept word in the way of an access."""
        read, written = access != "store", access in ("store", "loadset")
        return (not read or address in self.reads) and (not written or address in self.writes)


@dataclass
class Group:
    """What a group reaches: its doors and its slots of the kernel, and the segments that it can touch and write."""

    origins: list[str] = field(default_factory=list)
    touch: list[Segment] = field(default_factory=list)
    write: list[Segment] = field(default_factory=list)

    def reaches(self, access: str, address: int) -> bool:
        """Whether one of its segments covers a word that is not kept, with the rights that an access needs."""
        segments = self.write if access in ("store", "loadset") else self.touch
        return any(log >= 3 and address >> log == base >> log for base, log in segments)


@dataclass
class Answer:
    """The text of `keeps`, as far as it promises something."""

    verdict: str
    doors: list[Word] = field(default_factory=list)
    slots: list[int] = field(default_factory=list)
    reads: set[int] = field(default_factory=set)
    writes: set[int] = field(default_factory=set)
    code: set[int] = field(default_factory=set)
    forms: dict[int, list[Form]] = field(default_factory=dict)
    origins: dict[str, Origin] = field(default_factory=dict)
    groups: dict[int, Group] = field(default_factory=dict)

    @classmethod
    def of(cls, text: str) -> Answer:
        first, *lines = text.splitlines(keepends=True) or [""]
        found = cls(first.removeprefix("keeps ").removesuffix("\n"))
        wrong = [line for line in lines if not LINE.fullmatch(line)]
        if first != f"keeps {found.verdict}\n" or found.verdict not in VERDICTS or wrong:
            raise Broken(f"keeps wrote {(wrong or [first])[0]!r}")
        if found.verdict != "no" and "leak" in text or found.verdict == "no" and "\nleak" not in text:
            raise Broken(f"it wrote `keeps {found.verdict}`, and its leaks do not go with that")
        for key, *words in map(str.split, lines):
            if found.groups or key == "group":
                found.take_group(key, words)
            else:
                found.take(key, words)
        if bool(found.groups) != (found.verdict == "yes"):
            raise Broken(f"it wrote `keeps {found.verdict}`, and {len(found.groups)} groups")
        return found

    def take(self, key: str, words: list[str]) -> None:
        """A line after the first, and before those of the groups."""
        if key == "door":
            self.doors.append(Word.parse(words[0]))
        elif key == "slot":
            self.slots.append(int(words[0]))
        elif key == "cell":
            self.forms.setdefault(int(words[0], 16), []).append(Form(tuple(words[1:])))
        elif key != "leak":
            {"reads": self.reads, "writes": self.writes, "code": self.code}[key].update(words_from(*words))
        if key in ("door", "slot"):
            self.origins[f"{key} {words[0]}"] = Origin()
        elif key in ("reads", "writes"):
            origin = list(self.origins.values())[-1]
            (origin.reads if key == "reads" else origin.writes).update(words_from(*words))

    def take_group(self, key: str, words: list[str]) -> None:
        """A line of a group."""
        if key == "group":
            self.groups[int(words[0])] = Group()
            return
        group = list(self.groups.values())[-1]
        if key in ("door", "slot"):
            group.origins.append(f"{key} {words[0]}")
        elif key in ("touch", "write"):
            (group.touch if key == "touch" else group.write).append((int(words[0], 16), int(words[1])))

    def confines(self, group: int, access: str, address: int, kept: bool) -> bool:
        """Whether a group may make an access: the word is kept and stands behind one of its doors or slots, or it is not
        and the group reaches it."""
        own = self.groups[group]
        if kept:
            return any(self.origins[origin].uses(access, address) for origin in own.origins)
        return own.reaches(access, address)
