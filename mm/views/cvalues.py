"""Variables of a program in C: where they are now, what they hold, and how that is written."""

from __future__ import annotations

import re
from typing import Iterator, Optional

from mm.machine.words import WORD_MASK, Permission, Pointer, Word
from mm.names.clines import CFrame, CNotes, CVariable
from mm.names.ctypes import CField, CType, CTypes
from mm.outputs.report import SlotState
from mm.records import dataclass
from mm.views.cview import CView
from mm.views.spell import Memory, Speller, bytes_as_text, integer

MOST_ELEMENTS = 32
IN_REGISTER = re.compile(r"(^|[*+])r\d")
WORD = 8


@dataclass(frozen=True)
class CThing:
    """Something of a type: in memory at an address, or a value that is in no memory."""

    types: CTypes
    type: int
    address: Optional[int] = None
    value: Optional[Word] = None
    bit: int = 0
    bits: Optional[int] = None

    @property
    def kind(self) -> CType:
        return self.types.get(self.type) or CType("base", "long", WORD, True)

    @property
    def size(self) -> int:
        return self.kind.size if self.kind.kind != "array" else self.types.size(self.type)


class CValues:
    """The variables that the code of a slot can see, as the function sees them that is so many calls out."""

    def __init__(self, slot: SlotState, memory: Memory, speller: Speller, depth: int = 0) -> None:
        self.slot, self.memory, self.speller, self.depth = slot, memory, speller, depth
        self.view = CView(slot, memory, speller)
        self.frames = list(self.view.frames())
        # Each function that is being carried out, by its frame and its number there, with the line where it stands: the
        # innermost first. Several may have one frame.
        self.calls = [(frame, line.inner if line else 0, name, line)
                      for frame in self.frames for name, line in frame.calls()]

    # Names

    def named(self, name: str) -> Optional[CThing]:
        """A variable of the function that is carried out, or of one that it was put into, an object of one that waits
        for it, or a global."""
        return self.found(name)[0]

    def found(self, name: str) -> tuple[Optional[CThing], Optional[str]]:
        """The same, and the function that it is of; the function alone if the variable of that name has no place."""
        for frame, inner, whose, _ in self.calls[self.depth:]:
            thing = next((thing for thing_name, thing in self.variables(frame, inner) if thing_name == name), None)
            theirs = (each.name for _, each in frame.function.variables if each.inner == inner)
            if thing is not None or name in theirs:
                return thing, whose
        return self.global_(name) or self.constant(name), None

    @staticmethod
    def objects(frame: CFrame, inner: int) -> Iterator[tuple[str, CThing]]:
        """The objects in a frame that are variables of a function that has its code there."""
        for made in frame.function.objects:
            if made.inner == inner and made.type:
                yield made.name, CThing(frame.notes.types, made.type, frame.stack + made.at)

    def pointers(self) -> Iterator[tuple[str, CThing]]:
        """The pointers that the function here can name shortly: its variables and globals, and members of what these
        are or point to."""
        for name, thing in [*self.locals(), *self.globals()]:
            kind = thing.kind
            if kind.kind == "pointer":
                yield name, thing
                word = self.word(thing)
                if word is None or word.pointer is None:
                    continue
                thing, name = CThing(thing.types, kind.inner, word.pointer.address), f"{name}->"
            else:
                name += "."
            if thing.kind.kind == "struct":
                inner = ((part.name, self.member(thing, part)) for part in thing.kind.fields)
                yield from ((f"{name}{part}", found) for part, found in inner if found.kind.kind == "pointer")

    def globals(self) -> Iterator[tuple[str, CThing]]:
        """The globals of the program that runs here."""
        here = self.slot.ip.pointer
        own = self.speller.symbols.region(here.address) if here else None
        for region in self.speller.symbols.regions:
            made = self.speller.symbols.c_named(region)
            if made is not None and own and region.source is own.source and region.source and region.source.notes:
                yield made.name, CThing(region.source.notes.types, made.type, region.base + made.at)

    @property
    def innermost(self) -> Optional[str]:
        """The innermost function of the program's own, which is not of the library; or the one that was chosen."""
        return next((name for _, _, name, line in self.calls[self.depth:] if self.depth or line is not None), None)

    def global_(self, name: str) -> Optional[CThing]:
        here = self.slot.ip.pointer
        own = self.speller.symbols.region(here.address) if here else None
        regions = sorted(self.speller.symbols.regions, key=lambda region: not own or region.source is not own.source)
        for region in regions:
            made = self.speller.symbols.c_named(region)
            if made is not None and made.name == name and region.source and region.source.notes:
                return CThing(region.source.notes.types, made.type, region.base + made.at)
        return None

    def constant(self, name: str) -> Optional[CThing]:
        """A constant of an enumeration of the program that runs here."""
        here = self.slot.ip.pointer
        notes = self.speller.symbols.c_notes(here.address) if here else None
        for number, kind in notes[0].types.types.items() if notes else ():
            for value, constant in kind.values.items():
                if constant == name:
                    return CThing(notes[0].types, number, value=Word(value & WORD_MASK)) if notes else None
        return None

    def locals(self) -> Iterator[tuple[str, CThing]]:
        """The variables of the function in whose line the slot stands, or of the chosen one, that have a place now."""
        for frame, inner, _, _ in self.calls[self.depth : self.depth + 1]:
            yield from self.variables(frame, inner)

    def variables(self, frame: CFrame, inner: int) -> Iterator[tuple[str, CThing]]:
        """The variables of a function that have a place now. Registers are those of the innermost frame."""
        yield from self.objects(frame, inner)
        for variable in frame.function.variables_at(frame.number):
            if variable.inner == inner and (frame is self.frames[0] or not IN_REGISTER.search(variable.where)):
                thing = self.thing(variable, frame, frame.notes)
                if thing is not None:
                    yield variable.name, thing

    def is_elsewhere(self, name: str) -> bool:
        """Whether a name is a variable of one of the functions, which is nowhere at this moment."""
        thing, whose = self.found(name)
        return thing is None and whose is not None

    # Places

    def thing(self, variable: CVariable, frame: CFrame, notes: CNotes) -> Optional[CThing]:
        where = variable.where.lstrip("*")
        words = [self.term(text, frame, notes) for text in where.split("+")]
        known = [word for word in words if word is not None]
        if len(known) < len(words):
            return None
        value = self.sum(known)
        if variable.where.startswith("*"):
            pointer = value.pointer
            return CThing(notes.types, variable.type, pointer.address if pointer else value.bits & (1 << 54) - 1)
        return CThing(notes.types, variable.type, value=value)

    def term(self, text: str, frame: CFrame, notes: CNotes) -> Optional[Word]:
        """`r7`, the word at `s24`, the object at `f24:5` of the frame with a segment of 2^5 bytes, the global `@name`,
        or a number."""
        kind, rest = text[0], text[1:]
        if kind == "r":
            return self.slot.register(int(rest))
        if kind == "s":
            cell = self.memory.cell(frame.stack + int(rest))
            return cell.word if cell else None
        if kind == "f":
            at, _, log = rest.partition(":")
            return Word(Pointer(Permission.RW, int(log), frame.stack + int(at)).bits, True)
        if kind == "@":
            pointer = self.speller.symbols.c_pointer(rest, notes)
            return Word(pointer.bits, True) if pointer else None
        return Word(int(text) & WORD_MASK)

    @staticmethod
    def sum(words: list[Word]) -> Word:
        """A sum, which is a pointer where its first part is one and it stays in its segment."""
        first, by = words[0], sum(word.signed for word in words[1:])
        pointer = first.pointer
        if pointer is not None and pointer.covers(pointer.address + by):
            return Word(Pointer(pointer.permission, pointer.log, pointer.address + by).bits, True)
        return Word(first.bits + by & WORD_MASK, first.tagged and not by)

    # Contents

    def bytes(self, address: int, size: int) -> Optional[bytes]:
        """The bytes of memory from an address on, if all of them are on pages."""
        found = bytearray()
        for at in range(address & ~7, address + size, WORD):
            cell = self.memory.cell(at)
            if cell is None:
                return None
            found += cell.word.bits.to_bytes(WORD, "little")
        return bytes(found[address & 7 :][:size])

    def word(self, thing: CThing) -> Optional[Word]:
        """A number or a pointer, as one word."""
        size = thing.kind.size
        if thing.value is not None:
            word = thing.value
        elif thing.address is not None and thing.address % WORD == 0 and size == WORD:
            cell = self.memory.cell(thing.address)
            return cell.word if cell else None
        else:
            data = self.bytes(thing.address or 0, size)
            if data is None:
                return None
            word = Word(int.from_bytes(data, "little"))
        if word.tagged:
            return word
        bits = word.bits >> thing.bit & (1 << (thing.bits or 8 * min(size, WORD))) - 1
        width = thing.bits or 8 * size
        if thing.kind.signed and 0 < width < 64 and bits >> width - 1:
            bits -= 1 << width
        return Word(bits & WORD_MASK)

    def spell(self, thing: CThing, depth: int = 0) -> str:
        """A value as C would write it."""
        kind = thing.kind
        if kind.kind == "array":
            return self.array(thing, depth)
        if kind.kind in ("struct", "union"):
            parts = [(part.name, self.member(thing, part)) for part in kind.fields]
            inner = ", ".join(f"{name} = {self.spell(part, depth + 1)}" for name, part in parts) if depth < 4 else ".."
            return f"{{{inner}}}"
        word = self.word(thing)
        if word is None:
            return "on no page"
        if kind.kind == "pointer" or word.tagged:
            return self.pointer(thing, word)
        if kind.kind == "enum":
            return kind.values.get(word.signed) or str(word.signed)
        if kind.floating:
            return f"the bits 0x{word.bits:x}"
        return integer(word) if kind.signed or word.bits < 1 << 16 else f"{word.bits} 0x{word.bits:x}"

    def pointer(self, thing: CThing, word: Word) -> str:
        """A pointer, and the text that it is to."""
        pointer = word.pointer
        if pointer is None:
            return "no pointer (0)" if not word.bits else f"no pointer ({integer(word)})"
        text = self.speller.word(word)
        target = thing.types.get(thing.kind.inner)
        if target and target.kind == "base" and target.size == 1 and pointer.permission.loads:
            data = self.bytes(pointer.address, min(pointer.end - pointer.address, 64))
            if data and 0 in data and all(32 <= byte < 127 or byte in (9, 10) for byte in data[: data.index(0)]):
                text += " " + bytes_as_text(data[: data.index(0)])
        return text

    def array(self, thing: CThing, depth: int) -> str:
        kind = thing.kind
        inner = thing.types.get(kind.inner)
        size = thing.types.size(kind.inner)
        if thing.address is None or not size:
            return "not known"
        if inner is not None and inner.kind == "base" and inner.size == 1:
            data = self.bytes(thing.address, kind.count)
            return bytes_as_text(data.rstrip(b"\0")) if data is not None else "on no page"
        shown = min(kind.count, MOST_ELEMENTS) if depth < 3 else 0
        places = [thing.address + at * size for at in range(shown)]
        parts = [self.spell(CThing(thing.types, kind.inner, place), depth + 1) for place in places]
        return "{" + ", ".join(parts + [".."] * (shown < kind.count)) + "}"

    def member(self, thing: CThing, part: CField) -> CThing:
        """A member of a structure. A bit-field is in the bytes from its own place on."""
        if thing.address is None:
            value = Word((thing.value.bits if thing.value else 0) >> part.at) if part.at < 64 else None
            return CThing(thing.types, part.type, value=value, bits=part.bits)
        return CThing(thing.types, part.type, thing.address + part.at // 8, bit=part.at % 8 if part.bits else 0,
                      bits=part.bits)
