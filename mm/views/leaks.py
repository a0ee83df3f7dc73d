"""Leaks of a kernel in words: where each is, what gets out there, and what the author of the kernel does about it."""

from __future__ import annotations

from typing import Callable, Optional, Sequence

from mm.formats.image import Image
from mm.machine.isa import Instruction
from mm.machine.memory import Memory
from mm.machine.words import Pointer
from mm.names.symbols import Symbols
from mm.outputs.keeps import Form, Kept, Leak
from mm.records import dataclass, field
from mm.views.keptwords import CALLERS, KeptWords, holders, listed
from mm.views.style import Style

NOT_OPEN = CALLERS.replace("that a caller", "no caller")
# The faults that no test can exclude, by the instruction.
UNTESTED = {"out": "whether the caller's output is full cannot be tested"}
UNTESTED |= dict.fromkeys(("ld", "st"), "whether the page of a pointer is there cannot be tested")
WAY_BACK = "or test the way back first: `isptr`, and by `shr` a permission from 3 to 6"
WAITS = "for a thread with a handler a word that is not {} is a fault too: let no two callers wait for one word"


@dataclass
class Place:
    """The leaks at one place: their kind, its address, and what each register holds; `ip` is none of these."""

    kind: str
    address: Optional[int] = None
    ip: bool = False
    registers: dict[int, list[Form]] = field(default_factory=dict)
    form: Optional[Form] = None
    slot: Optional[int] = None

    def take(self, leak: Leak) -> None:
        if leak.register is not None and leak.form is not None:
            self.registers.setdefault(leak.register, []).append(leak.form)
        self.ip = self.ip or leak.kind == "fault" and leak.register is None


Key = tuple[object, ...]


def key_of(leak: Leak) -> Key:
    """What leaks at one place have alike. A word that holds too much, and a pointer that leads too far, stand by themselves."""
    return leak.kind, leak.address, leak.form if leak.register is None else None, leak.slot


def places_of(leaks: Sequence[Leak]) -> dict[Key, Place]:
    """The leaks by their places, in their order."""
    found: dict[Key, Place] = {}
    for leak in leaks:
        alone = leak.form if leak.register is None else None
        place = found.setdefault(key_of(leak), Place(leak.kind, leak.address, form=alone, slot=leak.slot))
        place.take(leak)
    return found


class LeakView:
    """Writes leaks for the author of a kernel."""

    def __init__(self, image: Image, symbols: Symbols, kept: Kept, style: Style) -> None:
        self.image, self.symbols, self.kept, self.style = image, symbols, kept, style
        self.words, self.memory = KeptWords(symbols), Memory(image)

    def lines(self, place: Place) -> list[str]:
        """A place with its leaks: the line there, what gets out, and what to do."""
        said, mend = self.told(place)
        rows = [f"    {name:<4} {self.style.bad(text)}" for name, text in self.rows(place)]
        head = self.head(place)
        found = [*head, f"{'  ' * bool(head)}{said}", *rows, *(f"  {self.style.good('mend')}  {line}" for line in mend)]
        return found + ([f"  note  {line}" for line in self.notes(place)] if place.kind == "fault" else [])

    def told(self, place: Place) -> tuple[str, list[str]]:
        """What gets out at a place, and what to do about it."""
        return SAID[place.kind](self, place)

    def head(self, place: Place) -> list[str]:
        """The line of C and of the source at a place, or the instruction there. What `mm cc` made of a door has no line of C."""
        if place.address is None or place.kind == "cell":
            return []
        line, origin = self.symbols.c_line(place.address), self.symbols.origin(place.address)
        of_c = [f"{self.style.strong(f'{line}:')} {line.text}"] if line else []
        if origin and self.is_stub(place):
            return [f"{self.style.strong(f'{self.symbols.show(place.address)}:')} {origin.code}"]
        if origin:
            return [*of_c, f"{self.style.strong(f'{origin}:')} {origin.code}"]
        text = self.words.speller.at(self.memory, place.address)
        return [*of_c, f"{self.style.strong(f'0x{place.address:x}:')} {text}"]

    def rows(self, place: Place) -> list[tuple[str, str]]:
        """What gets out: the instruction pointer, and registers with what they hold."""
        ip = [("ip", f"by which all of {self.home(place.address)} can be read")] if place.ip and place.address else []
        return ip + [(f"r{number}", self.words.forms(forms)) for number, forms in sorted(place.registers.items())]

    def home(self, address: Optional[int]) -> str:
        """The segment of a word."""
        region = self.symbols.region(address) if address is not None else None
        return region.name if region else "its segment"

    def instruction(self, place: Place) -> Optional[Instruction]:
        return self.memory.instruction(place.address) if place.address is not None else None

    def held_by(self, wanted: Callable[[Pointer], bool]) -> str:
        return listed([name for name, _ in holders(self.image, wanted, self.symbols)])

    # The kinds

    def across(self, place: Place) -> tuple[str, list[str]]:
        pointer = place.form.word.pointer if place.form and place.form.word else None
        if pointer is None:
            return "a pointer reaches more than what is kept", []
        whole = self.words.segment(pointer.base, pointer.log)
        who = self.held_by(lambda held: held == pointer)
        said = f"{self.style.bad(self.words.speller.pointer(pointer))}, in {who}, reaches more than what is kept"
        return said, [f"keep its whole segment too: name {whole}", "or let nobody hold it"]

    def cell(self, place: Place) -> tuple[str, list[str]]:
        address = place.address or 0
        held = self.style.bad(self.words.form(place.form)) if place.form else "a pointer"
        said = f"{self.style.strong(self.symbols.show(address))} is not kept, and holds {held}, which {NOT_OPEN}"
        return said, [f"keep that word too: name {self.home(address)}", "or put the pointer into a segment that is kept"]

    def code(self, place: Place) -> tuple[str, list[str]]:
        address = place.address or 0
        who = self.held_by(lambda held: held.permission.stores and held.covers(address, 8))
        said = f"the kernel runs this word, and others can change it: a pointer that writes there is in {who}"
        return said, ["take that pointer away, or put the code into a segment of its own"]

    def jump(self, place: Place) -> tuple[str, list[str]]:
        instruction = self.instruction(place)
        said = f"it can leave the kernel with what {NOT_OPEN}"
        links = instruction is not None and instruction.name == "jal" and instruction.value("rd") in place.registers
        link = instruction.value("rd") if instruction is not None and links else None
        rest = [number for number in sorted(place.registers) if number != link]
        mend = [f"`jal` puts a pointer to the kernel's code into r{link}: leave by `jmp`"] if link is not None else []
        if self.is_stub(place) and 0 in rest:
            mend.append("r0 is the result of the door: hand out a number, a key, or a slice of something that is not kept")
            rest.remove(0)
        return said, mend + self.clear(rest)

    def enter(self, place: Place) -> tuple[str, list[str]]:
        said = "where it goes depends on what is in the kernel:"
        return said, ["jump by a pointer that `lip` makes, or by a word that nothing can change"]

    def store(self, place: Place) -> tuple[str, list[str]]:
        said = f"it can put what {NOT_OPEN} where others load it"
        names = listed([f"r{number}" for number in sorted(place.registers)])
        return said, [f"test the pointer that it stores through, or keep {names} out of what it stores",
                      "or, if the word is one of the kernel's, name its segment too"]

    def give(self, place: Place) -> tuple[str, list[str]]:
        said = f"it can hand what {NOT_OPEN} to a slot that the kernel serves"
        return said, ["give the slot a number, or a word that it had"]

    def fault(self, place: Place) -> tuple[str, list[str]]:
        instruction = self.instruction(place)
        said = f"it can fault, and the caller's handler then gets{self.handlers()}"
        own = set(self.operands(instruction))
        mend = self.clear([number for number in sorted(place.registers) if number not in own])
        needed = [f"r{number}" for number in sorted(place.registers) if number in own]
        if needed:
            mend.append(f"it works with {listed(needed)} itself: use {'it' if len(needed) == 1 else 'them'} where nothing can fault")
        mend += self.elsewhere(place) if place.ip else []
        mend += [WAY_BACK] if instruction is not None and instruction.name in ("jmp", "jal") else []
        return said, mend + self.own_handlers()

    def loose(self, place: Place) -> tuple[str, list[str]]:
        slot = self.image.slot(place.slot) if place.slot is not None else None
        code = self.home(slot.ip.address) if slot else "its code"
        said = f"{self.style.strong(f'slot {place.slot}')} serves others, and can go on as a caller: whoever it serves would be seen by anybody"
        return said, [f"keep its code too: name {code}, if that is not kept yet",
                      "or let it stay in its code: it ends with `halt`, or goes on to the next `evt`"]

    # What to do

    def clear(self, registers: Sequence[int]) -> list[str]:
        if not registers:
            return []
        names = listed([f"r{number}" for number in registers])
        code = ", ".join(f"`ldi r{number}, 0`" for number in registers)
        return [f"clear {names} before it: {code}"]

    def elsewhere(self, place: Place) -> list[str]:
        """What to do about an instruction pointer that a handler gets."""
        region = self.symbols.region(place.address) if place.address is not None else None
        cells = [self.image.cell(at) for at in range(region.base, region.end, 8)] if region and region.log < 20 else []
        if region and not any(cell.word.tagged for cell in cells if cell):
            return [f"do not keep {region.name}: it holds no pointer, and nobody can change its code anyway"]
        return ["move what can fault into a segment without pointers, and do not keep that one"]

    @staticmethod
    def operands(instruction: Optional[Instruction]) -> list[int]:
        """The registers that an instruction names."""
        if instruction is None:
            return []
        return [instruction.value(kind.field) for kind in instruction.operation.operands if kind.is_register]

    def notes(self, place: Place) -> list[str]:
        """The faults of an instruction that no test of the kernel can exclude."""
        instruction = self.instruction(place)
        if instruction is None:
            return []
        ready = instruction.choice("pre") if instruction.has("pre") else "any"
        waits = [WAITS.format(ready)] if ready != "any" else []
        return waits + ([UNTESTED[instruction.name]] if instruction.name in UNTESTED else [])

    def handlers(self) -> str:
        """Which callers serve the faults of which slots."""
        served: dict[int, list[str]] = {}
        for slot in self.image.slots:
            if not slot.halted and slot.handler is not None and slot.handler not in self.kept.slots:
                served.setdefault(slot.handler, []).append(str(slot.number))
        said = [f"slot {handler} for slot{'s' * (len(slots) > 1)} {listed(slots)}" for handler, slots in sorted(served.items())]
        return f" ({', '.join(said)})" if said else ":"

    def own_handlers(self) -> list[str]:
        """What to do if a handler of other groups is the kernel's own."""
        slots = {slot.number: slot for slot in self.image.slots if not slot.halted}
        across = {slots[slot.handler].number for slot in slots.values() if slot.handler in slots
            and slot.handler not in self.kept.slots and slots[slot.handler].group != slot.group}
        return [f"or, if slot {number} is the kernel's own, keep its code too: name {self.home(slots[number].ip.address)}"
            for number in sorted(across)]

    def is_stub(self, place: Place) -> bool:
        """Whether a place is in a door that `mm cc` made."""
        return bool(self.symbols.all_notes()) and self.home(place.address).startswith("door_")


SAID: dict[str, Callable[[LeakView, Place], tuple[str, list[str]]]] = {
    "across": LeakView.across,
    "cell": LeakView.cell,
    "code": LeakView.code,
    "jump": LeakView.jump,
    "enter": LeakView.enter,
    "store": LeakView.store,
    "give": LeakView.give,
    "fault": LeakView.fault,
    "loose": LeakView.loose,
}
