"""Faults of programs in C, in the words of C: the line, and the object with the byte that was meant."""

from __future__ import annotations

from typing import TYPE_CHECKING, Iterator, Optional

from mm.machine.causes import Cause
from mm.machine.words import Permission, Pointer
from mm.names.numbers import counted
from mm.outputs.report import SlotState
from mm.outputs.trace import Turn
from mm.views.spell import Memory, Speller, integer
from mm.views.why import Refusal, turn_of

if TYPE_CHECKING:
    from mm.log.past import Lost, Past
    from mm.names.clines import CFrame, CLine
    from mm.names.symbols import Region

LINK_REGISTER, STACK_REGISTER = 14, 15
NULL_PAGE = 4096
# So many calls of a function that have not returned are told when the stack is full.
MANY_CALLS = 20
# What is carried out before `main`.
START = "start"
# The heap of `malloc`, and the bytes for which it had no room; no heap has more than 2^MOST_HEAP bytes.
HEAP, REFUSED, MOST_HEAP = "__mm_heap", "__mm_refused", 19
# No stack has more than 2^MOST_STACK bytes.
MOST_STACK = 19
# In the name of each function of the library that no C names.
OF_TRANSLATOR = "__mm_"


class CView:
    """What a slot does, if it runs a program of C."""

    def __init__(self, slot: SlotState, memory: Memory, speller: Speller, past: Optional[Past] = None) -> None:
        self.slot, self.memory, self.speller, self.past = slot, memory, speller, past
        self.symbols = speller.symbols

    def frames(self) -> Iterator[CFrame]:
        """The functions that are being carried out, the innermost first."""
        ip, stack = self.slot.ip.pointer, self.slot.register(STACK_REGISTER)
        link = self.slot.register(LINK_REGISTER)
        if ip is None or stack is None or stack.pointer is None or self.symbols.c_notes(ip.address) is None:
            return iter(())
        from mm.names.clines import frames

        back = link.pointer.address if link is not None and link.pointer is not None else None
        return frames(ip.address, stack.pointer.address, self.symbols.c_notes, self.address_in, back)

    def address_in(self, address: int) -> Optional[int]:
        """The address of the pointer in a word of memory."""
        cell = self.memory.cell(address) if address % 8 == 0 else None
        return cell.word.pointer.address if cell and cell.word.pointer else None

    def line(self) -> Optional[CLine]:
        """The line of C where the slot stands; in a function of the library, that of its call."""
        return next((frame.line for frame in self.frames() if frame.line is not None), None)

    def fault(self, cause: Cause, turn: Optional[Turn] = None) -> Optional[str]:
        """`fault 3 Bounds at ov.c:7: buf[32] of 32 bytes`. Slot and memory are as they were in that turn."""
        inner = next(self.frames(), None)
        # Some operations are made by no line: the function is told then.
        line = self.line() if inner is None or not inner.function.begins else inner.line or inner.function.begins
        if line is None:
            return None
        at = Refusal(cause, self.slot, turn or turn_of(cause, self.slot, self.memory), self.memory, self.speller)
        full = self.full_stack(at) if cause is Cause.BOUNDS else None
        what = full or self.meant(at) if cause is Cause.BOUNDS else None
        if cause is Cause.NOT_POINTER:
            what = self.left_object(at)
        if cause is Cause.TRAP:
            what = self.gave_up(at)
        if cause is Cause.PERM:
            from mm.views.crights import forbidden

            what = forbidden(at)
        of_library = inner is not None and inner.line is None and not inner.function.begins and not full
        called = self.called() if of_library else ""
        within = f", in {called}" if called and OF_TRANSLATOR not in called else ""
        return f"fault {cause.number} {cause.title} at {line}{within}: {what or cause.meaning}"

    def called(self) -> str:
        """The function of the library that the program called, which may have called others."""
        name = ""
        for frame in self.frames():
            if frame.line is not None:
                break
            name = frame.name
        return name

    def full_stack(self, at: Refusal) -> Optional[str]:
        """A function, or an array whose length is known at the run alone, for which the stack has no room."""
        pointer, instruction = at.pointer, at.instruction
        region = self.symbols.region(pointer.base) if pointer else None
        if pointer is None or instruction is None or region is None or not region.name.endswith("stack"):
            return None
        if at.name not in ("lea", "leai") or instruction.value("ra") != STACK_REGISTER:
            return None
        inner = next(self.frames(), None)
        name = inner.name if inner else "a function"
        left = pointer.address - pointer.base
        wanted = -(at.word("rb").signed if at.name == "lea" else instruction.value("imm"))
        log = max(pointer.log + 1, ((1 << pointer.log) - left + wanted - 1).bit_length())
        if log > MOST_STACK:
            return f"{name} wants more for its variables than any stack has: is the length of an array below 0, or far too great?"
        calls = sum(frame.name == name for frame in self.frames())
        again = f" (at least {calls} calls of {name} are open)" if calls > MANY_CALLS else ""
        return (f"the stack is full: {name} has no room for its variables in the {left} bytes that are left of "
                f"{1 << pointer.log}; `--stack {log}` makes it larger{again}")

    def gave_up(self, at: Refusal) -> Optional[str]:
        """What a trap of the translator or of the library says."""
        from mm.views.ctraps import trap_said

        return trap_said(at.instruction.value("imm")) if at.instruction is not None and at.name == "trap" else None

    def left_object(self, at: Refusal) -> Optional[str]:
        """A pointer that became a number as it left its object, by its bits."""
        word = at.word("ra")
        if at.instruction is None or word.tagged:
            return None
        called = "a call of " if at.name in ("jal", "jmp") else ""
        if word.bits < NULL_PAGE:
            further = f", and {counted(word.bits, 'byte')} on" if word.bits else ""
            return f"{called}a null pointer{further}{'' if called else self.without_room()}"
        spelled = Pointer.of_bits(word.bits)
        if spelled is None:
            return f"{called}{integer(word)}, which is a number and no pointer"
        if self.is_swept(spelled):
            return "its block of malloc was freed"
        found = self.past.lost(at.instruction.value("ra")) if self.past is not None else None
        if found is not None:
            return f"these are the bits of a pointer, which is now a number: {self.lost(found)}"
        before = self.symbols.region(spelled.address - 1)
        told = self.symbols.c_global(before) if before is not None and before.log == spelled.log else None
        whose = f" {told.name}" if told and before and before.end == spelled.base else ""
        return (f"these are the bits of a pointer, which is now a number: it left its object{whose} (one past the end "
                "is outside), was computed with, or was copied in pieces")

    def without_room(self) -> str:
        """That `malloc` had no room before: a null pointer may be its answer."""
        ip = self.slot.ip.pointer
        own = self.symbols.region(ip.address) if ip is not None else None
        ours = [region for region in self.symbols.regions if own is not None and region.source is own.source]
        known = {made.name: region for region in ours for made in [self.symbols.c_global(region)] if made is not None}
        cell = self.memory.cell(known[REFUSED].base) if REFUSED in known and HEAP in known else None
        if cell is None or not cell.word.bits:
            return ""
        # The segment of a block is a power of two, and shorter than the heap.
        log = max(known[HEAP].log, (cell.word.bits - 1).bit_length()) + 1
        more = f": `--heap {log}` makes its heap larger" if log <= MOST_HEAP else ", which no heap has"
        return f"; before, `malloc` had no room for {counted(cell.word.bits, 'byte')}{more}"

    def lost(self, found: Lost) -> str:
        """How a pointer became a number, and where. The number may have been moved back into the object since."""
        line, function, pointer = self.symbols.c_line(found.place), self.symbols.c_function(found.place), found.pointer
        place = f" at {line}" if line else f" in {function.name}" if function and function.label != START else ""
        if pointer is None:
            return f"it was copied in pieces{place}"
        made = Pointer.of_bits(found.bits)
        if made is None or pointer.base == made.base or (pointer.permission, pointer.log) != (made.permission, made.log):
            return f"it was computed with{place}"
        region = self.symbols.region(pointer.base)
        whole = region is not None and (region.base, region.log) == (pointer.base, pointer.log)
        told = self.symbols.c_global(region) if region and whole else None
        whose = f"object{f' {told.name}' if told else ''}"
        if region is not None and self.is_block(region, pointer):
            whose = f"block of malloc ({counted(pointer.end - pointer.address, 'byte')}{self.handed_out(pointer)})"
        return f"it left its {whose}{place} (one past the end is outside)"

    @staticmethod
    def is_block(region: Region, pointer: Pointer) -> bool:
        """Whether a pointer is to a part of the heap."""
        return region.name.endswith("heap") and region.log > pointer.log

    def is_swept(self, pointer: Pointer) -> bool:
        """Whether it was to a block of malloc that was freed: the library makes the bits of a key of such a pointer."""
        heap = self.symbols.region(pointer.base)
        return (heap is not None and heap.name.endswith("heap") and heap.log > pointer.log
                and pointer.permission is Permission.KEY and bool(self.symbols.named(f"{heap.name}_roots")))

    def meant(self, at: Refusal) -> Optional[str]:
        """The byte that was meant, of the object that the pointer is to."""
        pointer = at.pointer
        if pointer is None or at.instruction is None:
            return None
        if at.is_access:
            target = at.address
        elif at.name in ("lea", "leab"):
            by = at.word("rb").signed
            target = (pointer.base if at.name == "leab" else pointer.address) + by
        elif at.name == "leai":
            target = pointer.address + at.instruction.value("imm")
        else:
            return None
        if target >= pointer.base + (1 << pointer.log) and at.name != "leai":
            target = self.byte_meant(at, pointer, target)
        return self.of_global(pointer, target) or self.of_local(pointer, target) or self.of_heap(pointer, target)

    @staticmethod
    def byte_meant(at: Refusal, pointer: Pointer, target: int) -> int:
        """The first byte outside, for an access that begins inside or at the end of the segment."""
        return target

    def of_global(self, pointer: Pointer, target: int) -> Optional[str]:
        region = self.symbols.region(pointer.base)
        if region is None or (region.base, region.log) != (pointer.base, pointer.log):
            return None
        made = self.symbols.c_global(region)
        notes = region.source.notes if region.source else None
        from mm.names.clines import place_in

        return place_in(made, target - region.base - made.at, notes.types if notes else None) if made else None

    def of_local(self, pointer: Pointer, target: int) -> Optional[str]:
        from mm.names.clines import place_in

        for frame in self.frames():
            for made in frame.function.objects:
                start = frame.stack + made.at
                if made.log == pointer.log and start >> made.log == pointer.base >> made.log:
                    name = frame.function.inner_name(made.inner)
                    return f"{place_in(made, target - start, frame.notes.types)}, in {name}"
        return None

    def of_heap(self, pointer: Pointer, target: int) -> Optional[str]:
        region = self.symbols.region(pointer.base)
        if region is None or not self.is_block(region, pointer):
            return None
        by, size = target - pointer.address, pointer.end - pointer.address
        element = self.element(pointer, by)
        return (f"{f'{element}, ' if element else ''}byte {by} of a block of malloc, which has "
                f"{counted(size, 'byte')} from there on{self.handed_out(pointer)}")

    def handed_out(self, pointer: Pointer) -> str:
        """The line of C that called for a block of `malloc`."""
        then = self.past.when_cut_out(pointer) if self.past is not None else None
        line = CView(*then, self.speller).line() if then is not None else None
        return f", handed out at {line}" if line else ""

    def element(self, pointer: Pointer, by: int) -> Optional[str]:
        """`ring[8]` or `t->slots[-5]`, if a variable that has a place now, or a member of what one points to, holds the
        pointer, and an element begins so many bytes from there on."""
        from mm.views.cvalues import CValues

        values = CValues(self.slot, self.memory, self.speller)
        for name, thing in values.pointers():
            word, size = values.word(thing), thing.types.size(thing.kind.inner)
            if word is not None and word.pointer == pointer and size and by % size == 0:
                return f"{name}[{by // size}]"
        return None
