"""Why a turn was refused: the fault in words, from what the turn fetched and accessed, and from the slot and the memory as they
were then. A fault leaves registers and memory as they were."""

from __future__ import annotations

from typing import Callable, Optional

from mm.formats.image import PAGE_BYTES
from mm.machine.causes import Cause
from mm.machine.isa import BRANCHES, Instruction
from mm.machine.words import Permission, Pointer, Word, WORD_BYTES, WORD_MASK
from mm.outputs.report import SlotState
from mm.outputs.trace import Turn
from mm.views.spell import Memory, Speller, integer

ACCESSES = ("ld", "st")


class Refusal:
    """A turn that was refused: the slot as it stood, what the turn fetched and accessed, and the instruction if it got one."""

    def __init__(self, cause: Cause, slot: SlotState, turn: Turn, memory: Memory, speller: Speller) -> None:
        self.cause, self.slot, self.turn, self.memory, self.speller = cause, slot, turn, memory, speller
        self.ip = slot.ip.pointer or Pointer(Permission.XU, 0, 0)
        # A test of the fetch itself may have refused it; where no page is there is no instruction either.
        self.instruction: Optional[Instruction] = None if turn.fetch is None else memory.instruction(self.ip.address)

    @property
    def name(self) -> str:
        return self.instruction.name if self.instruction else ""

    def register(self, field: str) -> str:
        return f"r{self.instruction.value(field)}" if self.instruction else ""

    def word(self, field: str) -> Word:
        found = self.slot.register(self.instruction.value(field)) if self.instruction else None
        return found or Word(0)

    def spelled(self, field: str) -> str:
        """`r1 is rw 2^3 box`."""
        return f"{self.register(field)} is {self.speller.word(self.word(field))}"

    @property
    def pointer(self) -> Optional[Pointer]:
        return self.word("ra").pointer if self.instruction and self.instruction.has("ra") else None

    @property
    def is_access(self) -> bool:
        return self.name in ACCESSES

    @property
    def address(self) -> int:
        """The address of an access: that of the trace, or if a test before it refused it, where it would have been."""
        if self.turn.address is not None:
            return self.turn.address
        return self.pointer.address + self.instruction.value("imm") if self.pointer and self.instruction else 0

    def reach(self, pointer: Pointer) -> str:
        return self.speller.reach(pointer)


def _not_pointer(at: Refusal) -> list[str]:
    word = at.word("ra")
    lines = [f"{at.register('ra')} is the integer {integer(word)}, and `{at.name}` wants a pointer there"]
    spelled = Pointer.of_bits(word.bits)
    if spelled and word.bits:
        lines.append(
            f"its bits are those of {at.speller.pointer(spelled)}, but without the tag they are a number: arithmetic and `ldi` only make integers (move pointers with lea, leai, leab)"
        )
    elif at.name == "st" and at.word("rb").pointer:
        lines.append(
            f"{at.spelled('rb')}: `st` takes the pointer first, and then the word to store: `st {at.register('rb')}, {at.register('ra')}, ..`"
        )
    elif at.name in ("jmp", "jal"):
        lines.append(_no_way(at))
    elif word.bits == 0:
        lines.append(
            f"a register is 0 until something is put into it: give it a pointer with `.reg {at.register('ra')[1:]} ptr rw NAME` after the `.thread`, or see where it was cleared"
        )
    return lines


def _no_way(at: Refusal) -> str:
    """What was meant by a jump through an integer."""
    ra, rd = at.register("ra"), at.register("rd") if at.name == "jal" else ""
    back = at.word("rd").pointer if rd else None
    if back and (back.permission.executes or back.permission.enters):
        return f"{at.spelled('rd')}: the register for the way back comes first, do you mean `jal {ra}, {rd}`?"
    if at.name == "jal":
        return f"code of other segments comes by `.reg {ra[1:]} ptr xu NAME` (`eu` for a gate), that of this one by `lip {ra}, LABEL`"
    return f"no way back was kept in {ra}: a call is `jal {ra}, r5`, and `jmp` and `br` keep none"


def _perm(at: Refusal) -> list[str]:
    pointer = at.pointer
    if pointer is None:
        return []
    may = pointer.permission
    lines = [f"{at.spelled('ra')}: {may.full}"]
    if at.is_access:
        sets = at.name == "ld" and at.instruction is not None and at.instruction.choice("post") != "keep"
        need = (
            "load and store rights, since this load sets the bit"
            if sets
            else "the right to load"
            if at.name == "ld"
            else "the right to store"
        )
        lines.append(f"`{at.name}` needs {need}, and this pointer has {_rights(may)}")
    elif at.name == "restrict":
        wanted = Permission.of_code(at.word("rb").bits)
        lines.append(
            f"it may become {' or '.join(each.short for each in may.may_become) or 'nothing else'}, and {wanted.short if wanted else 'that'} is asked for"
        )
    elif at.name in ("jmp", "jal"):
        lines.append("a jump needs a pointer that executes (xu, xp) or enters (eu, ep)")
    else:
        lines.append("an enter pointer or a key cannot be moved or cut")
    return lines


def _rights(permission: Permission) -> str:
    if permission.enters:
        return "only the right to be jumped to"
    return {Permission.RO: "only the right to load", Permission.RW: "both", Permission.KEY: "none"}.get(
        permission, "the rights to load and to be run"
    )


def _bounds(at: Refusal) -> list[str]:
    show = at.speller.symbols.show
    if at.slot.past:
        origin = at.speller.symbols.origin(at.ip.address)
        last = f", {origin}: {origin.code}" if origin else ""
        return [
            f"the thread ran past the end of its segment: {show(at.ip.address)} was its last word{last}",
            "end it with `halt`, or branch back",
        ]
    if at.instruction is None:
        return [
            f"an instruction has 8 bytes, and those from {show(at.ip.address)} on are not all in the segment of the code",
            f"the thread runs by {at.speller.pointer(at.ip)}, which reaches {at.reach(at.ip)}",
        ]
    if at.is_access and at.pointer:
        where = f"to the 8 bytes from {show(at.address)} on" if at.pointer.covers(at.address) else f"at {show(at.address)}"
        return [
            f"{at.spelled('ra')}, and the access is {where}",
            f"it reaches {at.reach(at.pointer)}, and no further",
        ]
    if at.name in ("lea", "leai", "leab") and at.pointer:
        by = at.instruction.value("imm") if at.name == "leai" else at.word("rb").signed
        start = at.pointer.base if at.name == "leab" else at.pointer.address
        lines = [
            f"{at.spelled('ra')}, and {by:+d} bytes {'from its base ' if at.name == 'leab' else ''}would lead to {show(start + by)}"
        ]
        return lines + [
            f"it reaches {at.reach(at.pointer)}: no pointer points outside its segment, not even just past its end"
        ]
    if at.name == "subseg" and at.pointer:
        return [
            f"{at.spelled('ra')}, and a segment of 2^{at.word('rb').bits} bytes is not shorter than its 2^{at.pointer.log}"
        ]
    if at.name in ("map", "unmap"):
        return [f"{at.spelled('ra')}, and a page's number is below 2^42: it is the address divided by 4096"]
    return _bounds_of_code(at)


def _bounds_of_code(at: Refusal) -> list[str]:
    show, here = at.speller.symbols.show, at.ip
    words = at.instruction.value("imm") if at.instruction and at.name in BRANCHES else 1
    to = here.address + 8 * words
    lines = [f"{show(to)} is outside the code, which has {at.reach(here)}"]
    if at.name in ("jal", "lip") and to == here.end:
        lines.append("the return address would be outside the segment: leave a word after a call")
    elif at.name == "lip":
        lines.append("`lip` only makes pointers into its own code: others come from `.ptr` words and `.reg`")
    elif at.name in BRANCHES:
        lines.append("a branch stays in its segment: to reach others use `jmp` or `jal` through a pointer")
    return lines


def _align(at: Refusal) -> list[str]:
    here = at.address if at.is_access else at.ip.address
    past = f"{at.speller.symbols.show(here)} is {here % 8} bytes past a word"
    if at.is_access:
        return [f"{past}: words are at multiples of 8"]
    return [f"{past}, and the thread is there: instructions are words, at multiples of 8"]


def _no_page(at: Refusal) -> list[str]:
    here = at.address if at.is_access else at.ip.address
    gone = here // PAGE_BYTES in at.memory.image.pages
    what = "the run has removed it" if gone else "an image has the pages of its segments, and `map` makes others"
    fetch = "" if at.is_access else ", where the thread is"
    return [f"no page is mapped at {at.speller.symbols.show(here)}{fetch}: {what}"]


def _illegal(at: Refusal) -> list[str]:
    cell = at.memory.cell(at.ip.address)
    what = at.speller.word(cell.word) if cell else "nothing"
    lines = [f"the word at {at.speller.symbols.show(at.ip.address)} is not an instruction: {what}"]
    if cell and cell.word.tagged:
        lines.append("a pointer is never an instruction: let the thread begin, or jump, after it")
    return lines


def _priv(at: Refusal) -> list[str]:
    return [
        f"only code that runs with an execute-privileged pointer may use `{at.name}`, and this runs with {at.speller.pointer(at.ip)}",
        "`.thread .. xp NAME` starts a privileged thread",
    ]


def _div_zero(at: Refusal) -> list[str]:
    return [f"the divisor {at.register('rb')} is 0"]


def _malformed(at: Refusal) -> list[str]:
    if at.name == "restrict":
        return [f"{at.register('rb')} is {integer(at.word('rb'))}, and permissions are 1 (ro) to 7 (key)"]
    return [
        f"the bits 0x{at.word('ra').bits & WORD_MASK:x} of {at.register('ra')} do not spell a pointer: the first digit must be 1 to 7, the length at most 2^54"
    ]


def _trap(at: Refusal) -> list[str]:
    number = at.instruction.value("imm") if at.instruction else 0
    return [
        f"trap {number}, and the slot has no handler to answer it"
        if at.slot.fault
        else f"trap {number}, which the handler has to answer"
    ]


def _no_slot(at: Refusal) -> list[str]:
    return [f"{at.spelled('ra')}: it must be a slot that this one handles, and whose event it has read with `evt`"]


def _out_full(at: Refusal) -> list[str]:
    image = at.memory.image
    more = " (`mm migrate FILE plain` gives 65536)" if image.version == 1 else ""
    return [f"the group has printed {image.output_limit} bytes, which is the limit{more}"]


REASONS: dict[Cause, Callable[[Refusal], list[str]]] = {
    Cause.NOT_POINTER: _not_pointer,
    Cause.PERM: _perm,
    Cause.BOUNDS: _bounds,
    Cause.ALIGN: _align,
    Cause.NO_PAGE: _no_page,
    Cause.ILLEGAL: _illegal,
    Cause.PRIV: _priv,
    Cause.DIV_ZERO: _div_zero,
    Cause.MALFORMED: _malformed,
    Cause.TRAP: _trap,
    Cause.NO_SLOT: _no_slot,
    Cause.OUT_FULL: _out_full,
}


def turn_of(cause: Cause, slot: SlotState, memory: Memory) -> Turn:
    """What a trace would say of a fault at this very moment, of a slot that stands at its instruction."""
    ip = slot.ip.pointer
    sound = ip is not None and not slot.past and ip.address % WORD_BYTES == 0 and ip.covers(ip.address, WORD_BYTES)
    if ip is None or not sound:
        return Turn(slot.number, slot.turns, "faulted", cause.number)
    instruction = memory.instruction(ip.address)
    base = slot.register(instruction.value("ra")) if instruction and instruction.name in ACCESSES else None
    if cause not in (Cause.NO_PAGE, Cause.SYNC) or instruction is None or base is None or base.pointer is None:
        return Turn(slot.number, slot.turns, "faulted", cause.number, ip.address)
    access = "store" if instruction.name == "st" else "load" if instruction.choice("post") == "keep" else "loadset"
    address = base.pointer.address + instruction.value("imm")
    return Turn(slot.number, slot.turns, "faulted", cause.number, ip.address, access, address)


def why(cause: Cause, slot: SlotState, turn: Turn, memory: Memory, speller: Speller) -> list[str]:
    """The fault of a turn in words, with the slot and the memory as they were then."""
    told = REASONS.get(cause)
    return told(Refusal(cause, slot, turn, memory, speller)) if told else [cause.meaning]
