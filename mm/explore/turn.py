"""One turn of a slot of the second machine, operation by operation."""

from __future__ import annotations

from typing import TYPE_CHECKING, Any

from mm.explore.parts import BLANK, FETCH, HALTED, LOAD, LOAD_SET, NUMBERS, RUNNING, STORE, TAG, TAKEN, WAITING
from mm.explore.parts import BOUNDS, ILLEGAL, MALFORMED, NO_PAGE, NO_SLOT, OUT_FULL, PRIV, SYNC, TRAP
from mm.explore.parts import Blocked, Cell, Configuration, Event, Fault, Thread
from mm.explore.parts import checked, entered, moved, pointer_of, restricted, shortened, signed, walkable
from mm.formats.image import PAGE_BYTES, PAGE_WORDS
from mm.machine.isa import Instruction
from mm.machine.words import WORD_MASK, Permission, Pointer

if TYPE_CHECKING:
    from mm.explore.machine import Machine

PAGE_LIMIT = 1 << 42


class Turn:
    """One turn of a running slot, on a copy of a configuration."""

    def __init__(self, machine: Machine, here: Configuration, index: int) -> None:
        self.machine, self.here, self.index = machine, here, index
        self.threads, self.queues, self.outputs = list(here.threads), list(here.queues), list(here.outputs)
        self.pages, self.cells = set(here.pages), dict(here.cells)
        self.accesses: list[tuple[str, int]] = []
        # Whether the instruction was carried out.
        self.done = False

    def configuration(self) -> Configuration:
        return Configuration(
            tuple(self.threads), tuple(self.queues), tuple(self.outputs), frozenset(self.pages), frozenset(self.cells.items())
        )

    @property
    def own(self) -> Thread:
        return self.threads[self.index]

    def change(self, index: int, **fields: Any) -> None:
        self.threads[index] = self.threads[index]._replace(**fields)

    # Memory.

    def cell(self, word: int) -> Cell:
        """The cell of a word of a mapped page."""
        return self.cells.get(word) or self.machine.cell(word)

    def set_cell(self, word: int, cell: Cell) -> None:
        if cell == self.machine.cell(word):
            self.cells.pop(word, None)
        else:
            self.cells[word] = cell

    def set_page(self, page: int, mapped: bool) -> bool:
        """Maps or removes a page, and says whether that could be done."""
        if mapped == (page in self.pages) or mapped and len(self.pages) >= self.machine.image.frames:
            return False
        for word in range(page * PAGE_BYTES, (page + 1) * PAGE_BYTES, PAGE_BYTES // PAGE_WORDS):
            self.cells.pop(word, None)
            if mapped:
                self.set_cell(word, BLANK)
        (self.pages.add if mapped else self.pages.remove)(page)
        return True

    def access(self, word: int, offset: int, kind: str, pre: str = "any") -> int:
        address = checked(word, offset, kind)
        self.accesses.append((kind, address))
        if address // PAGE_BYTES not in self.pages:
            raise Fault(NO_PAGE)
        if pre != "any" and (pre == "full") != self.cell(address)[1]:
            raise Fault(SYNC)
        return address

    # Slots.

    def deliver(self, index: int) -> None:
        """The oldest pending load of a slot arrives."""
        thread = self.threads[index]
        (register, word), *rest = thread.pending
        self.change(index, pending=tuple(rest), empty=thread.empty - {register})
        self.set_register(index, register, word)

    def set_register(self, index: int, register: int, word: int) -> None:
        regs = list(self.threads[index].regs)
        regs[register] = word
        self.change(index, regs=tuple(regs))

    def advance(self, index: int) -> None:
        """Goes to the next instruction; at the end of the segment the slot is past."""
        ip = pointer_of(self.threads[index].ip)
        if ip.covers(ip.address + 8):
            self.change(index, ip=moved(ip, ip.address + 8))
        else:
            self.change(index, past=True)

    def served(self, word: int) -> int:
        """The index of the slot of a number, if this slot serves it and has taken its event."""
        bits, machine = word & WORD_MASK, self.machine
        index = machine.numbers.index(bits) if bits in machine.numbers else -1
        if index < 0 or machine.handlers[index] != self.index or self.threads[index].state != TAKEN:
            raise Fault(NO_SLOT)
        return index

    # A turn.

    def make(self) -> int:
        """Makes the turn, and gives the cause of its fault, or 0."""
        try:
            self.act()
            self.done = True
        except Blocked as blocked:
            if blocked.deliver is not None:
                self.deliver(blocked.deliver)
        except Fault as fault:
            return self.fail(fault)
        return 0

    def fail(self, fault: Fault) -> int:
        """What a fault makes of the slot. A Sync fault that nobody handles is none."""
        handler = self.machine.handlers[self.index]
        if handler is None:
            if fault.cause == SYNC:
                return 0
            self.change(self.index, state=f"faulted {fault.cause}")
            return fault.cause
        event = Event(self.machine.numbers[self.index], fault.cause, self.own.ip, *fault.operands)
        self.queues[handler] += (event,)
        self.change(self.index, state=WAITING)
        return fault.cause

    def act(self) -> None:
        instr = self.fetched()
        needed = [value for kind, value in zip(instr.operation.operands, instr.values) if kind.is_register]
        if instr.name == "evt":
            needed = list(range(needed[0], needed[0] + 4))
        if self.own.empty.intersection(needed):
            raise Blocked(self.index)
        try:
            self.carry_out(instr)
        except Fault as fault:
            raise Fault(fault.cause, self.operands(instr)) from None

    def fetched(self) -> Instruction:
        if self.own.past:
            raise Fault(BOUNDS)
        word = self.cell(self.access(self.own.ip, 0, FETCH))[0]
        instr = None if word & TAG else self.machine.instruction(word)
        if instr is None:
            raise Fault(ILLEGAL)
        return instr

    def operands(self, instr: Instruction) -> tuple[int, int]:
        """The words that an event has of an instruction that faulted."""
        regs = self.own.regs
        address = regs[instr.value("ra")] if instr.has("ra") else 0
        if instr.has("rb"):
            return address, regs[instr.value("rb")]
        return address, instr.value("imm") & WORD_MASK if instr.has("imm") else 0

    def carry_out(self, instr: Instruction) -> None:
        name, regs = instr.name, self.own.regs
        number = instr.value("imm") if instr.has("imm") else 0
        a = regs[instr.value("ra")] if instr.has("ra") else 0
        b = regs[instr.value("rb")] if instr.has("rb") else 0
        special = getattr(self, f"do_{name}", None)
        if special:
            special(instr, a, b, number)
            return
        self.set_register(self.index, instr.value("rd"), self.result(name, regs[instr.value("rd")], a, b, number))
        self.advance(self.index)

    def result(self, name: str, d: int, a: int, b: int, number: int) -> int:
        """What an instruction that only sets a register puts into it."""
        if name in NUMBERS:
            return NUMBERS[name](a & WORD_MASK, b & WORD_MASK) & WORD_MASK
        if name == "ldi":
            return number & WORD_MASK
        if name == "ldhi":
            return (d << 32 | number & 0xFFFFFFFF) & WORD_MASK
        if name == "mov":
            return a
        if name == "isptr":
            return int(a & TAG != 0)
        if name == "eqw":
            return int(a == b)
        if name == "self":
            return self.machine.numbers[self.index]
        if name == "addi":
            return (a & WORD_MASK) + number & WORD_MASK
        return self.pointer_result(name, a, b & WORD_MASK, number)

    def pointer_result(self, name: str, a: int, b: int, number: int) -> int:
        if name in ("lea", "leai"):
            pointer = walkable(a)
            return moved(pointer, pointer.address + (signed(b) if name == "lea" else number))
        if name == "leab":
            pointer = walkable(a)
            return moved(pointer, pointer.base + signed(b))
        if name == "restrict":
            return restricted(a, b)
        if name == "subseg":
            return shortened(a, b)
        if name == "setptr":
            self.want_privilege()
            if Pointer.of_bits(a & WORD_MASK) is None:
                raise Fault(MALFORMED)
            return a | TAG
        if name == "lip":
            return self.branch(number)
        raise AssertionError(name)

    def want_privilege(self) -> None:
        if pointer_of(self.own.ip).permission is not Permission.XP:
            raise Fault(PRIV)

    def branch(self, words: int) -> int:
        """The instruction pointer so many words away."""
        ip = pointer_of(self.own.ip)
        return moved(ip, ip.address + 8 * words)

    def go(self, ip: int) -> None:
        self.change(self.index, ip=ip, past=False)

    def go_if(self, holds: bool, words: int) -> None:
        """Goes so many words away if something holds, else to the next instruction."""
        if holds:
            self.go(self.branch(words))
        else:
            self.advance(self.index)

    # Operations that do more than to set a register.

    def do_halt(self, instr: Instruction, a: int, b: int, number: int) -> None:
        self.change(self.index, state=HALTED)

    def do_nop(self, instr: Instruction, a: int, b: int, number: int) -> None:
        self.advance(self.index)

    def do_out(self, instr: Instruction, a: int, b: int, number: int) -> None:
        group = self.machine.of_group[self.index]
        if len(self.outputs[group]) >= self.machine.image.output_limit:
            raise Fault(OUT_FULL)
        self.outputs[group] += bytes([a & 255])
        self.advance(self.index)

    def do_ld(self, instr: Instruction, a: int, b: int, number: int) -> None:
        post = instr.choice("post") if instr.has("post") else "keep"
        word = self.access(a, number, LOAD if post == "keep" else LOAD_SET, instr.choice("pre"))
        content, full = self.cell(word)
        if post != "keep":
            self.set_cell(word, (content, post == "full"))
        register = instr.value("rd")
        if self.machine.split:
            self.set_register(self.index, register, 0)
            own = self.own
            self.change(self.index, empty=own.empty | {register}, pending=own.pending + ((register, content),))
        else:
            self.set_register(self.index, register, content)
        self.advance(self.index)

    def do_st(self, instr: Instruction, a: int, b: int, number: int) -> None:
        word, post = self.access(a, number, STORE, instr.choice("pre")), instr.choice("post")
        self.set_cell(word, (b, self.cell(word)[1] if post == "keep" else post == "full"))
        self.advance(self.index)

    def do_br(self, instr: Instruction, a: int, b: int, number: int) -> None:
        self.go(self.branch(number))

    def do_bz(self, instr: Instruction, a: int, b: int, number: int) -> None:
        self.go_if(a & WORD_MASK == 0, number)

    def do_bnz(self, instr: Instruction, a: int, b: int, number: int) -> None:
        self.go_if(a & WORD_MASK != 0, number)

    def do_jmp(self, instr: Instruction, a: int, b: int, number: int) -> None:
        self.go(entered(a))

    def do_jal(self, instr: Instruction, a: int, b: int, number: int) -> None:
        to = entered(a)
        self.set_register(self.index, instr.value("rd"), self.branch(1))
        self.go(to)

    def do_trap(self, instr: Instruction, a: int, b: int, number: int) -> None:
        raise Fault(TRAP)

    def do_evt(self, instr: Instruction, a: int, b: int, number: int) -> None:
        if not self.queues[self.index]:
            raise Blocked
        event, *rest = self.queues[self.index]
        self.queues[self.index] = tuple(rest)
        self.change(self.machine.numbers.index(event.slot), state=TAKEN)
        words = (event.cause + 256 * event.slot, event.ip, event.address, event.value)
        for k, word in enumerate(words):
            self.set_register(self.index, instr.value("rd") + k, word)
        self.advance(self.index)

    def do_resume(self, instr: Instruction, a: int, b: int, number: int) -> None:
        other, how = self.served(a), instr.choice("how")
        self.change(other, state=HALTED if how == "kill" else RUNNING)
        if how == "skip" and not self.threads[other].past:
            self.advance(other)
        self.advance(self.index)

    def served_register(self, a: int, register: int) -> int:
        other = self.served(a)
        if register in self.threads[other].empty:
            raise Blocked(other)
        return other

    def do_rreg(self, instr: Instruction, a: int, b: int, number: int) -> None:
        other = self.served_register(a, number)
        self.set_register(self.index, instr.value("rd"), self.threads[other].regs[number])
        self.advance(self.index)

    def do_wreg(self, instr: Instruction, a: int, b: int, number: int) -> None:
        self.set_register(self.served_register(a, number), number, b)
        self.advance(self.index)

    def do_map(self, instr: Instruction, a: int, b: int, number: int) -> None:
        self.want_privilege()
        if a & WORD_MASK >= PAGE_LIMIT:
            raise Fault(BOUNDS)
        done = self.set_page(a & WORD_MASK, instr.name == "map")
        self.set_register(self.index, instr.value("rd"), int(done))
        self.advance(self.index)

    do_unmap = do_map
