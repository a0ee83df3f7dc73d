"""How a function begins, calls others, and ends."""

from __future__ import annotations

from mm.cc.code import ARGUMENTS, FRAME, LINK, SCRATCH, SECOND, STACK, VARIADIC, Call, Op
from mm.cc.emission import Emission, Source
from mm.cc.modulenames import DOOR


# So many words of a frame are cleared one by one; more of them in a loop.
MOST_WORDS_WIPED = 16


class Calling(Emission):
    """Entries, calls and returns."""

    def _entry(self, op: Op) -> None:
        self.prologue()
        call = op.extra
        assert isinstance(call, Call)
        came = [(register, number) for number, register in enumerate(call.results[:ARGUMENTS])]
        if op.d is not None:
            came.append((op.d, VARIADIC))
        pairs: list[tuple[int, Source]] = []
        for register, number in came:
            home = self.allocation.of(register)
            if home is not None:
                pairs.append((home, number))
            elif self.allocation.has_slot(register):
                self.store(self.base, number, self.slot(register))
        self.moves(pairs)
        self.stacked_parameters(call.results[ARGUMENTS:])
        for register, fixed in self.code.fixed.items():
            home = self.allocation.of(register)
            if home is not None:
                self.make(home, fixed)
            elif self.allocation.has_slot(register):
                self.make(SCRATCH, fixed)
                self.store(self.base, SCRATCH, self.slot(register))

    def stacked_parameters(self, registers: list[int]) -> None:
        if not registers:
            return
        base, first = self.base, self.frame.size
        if self.frame.aligned:
            self.load(SECOND, self.base, self.frame.old)
            base, first = SECOND, 0
        for number, register in enumerate(registers):
            if self.allocation.of(register) is None and not self.allocation.has_slot(register):
                continue
            d = self.target(register, SCRATCH)
            self.load(d, base, first + 8 * number)
            self.keep(register, d)

    def prologue(self) -> None:
        frame = self.frame
        if frame.aligned:
            self.put("ldi", f"r{SECOND}", frame.align - 1)
            self.reg("and", SECOND, STACK, SECOND)
            self.put("ldi", f"r{SCRATCH}", -frame.size)
            self.reg("sub", SECOND, SCRATCH, SECOND)
            self.reg("lea", SCRATCH, STACK, SECOND)
            self.store(SCRATCH, STACK, frame.old)
            self.reg("mov", STACK, SCRATCH)
        elif frame.size:
            self.put("leai", f"r{STACK}", f"r{STACK}", -frame.size)
        for register, at in frame.saved.items():
            self.store(STACK, register, at)
        if self.code.dynamic:
            self.reg("mov", FRAME, STACK)

    def _ret(self, op: Op) -> None:
        frame = self.frame
        self.moves([(number, self.source(register)) for number, register in enumerate(op.uses())])
        if self.wipes and frame.size:
            if self.code.name.startswith(DOOR):
                # What is cleared before the caller's registers come back makes no more cases of these (docs/KEEPS.md).
                for register in range(len(op.uses()), VARIADIC + 1):
                    self.put("ldi", f"r{register}", 0)
            self.leave_nothing()
            self.reg("jmp", LINK)
            return
        if self.code.dynamic:
            self.reg("mov", STACK, FRAME)
        for register, at in frame.saved.items():
            self.load(register, STACK, at)
        if frame.aligned:
            self.load(STACK, STACK, frame.old)
        elif frame.size:
            self.put("leai", f"r{STACK}", f"r{STACK}", frame.size)
        self.reg("jmp", LINK)

    def leave_nothing(self) -> None:
        """Takes back what was saved, clears all of the frame from the stack pointer on, and gives it up."""
        frame, base = self.frame, STACK
        if self.code.dynamic:
            base = SECOND
            self.reg("mov", SECOND, FRAME)
        for register, at in frame.saved.items():
            self.load(register, base, at)
        if frame.aligned:
            self.load(VARIADIC, base, frame.old)
        self.put("ldi", f"r{SCRATCH}", 0)
        if self.code.dynamic or frame.size > 8 * MOST_WORDS_WIPED:
            self.put("leai", f"r{SECOND}", f"r{base}", frame.size)
            self.wipe_up_to(SECOND)
        else:
            for at in range(0, frame.size, 8):
                self.store(STACK, SCRATCH, at)
            if not frame.aligned:
                self.put("leai", f"r{STACK}", f"r{STACK}", frame.size)
        if frame.aligned:
            self.reg("mov", STACK, VARIADIC)

    def wipe_up_to(self, end: int) -> None:
        """Clears words, at least one, until the stack pointer is where a register points. The scratch register is 0, and
        is it again as long as this goes on."""
        label = self.here()
        self.mark(label)
        self.store(STACK, SCRATCH, 0)
        self.put("leai", f"r{STACK}", f"r{STACK}", 8)
        self.reg("eq", SCRATCH, STACK, end)
        self.put("bz", f"r{SCRATCH}", target=label)

    def _call(self, op: Op) -> None:
        call = op.extra
        assert isinstance(call, Call)
        self.used_link = True
        for number, register in enumerate(call.stacked + call.words):
            self.store(STACK, self.get(register, SCRATCH), 8 * number)
        if op.a is not None:
            self.bring(SECOND, self.source(op.a))
        self.moves([(number, self.source(register)) for number, register in enumerate(call.arguments)])
        if call.variadic:
            self.put("leai", f"r{VARIADIC}", f"r{STACK}", 8 * len(call.stacked))
        if op.a is not None and not call.label:
            self.reg("jal", LINK, SECOND)
        else:
            self.put("lip", f"r{LINK}", 2)
            self.put("br:call", target=call.label)
        pairs: list[tuple[int, Source]] = []
        for number, register in enumerate(call.results):
            home = self.allocation.of(register)
            if home is not None:
                pairs.append((home, number))
            elif self.allocation.has_slot(register):
                self.store(self.base, number, self.slot(register))
        self.moves(pairs)
