"""What takes several operations, with branches inside, and the text of a whole function."""

from __future__ import annotations

from typing import Callable, Iterable

from mm.cc.allocation import Allocation
from mm.cc.calling import Calling
from mm.cc.code import LINK, SCRATCH, SECOND, STACK, Code, Op
from mm.cc.text import TextBlock, tidy
from mm.cc.variables import Naming


# The number of the trap of code that is checked.
CHECKED = 7
# From here on the upper ten bits of a pointer, its permission and its length, are those of one that cannot be moved.
UNMOVED = 5 << 6


class Sequences(Calling):
    """Writes branches, and what the machine has no single operation for."""

    def _br(self, op: Op) -> None:
        self.put("br", target=str(op.extra))

    def _bz(self, op: Op) -> None:
        assert op.a is not None
        self.put(op.name, f"r{self.get(op.a, SCRATCH)}", target=str(op.extra))

    _bnz = _bz

    def _jmp(self, op: Op) -> None:
        assert op.a is not None
        self.reg("jmp", self.get(op.a, SCRATCH))

    def _table(self, op: Op) -> None:
        """Jumps into a row of branches."""
        assert op.a is not None
        label = self.here()
        a = self.get(op.a, SECOND)
        self.put("lip", f"r{SCRATCH}", target=label)
        self.reg("lea", SCRATCH, SCRATCH, a)
        self.reg("jmp", SCRATCH)
        self.mark(label)
        for target in op.extra:  # type: ignore[attr-defined]
            self.put("br:row", target=target)

    def _check(self, op: Op) -> None:
        """Stops where two registers differ."""
        assert op.a is not None and op.b is not None
        a, b = self.get(op.a, SCRATCH), self.get(op.b, SECOND)
        label = self.here()
        self.reg("eq", SCRATCH, a, b)
        self.put("bnz", f"r{SCRATCH}", target=label)
        self.put("trap", CHECKED)
        self.mark(label)

    def _select(self, op: Op) -> None:
        assert op.a is not None and op.b is not None
        yes = op.extra[0]  # type: ignore[index]
        condition = self.get(op.a, SCRATCH)
        d = self.target(op.d, SECOND)
        self.bring(d, self.source(yes))
        label = self.here()
        self.put("bnz", f"r{condition}", target=label)
        self.bring(d, self.source(op.b))
        self.mark(label)
        self.keep(op.d, d)

    def _guarded(self, op: Op) -> None:
        """A pointer moved, if it stays in its segment; else its bits moved. Another program can hand over an enter pointer or
        a key, which nobody can move."""
        assert op.a is not None and op.b is not None
        first, second = (self.temporary(register) for register in op.temporary)
        base, by = self.get(op.a, SCRATCH), self.get(op.b, SECOND)
        d = self.target(op.d, LINK)
        label = self.here()
        self.reg("add", d, base, by)
        self.reg("isptr", first, base)
        self.put("bz", f"r{first}", target=label)
        shift = self.get(op.extra[0], first)  # type: ignore[index]
        self.reg("shr", first, base, shift)
        if not self.alone:
            self.put("ldi", f"r{second}", UNMOVED)
            self.reg("ltu", second, first, second)
            self.put("bz", f"r{second}", target=label)
        self.reg("xor", second, d, base)
        self.reg("shr", second, second, first)
        self.put("bnz", f"r{second}", target=label)
        self.reg("lea", d, base, by)
        self.mark(label)
        self.keep(op.d, d)

    def temporary(self, register: int) -> int:
        home = self.allocation.of(register)
        assert home is not None, "a temporary register is always there"
        return home

    @staticmethod
    def pair_of(op: Op) -> tuple[int, int]:
        """The registers that hold 4 and 32."""
        assert isinstance(op.extra, tuple)
        four, half = op.extra
        return four, half

    def _load_four(self, op: Op, form: str) -> None:
        assert op.a is not None
        four, half = self.pair_of(op)
        base = self.get(op.a, SCRATCH)
        d = self.target(op.d, SECOND)
        odd, end = self.here(), self.here()
        self.reg("and", d, base, self.get(four, LINK))
        self.put("bnz", f"r{d}", target=odd)
        self.load(d, base, 0)
        if form != "R":
            self.reg("shl", d, d, self.get(half, LINK))
        self.put("br", target=end)
        self.mark(odd)
        self.load(d, base, -4)
        if form == "R":
            self.reg("shr", d, d, self.get(half, LINK))
        self.mark(end)
        if form != "R":
            self.reg("sar" if form == "S" else "shr", d, d, self.get(half, LINK))
        self.keep(op.d, d)

    def _load_four_S(self, op: Op) -> None:
        self._load_four(op, "S")

    def _load_four_Z(self, op: Op) -> None:
        self._load_four(op, "Z")

    def _load_four_R(self, op: Op) -> None:
        self._load_four(op, "R")

    def _store_four(self, op: Op) -> None:
        assert op.a is not None and op.b is not None
        four, half = self.pair_of(op)
        word, change = (self.temporary(register) for register in op.temporary)
        base, value = self.get(op.a, SCRATCH), self.get(op.b, SECOND)
        odd, end = self.here(), self.here()
        self.reg("and", word, base, self.get(four, LINK))
        self.put("bnz", f"r{word}", target=odd)
        self.load(word, base, 0)
        self.reg("xor", change, word, value)
        shift = self.get(half, LINK)
        self.reg("shl", change, change, shift)
        self.reg("shr", change, change, shift)
        self.reg("xor", word, word, change)
        self.store(base, word, 0)
        self.put("br", target=end)
        self.mark(odd)
        self.load(word, base, -4)
        shift = self.get(half, LINK)
        self.reg("shl", word, word, shift)
        self.reg("shr", word, word, shift)
        self.reg("shl", change, value, shift)
        self.reg("or", word, word, change)
        self.store(base, word, -4)
        self.mark(end)

    def _dynamic(self, op: Op) -> None:
        """An object on the stack whose size is known at the run alone: it stands at the end of its segment."""
        assert op.a is not None and op.b is not None
        size, back = (self.temporary(register) for register in op.temporary)
        log, total = self.get(op.a, SCRATCH), self.get(op.b, SECOND)
        d = self.target(op.d, LINK)
        self.put("ldi", f"r{size}", 1)
        self.reg("shl", size, size, log)
        self.put("addi", f"r{back}", f"r{size}", -1)
        self.reg("and", back, back, STACK)
        self.reg("add", back, back, size)
        self.put("ldi", f"r{d}", 0)
        self.reg("sub", back, d, back)
        self.reg("lea", d, STACK, back)
        self.put("leai", f"r{STACK}", f"r{d}", -self.frame.outgoing)
        self.reg("subseg", d, d, log)
        self.reg("sub", size, size, total)
        self.put("ldi", f"r{back}", -8)
        self.reg("and", size, size, back)
        self.reg("lea", d, d, size)
        self.keep(op.d, d)

    def _stack_pointer(self, op: Op) -> None:
        d = self.target(op.d, SCRATCH)
        self.reg("mov", d, STACK)
        self.keep(op.d, d)

    def _set_stack_pointer(self, op: Op) -> None:
        assert op.a is not None
        if not self.wipes:
            self.bring(STACK, self.source(op.a))
            return
        end = self.here()
        self.bring(SECOND, self.source(op.a))
        self.reg("eq", SCRATCH, STACK, SECOND)
        self.put("bnz", f"r{SCRATCH}", target=end)
        self.wipe_up_to(SECOND)
        self.mark(end)


def emit(code: Code, fresh: Callable[[], str], naming: Naming, addressed: Iterable[str] = (),
         wipes: bool = False, alone: bool = True) -> list[TextBlock]:
    """The text of a function. The way back is saved where its register is needed for something else. `addressed` are
    labels that data name, `wipes` says whether the frame is cleared at the end, and `alone` whether all pointers are the
    program's own."""
    allocation = Allocation(code)
    link = bool(code.objects) or any(op.name == "call" for block in code.blocks for op in block.body)
    made = Sequences(code, allocation, link, fresh, naming, wipes, alone)
    blocks = made.text()
    if made.used_link and not link:
        blocks = Sequences(code, allocation, True, fresh, naming, wipes, alone).text()
    return tidy(blocks, addressed)
