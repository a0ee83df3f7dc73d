"""The code of a function with the machine's registers: where values are, and plain operations."""

from __future__ import annotations

from typing import Callable, Optional, Union

from mm.cc.allocation import Allocation
from mm.cc.code import FRAME, LINK, SCRATCH, SECOND, STACK, Code, Fixed, LocalObject, Op
from mm.cc.frame import Frame
from mm.cc.text import Line, TextBlock
from mm.cc.variables import Naming, Places

THREE = {"add", "sub", "mul", "divu", "remu", "and", "or", "xor", "shl", "shr", "sar", "eq", "ltu", "lts", "eqw", "lea",
         "leab", "restrict", "subseg"}
PLAIN_ACCESS = "any, keep"
# Where a value comes from that is moved: a register, a slot of the frame, or a fixed value.
Source = Union[int, tuple[str, int], Fixed]


class Emission:
    """Writes the text of a function."""

    def __init__(self, code: Code, allocation: Allocation, link: bool, fresh: Callable[[], str],
                 naming: Naming, wipes: bool = False, alone: bool = True) -> None:
        self.code, self.allocation, self.link, self.here, self.naming = code, allocation, link, fresh, naming
        # Whether a function leaves nothing in its frame, and whether no other program hands pointers to it.
        self.wipes, self.alone = wipes, alone
        self.frame = Frame(code, allocation, link)
        self.base = FRAME if code.dynamic else STACK
        self.blocks: list[TextBlock] = []
        self.origin: Optional[str] = None
        self.variables: tuple[str, ...] = ()
        self.used_link = False

    def text(self) -> list[TextBlock]:
        places, place = Places(self.code, self.allocation, self.frame, self.naming), 0
        for block in self.code.blocks:
            self.blocks.append(TextBlock(block.label))
            places.begin(block, place)
            for number, op in enumerate(block.body):
                self.origin, self.variables = op.line, places.at(number, place)
                self.operation(op)
                place += 2
        self.blocks[0].notes = self.notes()
        return self.blocks

    def notes(self) -> list[str]:
        """Where the way back, the caller's frame and the named objects stand in the frame, from the stack pointer
        on."""
        frame = self.frame
        link = str(frame.saved[LINK]) if LINK in frame.saved else "-"
        old = f"at {frame.old}" if frame.aligned else f"by {frame.size}"
        found = [f"frame back {link} caller {old}"]
        for made in self.code.objects:
            named, frame_of = self.naming.variable(made.variable) if made.variable else (made.name, "")
            name, _, type_ = named.partition(" ")
            said = f" type {type_}{frame_of}" if type_ else ""
            found.append(f"local {name} {made.size} at {made.at + made.place} log {made.log}{said}")
        return found

    # Lines

    def put(self, op: str, *operands: object, target: Optional[str] = None) -> None:
        self.blocks[-1].lines.append(Line(op, ", ".join(map(str, operands)), target, self.origin, self.variables))

    def reg(self, op: str, *registers: int) -> None:
        self.put(op, *[f"r{register}" for register in registers])

    def mark(self, label: str) -> None:
        self.blocks.append(TextBlock(label))

    def load(self, register: int, base: int, at: int) -> None:
        self.put("ld", f"r{register}", f"r{base}", at, PLAIN_ACCESS)

    def store(self, base: int, register: int, at: int) -> None:
        self.put("st", f"r{base}", f"r{register}", at, PLAIN_ACCESS)

    # Values

    def slot(self, register: int) -> int:
        return self.frame.slots + 8 * self.allocation.slot_of(register)

    def source(self, register: int) -> Source:
        home = self.allocation.of(register)
        if home is not None:
            return home
        if self.allocation.has_slot(register):
            return ("slot", self.slot(register))
        fixed = self.code.fixed.get(register)
        if fixed is not None:
            return fixed
        # A value that is never made: whatever stands there will do.
        return Fixed("int", 0)

    def get(self, register: int, scratch: int) -> int:
        """A register that holds a value, which may be brought into a scratch register."""
        source = self.source(register)
        if isinstance(source, int):
            return source
        if scratch == LINK:
            self.used_link = True
        self.bring(scratch, source)
        return scratch

    def bring(self, register: int, source: Source) -> None:
        if isinstance(source, int):
            if source != register:
                self.reg("mov", register, source)
        elif isinstance(source, tuple):
            self.load(register, self.base, source[1])
        else:
            self.make(register, source)

    def make(self, register: int, fixed: Fixed) -> None:
        """Makes a fixed value."""
        if fixed.kind == "int":
            if -(1 << 31) <= fixed.number < 1 << 31:
                self.put("ldi", f"r{register}", fixed.number)
            else:
                self.put("ldi", f"r{register}", fixed.number >> 32)
                self.put("ldhi", f"r{register}", fixed.number & 0xFFFFFFFF)
        elif fixed.kind == "global":
            self.put("lip", f"r{register}", target="@" + fixed.name)
            self.load(register, register, 0)
        elif fixed.kind == "text":
            self.put("lip", f"r{register}", target=fixed.name)
        else:
            made = self.code.objects[fixed.number]
            scratch = LINK if register != LINK else SCRATCH
            self.used_link = True
            self.put("leai", f"r{register}", f"r{self.base}", made.at + made.place)
            self.put("ldi", f"r{scratch}", made.log)
            self.reg("subseg", register, register, scratch)

    def target(self, register: Optional[int], scratch: int) -> int:
        """The register in which a result is made."""
        if register is None:
            return scratch
        home = self.allocation.of(register)
        if home is None and scratch == LINK:
            self.used_link = True
        return scratch if home is None else home

    def keep(self, register: Optional[int], made: int) -> None:
        """Puts a result into its slot, if it lives there."""
        if register is not None and self.allocation.of(register) is None and self.allocation.has_slot(register):
            self.store(self.base, made, self.slot(register))

    def moves(self, pairs: list[tuple[int, Source]]) -> None:
        """Moves at one moment into registers; slots and fixed values come last."""
        between = [(to, source) for to, source in pairs if isinstance(source, int) and source != to]
        while between:
            free = next((pair for pair in between if all(pair[0] != source for _, source in between)), None)
            if free is None:
                to, source = between[0]
                assert isinstance(source, int)
                self.reg("mov", SCRATCH, source)
                between = [(one, SCRATCH if other == source else other) for one, other in between]
                continue
            assert isinstance(free[1], int)
            self.reg("mov", free[0], free[1])
            between.remove(free)
        for to, fixed in pairs:
            if not isinstance(fixed, int):
                self.bring(to, fixed)

    # Operations

    def operation(self, op: Op) -> None:
        name = op.name
        if name in THREE:
            assert op.a is not None and op.b is not None
            a = self.get(op.a, SCRATCH)
            b = self.get(op.b, SECOND)
            d = self.target(op.d, SCRATCH)
            self.reg(name, d, a, b)
            self.keep(op.d, d)
        else:
            getattr(self, "_" + name.split(":")[0])(op)

    def _mov(self, op: Op) -> None:
        assert op.d is not None and op.a is not None
        home = self.allocation.of(op.d)
        if home is not None:
            self.bring(home, self.source(op.a))
        elif self.allocation.has_slot(op.d):
            source = self.source(op.a)
            if source != ("slot", self.slot(op.d)):
                self.store(self.base, self.get(op.a, SCRATCH), self.slot(op.d))

    def _two(self, op: Op) -> None:
        assert op.a is not None
        a = self.get(op.a, SCRATCH)
        d = self.target(op.d, SCRATCH)
        if op.name in ("addi", "leai"):
            self.put(op.name, f"r{d}", f"r{a}", op.number)
        else:
            self.reg(op.name, d, a)
        self.keep(op.d, d)

    _addi = _leai = _isptr = _two

    def _self(self, op: Op) -> None:
        d = self.target(op.d, SCRATCH)
        self.reg("self", d)
        self.keep(op.d, d)

    def _ld(self, op: Op) -> None:
        assert op.a is not None
        a = self.get(op.a, SCRATCH)
        d = self.target(op.d, SCRATCH)
        self.put("ld", f"r{d}", f"r{a}", op.number, op.extra or PLAIN_ACCESS)
        self.keep(op.d, d)

    def _st(self, op: Op) -> None:
        assert op.a is not None and op.b is not None
        a = self.get(op.a, SCRATCH)
        b = self.get(op.b, SECOND)
        self.put("st", f"r{a}", f"r{b}", op.number, op.extra or PLAIN_ACCESS)

    def _load_local(self, op: Op) -> None:
        assert isinstance(op.extra, LocalObject)
        d = self.target(op.d, SCRATCH)
        self.load(d, self.base, op.extra.at + op.number)
        self.keep(op.d, d)

    def _store_local(self, op: Op) -> None:
        assert isinstance(op.extra, LocalObject) and op.a is not None
        self.store(self.base, self.get(op.a, SCRATCH), op.extra.at + op.number)

    def _out(self, op: Op) -> None:
        assert op.a is not None
        self.reg("out", self.get(op.a, SCRATCH))

    def _halt(self, op: Op) -> None:
        self.moves([(0, self.source(op.uses()[0]))])
        self.put("halt")

    def _trap(self, op: Op) -> None:
        self.put("trap", op.number)

    def _rreg(self, op: Op) -> None:
        assert op.a is not None
        a = self.get(op.a, SCRATCH)
        d = self.target(op.d, SCRATCH)
        self.put("rreg", f"r{d}", f"r{a}", op.number)
        self.keep(op.d, d)

    def _wreg(self, op: Op) -> None:
        assert op.a is not None and op.b is not None
        a, b = self.get(op.a, SCRATCH), self.get(op.b, SECOND)
        self.put("wreg", f"r{a}", f"r{b}", op.number)

    def _resume(self, op: Op) -> None:
        assert op.a is not None
        self.put("resume", f"r{self.get(op.a, SCRATCH)}", op.extra)
