"""The operations of the machine that C can name, and assembler text, which hides a value from the optimiser and is
else left out."""

from __future__ import annotations

from typing import Optional

from mm.cc.calls import Calls
from mm.cc.forms import RAW, SIGNED
from mm.cc.ir import Instruction, IntType, Number, PointerType, Value, VoidType, Zero
from mm.cc.pointers import Pointer
from mm.cc.untranslated import INSIDE, Untranslated


class Operations(Calls):
    """Single operations."""

    def assembler(self, made: Instruction) -> None:
        text, constraints, _ = made.callee
        if text.strip():
            raise Untranslated(INSIDE)
        parts = [part for part in constraints.split(",") if not part.startswith("~")]
        outputs = [part for part in parts if part.startswith("=")]
        direct = [part for part in outputs if "*" not in part]
        inputs = parts[len(outputs):]
        taken = [argument for argument in made.arguments]
        if isinstance(made.type, VoidType) or made.name is None:
            return
        values = taken[len(outputs) - len(direct):]
        found: list[Optional[Value]] = [None] * len(direct)
        for part, argument in zip(inputs, values):
            if part.isdigit() and int(part) < len(outputs) and "*" not in outputs[int(part)]:
                found[[at for at in range(len(outputs)) if "*" not in outputs[at]].index(int(part))] = argument.value
        if len(direct) == 1:
            value = found[0] or Zero(made.type)
            if isinstance(made.type, PointerType):
                self.pointers[made.name] = self.pointer(value)
            elif isinstance(made.type, IntType):
                self.define(made.name, made.type, self.number(value, RAW))
            else:
                raise Untranslated(self.left_out(made.type))
            return
        kinds = [part for _, part in self.parts(made.type)]
        self.groups[made.name] = [value or Zero(kind) for value, kind in zip(found, kinds)]

    def word(self, value: Value) -> int:
        """An operand of an operation, as one word."""
        if isinstance(value.type, PointerType):
            return self.whole(self.pointer(value))
        return self.number(value, SIGNED)

    def machine_operation(self, made: Instruction, op: str) -> None:
        arguments = [argument.value for argument in made.arguments]
        register = self.operation(op, arguments)
        if register is None or made.name is None:
            return
        if isinstance(made.type, PointerType):
            self.pointers[made.name] = Pointer(register)
        else:
            self.define(made.name, made.type, register)

    def operation(self, op: str, arguments: list[Value]) -> Optional[int]:
        """The register of an operation's result; none if it has none."""
        if op in ("subseg", "restrict", "leab", "lea", "eqw"):
            return self.op(op, self.word(arguments[0]), self.word(arguments[1]))
        if op in ("isptr", "mov"):
            return self.op(op, self.word(arguments[0]))
        if op == "number":
            # Arithmetic leaves the bits, and no tag.
            return self.op("addi", self.word(arguments[0]))
        if op == "self":
            return self.op("self")
        if op.startswith("ld_"):
            return self.op("ld", self.word(arguments[0]), extra=op[3:].replace("_", ", "))
        if op == "rreg":
            return self.op("rreg", self.word(arguments[0]), number=self.plain(arguments[1]))
        self.effect(op, arguments)
        return None

    @staticmethod
    def plain(value: Value) -> int:
        """A number that is part of the operation itself."""
        if not isinstance(value, (Number, Zero)):
            raise Untranslated("an operation of the machine with a number that is not constant")
        return value.number if isinstance(value, Number) else 0

    def effect(self, op: str, arguments: list[Value]) -> None:
        """An operation without a result."""
        if op.startswith("st_"):
            self.emit("st", None, self.word(arguments[0]), self.word(arguments[1]), extra=op[3:].replace("_", ", "))
        elif op == "out":
            self.emit("out", None, self.word(arguments[0]))
        elif op == "halt":
            self.emit("halt", extra=(self.word(arguments[0]),))
        elif op == "trap":
            self.emit("trap", number=self.plain(arguments[0]))
        elif op == "wreg":
            self.emit("wreg", None, self.word(arguments[0]), self.word(arguments[2]), number=self.plain(arguments[1]))
        elif op == "resume":
            way = ("retry", "skip", "kill")[self.plain(arguments[1])]
            self.emit("resume", None, self.word(arguments[0]), extra=way)
        else:
            raise Untranslated(f"the operation __mm_op_{op}")
