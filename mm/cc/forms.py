"""In which form each narrow integer is wanted: with its sign extended, with zeros, or with whatever stands above."""

from __future__ import annotations

from typing import Optional

from mm.cc.ir import Expression, Function, Instruction, IntType, Local, Number, Type, Value

SIGNED, ZEROED, RAW = "S", "Z", "R"
Promoted = dict[str, Type]


def bits_of(type_: Type) -> int:
    return type_.bits if isinstance(type_, IntType) else 64


class Forms:
    """The forms that the uses of each value want, found before code is made. What is missed is made where it is
    used."""

    def __init__(self, function: Function, promoted: Promoted) -> None:
        self.promoted = promoted
        self.made: dict[str, Instruction] = {}
        self.stored: dict[str, list[Value]] = {name: [] for name in promoted}
        self.wanted: dict[str, set[str]] = {}
        self.work: list[tuple[str, str]] = []
        for block in function.blocks:
            for instruction in block.body:
                if instruction.name is not None:
                    self.made[instruction.name] = instruction
                if instruction.op == "store":
                    target = instruction.operands[1]
                    if isinstance(target, Local) and target.name in promoted:
                        self.stored[target.name].append(instruction.operands[0])
        for block in function.blocks:
            for instruction in block.body:
                self._uses(instruction)
        while self.work:
            self._spread(*self.work.pop())

    def of(self, name: str) -> list[str]:
        """The forms, always in one order, so that the same text is made at each run."""
        wanted = self.wanted.get(name, set())
        return [form for form in (SIGNED, ZEROED) if form in wanted]

    def carried(self, name: str) -> str:
        """The form in which a value that comes from several places is carried."""
        wanted = self.of(name)
        return SIGNED if SIGNED in wanted else ZEROED if ZEROED in wanted else RAW

    def want(self, value: Value, form: str) -> None:
        if isinstance(value, Local) and isinstance(value.type, IntType) and value.type.bits < 64:
            self._want(value.name, form)

    def _want(self, name: str, form: str) -> None:
        wanted = self.wanted.setdefault(name, set())
        if form not in wanted and form != RAW:
            wanted.add(form)
            self.work.append((name, form))

    def natural(self, value: Value) -> str:
        """Z for what has zeros above by itself, B for what is both, else S."""
        if isinstance(value, Number):
            return "B"
        if not isinstance(value, Local) or value.name not in self.made:
            return "S"
        made = self.made[value.name]
        if made.op in ("zext", "icmp"):
            return "B"
        if made.op == "load" and bits_of(made.type) < 32:
            return "Z"
        if made.op in ("lshr", "udiv", "urem"):
            return "Z"
        if made.op == "and" and isinstance(made.operands[1], Number) and made.operands[1].number >= 0:
            return "B"
        return "S"

    def compared(self, instruction: Instruction) -> str:
        """The form in which a comparison takes its operands. Extended by their signs, unsigned numbers keep their
        order."""
        if instruction.condition[0] == "s":
            return SIGNED
        both = {self.natural(operand) for operand in instruction.operands}
        return ZEROED if "S" not in both and "Z" in both else SIGNED

    def _uses(self, made: Instruction) -> None:
        op = made.op
        if op == "icmp":
            form = self.compared(made)
            for operand in made.operands:
                self.want(operand, ZEROED if bits_of(operand.type) == 1 and made.condition in ("eq", "ne") else form)
        elif op in ("zext", "lshr", "udiv", "urem"):
            for operand in made.operands[: 1 if op in ("zext", "lshr") else 2]:
                self.want(operand, ZEROED)
        elif op in ("sext", "ashr", "sdiv", "srem", "switch"):
            for operand in made.operands[: 2 if op in ("sdiv", "srem") else 1]:
                self.want(operand, SIGNED)
        elif op == "getelementptr":
            for operand in made.operands[1:]:
                self.want(operand, SIGNED)
        elif op == "ret" and made.operands:
            self.want(made.operands[0], SIGNED)
        elif op == "call":
            for argument in made.arguments:
                self.want(argument.value, ZEROED if "zeroext" in argument.words else SIGNED)
        elif op in ("br", "select") and made.operands:
            self.want(made.operands[0], ZEROED)
        elif op in ("inttoptr",):
            self.want(made.operands[0], ZEROED)

    def _spread(self, name: str, form: str) -> None:
        """What a wanted form wants in turn."""
        if name in self.promoted:
            carried = self.carried(name)
            for value in self.stored[name]:
                self.want(value, carried)
            return
        made = self.made.get(name)
        if made is None:
            return
        if made.op == "phi":
            carried = self.carried(name)
            for value in made.operands:
                self.want(value, carried)
        elif made.op == "select":
            carried = self.carried(name)
            for value in made.operands[1:]:
                self.want(value, carried)
        elif made.op == "load":
            place = made.operands[0]
            if isinstance(place, Local) and place.name in self.promoted:
                self._want(place.name, form)
        else:
            taken = self.taken(made)
            if taken:
                for value in made.operands[: 1 if made.op == "shl" else 2]:
                    self.want(value, taken)

    def taken(self, made: Instruction) -> Optional[str]:
        """The form in which an operation takes its operands so that its result has the form that is wanted; none
        where any form does."""
        wanted = self.wanted.get(made.name or "", set())
        if made.op in ("add", "sub", "mul", "shl"):
            if SIGNED in wanted and "nsw" in made.words:
                return SIGNED
            if ZEROED in wanted and "nuw" in made.words:
                return ZEROED
        if made.op in ("and", "or", "xor"):
            if made.op == "and" and self.masks(made):
                return None
            if SIGNED in wanted:
                return SIGNED
            if ZEROED in wanted:
                return ZEROED
        return None

    @staticmethod
    def masks(made: Instruction) -> bool:
        """Whether an `and` leaves no bit from the sign on."""
        mask = made.operands[1]
        return isinstance(mask, Number) and 0 <= mask.number < 1 << (bits_of(made.type) - 1)


def has_expression(value: Value) -> bool:
    return isinstance(value, Expression)
