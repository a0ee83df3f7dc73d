"""Numbers: sums, products, shifts, comparisons, and what changes their width."""

from __future__ import annotations

from typing import Optional

from mm.cc.accesses import Accesses
from mm.cc.forms import RAW, SIGNED, ZEROED, Forms, bits_of
from mm.cc.ir import FloatType, Instruction, IntType, Local, Number, PointerType, Type, Value, VectorType, Zero
from mm.cc.lowering import signed
from mm.cc.pointers import Pointer
from mm.cc.untranslated import Untranslated

PLAIN = {"add": "add", "sub": "sub", "mul": "mul", "and": "and", "or": "or", "xor": "xor"}
UNSIGNED = {"udiv": "divu", "urem": "remu"}
# What takes a number of which a pointer may be made again.
KEEPS_TAG = {"store", "call", "ret", "phi", "select", "inttoptr", "insertvalue", "freeze", "atomicrmw", "cmpxchg"}
# Conditions as a comparison, whether its operands change places, and whether its result is turned round.
CONDITIONS = {
    "ult": ("ltu", False, False), "ugt": ("ltu", True, False), "uge": ("ltu", False, True), "ule": ("ltu", True, True),
    "slt": ("lts", False, False), "sgt": ("lts", True, False), "sge": ("lts", False, True), "sle": ("lts", True, True),
    "eq": ("eq", False, False), "ne": ("eq", False, True),
}


class Arithmetic(Accesses):
    """Operations on numbers of up to 64 bits, which stand in 64."""

    def binary(self, made: Instruction) -> None:
        op, bits, (left, right) = made.op, bits_of(made.type), made.operands
        if op in PLAIN:
            form = self.forms.taken(made) or RAW
            known = form if form != RAW else ""
            if op == "and" and Forms.masks(made):
                form, known = RAW, "SZ"
            a = self.number(left, form)
            if op in ("add", "sub") and isinstance(right, Number):
                # LLVM's text has each constant with its sign; with zeros above it is another number.
                number = right.number & (1 << bits) - 1 if form == ZEROED else signed(right.number, bits)
                number = -number if op == "sub" else number
                if -(1 << 31) <= number < 1 << 31:
                    self.define(made.name, made.type, self.op("addi", a, number=number), known)
                    return
            self.define(made.name, made.type, self.op(PLAIN[op], a, self.number(right, form)), known)
        elif op in UNSIGNED:
            register = self.op(UNSIGNED[op], self.number(left, ZEROED), self.number(right, ZEROED))
            self.define(made.name, made.type, register, ZEROED)
        elif op in ("sdiv", "srem"):
            self.define(made.name, made.type, self.signed_division(made), SIGNED if bits < 64 else "")
        elif op in ("shl", "lshr", "ashr"):
            self.shift(made)
        else:
            raise Untranslated(f"the operation {op}")

    def shift(self, made: Instruction) -> None:
        left, right = made.operands
        by = self.number(right, ZEROED if bits_of(right.type) < 6 else RAW)
        if made.op == "shl":
            form = self.forms.taken(made) or RAW
            self.define(made.name, made.type, self.op("shl", self.number(left, form), by), form if form != RAW else "")
        elif made.op == "lshr":
            known = "SZ" if isinstance(right, Number) and right.number else ZEROED
            self.define(made.name, made.type, self.op("shr", self.number(left, ZEROED), by), known)
        else:
            self.define(made.name, made.type, self.op("sar", self.number(left, SIGNED), by), SIGNED)

    def signed_division(self, made: Instruction) -> int:
        """The machine divides unsigned numbers: signs are taken off and put on again."""
        left, right = made.operands
        a = self.number(left, SIGNED)
        top = self.constant(63)
        sign = self.op("sar", a, top)
        size = self.op("sub", self.op("xor", a, sign), sign)
        if isinstance(right, Number):
            number = abs(right.number)
            by, other = self.constant(number), None
            negative = right.number < 0
        else:
            b = self.number(right, SIGNED)
            other = self.op("sar", b, top)
            by = self.op("sub", self.op("xor", b, other), other)
            negative = False
        if made.op == "srem":
            rest = self.op("remu", size, by)
            return self.op("sub", self.op("xor", rest, sign), sign)
        found = self.op("divu", size, by)
        if other is not None:
            sign = self.op("xor", sign, other)
        found = self.op("sub", self.op("xor", found, sign), sign)
        return self.op("sub", self.constant(0), found) if negative else found

    # Widths

    def width(self, made: Instruction) -> None:
        operand = made.operands[0]
        if made.op == "zext":
            self.define(made.name, made.type, self.number(operand, ZEROED), "SZ")
        elif made.op == "sext":
            self.define(made.name, made.type, self.number(operand, SIGNED), SIGNED)
        else:
            self.define(made.name, made.type, self.number(operand, RAW))

    def freeze(self, made: Instruction) -> None:
        assert made.name is not None
        operand = made.operands[0]
        if isinstance(made.type, PointerType):
            self.pointers[made.name] = self.pointer(operand)
        elif isinstance(made.type, IntType) and made.type.bits <= 64:
            # A sum that overflows though LLVM said that it does not has another number in each form: from here on it is one.
            self.define(made.name, made.type, self.number(operand, RAW))
        else:
            self.groups[made.name] = self.group(operand)

    def pointer_to_number(self, made: Instruction) -> None:
        """Keeps the tag where the number goes where a pointer may be wanted of it."""
        pointer = self.pointer(made.operands[0])
        users = self.users.get(made.name or "")
        keeps = users is None or any(user.op in KEEPS_TAG for user in users)
        register = self.whole(pointer) if keeps else self.bits(pointer)
        self.define(made.name, made.type, register)

    # Comparisons

    def compare(self, made: Instruction) -> None:
        if isinstance(made.type, VectorType):
            self.by_element(made, made.type.element)
        elif made.name not in self.made or self.is_number(made.name):
            self.define(made.name, made.type, self.truth(made), ZEROED)

    def is_number(self, name: str) -> bool:
        return any(self.needs_truth(user, name) for user in self.users.get(name, []))

    @staticmethod
    def needs_truth(user: Instruction, name: object) -> bool:
        """Whether a use needs the comparison as a number: a branch and a select can make it themselves."""
        if user.op == "br":
            return False
        if user.op == "select":
            return any(isinstance(value, Local) and value.name == name for value in user.operands[1:])
        return True

    def truth(self, made: Instruction) -> int:
        """A comparison as 0 or 1."""
        register, turned = self.condition_of(made)
        return self.op("eq", register, self.constant(0)) if turned else register

    def condition_of(self, made: Instruction) -> tuple[int, bool]:
        """A register that is 0 or 1, and whether it is to be turned round."""
        op, swapped, turned = CONDITIONS[made.condition]
        distances = self.distances(made)
        if distances is not None:
            # A base may stand in the middle of its object, so a distance may be below 0.
            op, (a, b) = "lts" if op == "ltu" else op, distances
        else:
            a, b = self.sides(made)
        return self.op(op, *((b, a) if swapped else (a, b))), turned

    def distances(self, made: Instruction) -> Optional[tuple[int, int]]:
        """The distances of two pointers that a comparison takes, if they have one base."""
        if not isinstance(made.operands[0].type, PointerType):
            return None
        first, second = (self.pointer(operand) for operand in made.operands)
        if first.base != second.base or first.base in self.code.fixed:
            return None
        return self.distance(first), self.distance(second)

    def sides(self, made: Instruction) -> tuple[int, int]:
        left, right = made.operands
        if isinstance(left.type, PointerType):
            return self.bits(self.pointer(left)), self.bits(self.pointer(right))
        if isinstance(left.type, FloatType):
            raise Untranslated("floating point")
        if bits_of(left.type) == 1:
            form = ZEROED if made.condition in ("eq", "ne") or made.condition[0] == "u" else SIGNED
        else:
            form = self.forms.compared(made)
        return self.number(left, form), self.number(right, form)

    def branch_condition(self, value: Value) -> tuple[int, bool]:
        """A register, and whether the condition holds where it is zero."""
        made = self.made.get(value.name) if isinstance(value, Local) else None
        if made is None or made.op != "icmp" or isinstance(made.operands[0].type, VectorType):
            return self.number(value, ZEROED), False
        assert isinstance(value, Local)
        if made.condition in ("eq", "ne"):
            left, right = made.operands
            zero = isinstance(right, Zero) or isinstance(right, Number) and right.number == 0
            zero = zero and bits_of(left.type) <= 64
            if zero and not isinstance(left.type, PointerType):
                form = ZEROED if bits_of(left.type) == 1 else self.forms.compared(made)
                return self.number(left, form), made.condition == "eq"
            if zero:
                return self.bits(self.pointer(left)), made.condition == "eq"
        if value.name in self.numbers:
            return self.numbers[value.name][ZEROED], False
        return self.condition_of(made)

    def select(self, made: Instruction) -> None:
        """One of two values: a branch over a move, which is shorter than any arithmetic and keeps tags."""
        assert made.name is not None
        condition, yes, no = made.operands
        if isinstance(made.type, PointerType):
            self.select_pointer(made.name, condition, yes, no)
        elif isinstance(made.type, IntType) and made.type.bits <= 64:
            form = self.forms.carried(made.name)
            first, second = self.number(yes, form), self.number(no, form)
            register = self.chosen(condition, first, second)
            self.define(made.name, made.type, register, form if form != RAW else "")
        else:
            self.select_group(made)

    def chosen(self, condition: Value, yes: int, no: int) -> int:
        if yes == no:
            return yes
        register, turned = self.branch_condition(condition)
        if turned:
            yes, no = no, yes
        return self.picked(register, yes, no)

    def picked(self, condition: int, yes: int, no: int) -> int:
        """One of two registers, by whether a third one is zero."""
        d = self.code.new()
        self.emit("select", d, condition, no, extra=(yes,), late=(condition, no))
        return d

    def select_pointer(self, name: str, condition: Value, yes: Value, no: Value) -> None:
        first, second = self.pointer(yes), self.pointer(no)
        offset = None
        if name in self.bases.moved:
            offset = self.chosen(condition, self.distance(first), self.distance(second))
        elif not (first.at_base and second.at_base):
            first, second = Pointer(self.whole(first)), Pointer(self.whole(second))
        self.pointers[name] = Pointer(self.chosen(condition, first.base, second.base), offset)

    def select_group(self, made: Instruction) -> None:
        raise NotImplementedError

    def by_element(self, made: Instruction, element: Type) -> None:
        raise NotImplementedError
