"""Integers of 128 bits, as two words."""

from __future__ import annotations

from typing import Optional

from mm.cc.counting import Counting
from mm.cc.forms import RAW, SIGNED, ZEROED, bits_of
from mm.cc.ir import Instruction, IntType, Local, Number, PointerType, Type, Value, VectorType
from mm.cc.untranslated import Untranslated

WORD_TYPE = IntType(64)
Pair = tuple[int, int]


def is_wide(type_: Type) -> bool:
    return isinstance(type_, IntType) and 64 < type_.bits <= 128


class Wide(Counting):
    """Integers of 65 to 128 bits, as two words. Bits above their width may be anything, as in narrow ones."""

    def pair(self, value: Value, form: str = RAW) -> Pair:
        """The lower and the upper word of a value."""
        if not is_wide(value.type):
            raise Untranslated(self.left_out(value.type))
        low, high = self.group(value)
        return self.number(low), self.number(high, form)

    def give_pair(self, name: Optional[str], type_: Type, low: int, high: int) -> None:
        if name is None:
            return
        upper = IntType(bits_of(type_) - 64)
        self.define(f"{name}?0", WORD_TYPE, low)
        self.define(f"{name}?1", upper, high)
        self.groups[name] = [Local(WORD_TYPE, f"{name}?0"), Local(upper, f"{name}?1")]

    def wide_binary(self, made: Instruction) -> None:
        op = made.op
        form = SIGNED if op in ("ashr", "sdiv", "srem") else ZEROED if op in ("lshr", "udiv", "urem") else RAW
        (a, b), (c, d) = self.pair(made.operands[0], form), self.pair(made.operands[1], form)
        if op == "add":
            low = self.op("add", a, c)
            carry = self.op("ltu", low, a)
            self.give_pair(made.name, made.type, low, self.op("add", self.op("add", b, d), carry))
        elif op == "sub":
            high = self.op("sub", self.op("sub", b, d), self.op("ltu", a, c))
            self.give_pair(made.name, made.type, self.op("sub", a, c), high)
        elif op in ("and", "or", "xor"):
            self.give_pair(made.name, made.type, self.op(op, a, c), self.op(op, b, d))
        elif op == "mul":
            high = self.runtime("__mm_product_high", [a, c], True)
            cross = self.op("add", self.op("mul", a, d), self.op("mul", b, c))
            self.give_pair(made.name, made.type, self.op("mul", a, c), self.op("add", high, cross))
        elif op in ("shl", "lshr", "ashr"):
            self.wide_shift(made, a, b, c)
        else:
            self.through_memory(made, [a, b, c, d])

    def wide_shift(self, made: Instruction, low: int, high: int, by: int) -> None:
        amount = made.operands[1]
        if isinstance(amount, Number) and 0 < amount.number < 128:
            self.give_pair(made.name, made.type, *self.shifted(made.op, low, high, amount.number))
            return
        self.give_pair(made.name, made.type, *self.moved_by(made.op, (low, high), by))

    def moved_by(self, op: str, pair: Pair, by: int) -> Pair:
        """A shift by an amount from 0 to 127."""
        names = {"shl": ("__mm_left_low", "__mm_left_high"), "lshr": ("__mm_right_low", "__mm_right_high"),
                 "ashr": ("__mm_signed_right_low", "__mm_signed_right_high")}[op]
        low, high = (self.runtime(name, [*pair, by], True) for name in names)
        return low, high

    def shifted(self, op: str, low: int, high: int, by: int) -> Pair:
        """A shift by a constant from 1 to 127."""
        inside, rest = self.constant(by & 63), self.constant(64 - (by & 63))
        if op == "shl":
            if by >= 64:
                return self.constant(0), self.op("shl", low, inside)
            return self.op("shl", low, inside), self.op("or", self.op("shl", high, inside), self.op("shr", low, rest))
        right = "sar" if op == "ashr" else "shr"
        if by >= 64:
            above = self.op("sar", high, self.constant(63)) if op == "ashr" else self.constant(0)
            return self.op(right, high, inside), above
        return self.op("or", self.op("shr", low, inside), self.op("shl", high, rest)), self.op(right, high, inside)

    def through_memory(self, made: Instruction, words: list[int]) -> None:
        """A division, whose result the library leaves in an object."""
        result = self.local_object("result", 16, 8)
        self.runtime("__mm_wide_" + made.op, [self.whole(result), *words])
        self.give_pair(made.name, made.type, self.load_word(result), self.load_word(self.further(result, 8)))

    def wide_overflow(self, made: Instruction, op: str, is_signed: bool) -> int:
        """A sum, a difference or a product of 65 to 128 bits, and 1 where it leaves its range: its bits above do not
        say the same as its sign, or it does not even fit 128 bits."""
        type_ = self.value_of(made, 0).type
        bits = bits_of(type_)
        if not is_wide(type_):
            raise Untranslated(self.left_out(type_))
        form = SIGNED if is_signed else ZEROED
        (a, b), (c, d) = self.pair(self.value_of(made, 0), form), self.pair(self.value_of(made, 1), form)
        if op == "mul":
            name = "__mm_signed_wide_product_overflows" if is_signed else "__mm_wide_product_overflows"
            over = self.runtime(name, [a, b, c, d], True)
            low = self.op("mul", a, c)
            cross = self.op("add", self.op("mul", a, d), self.op("mul", b, c))
            high = self.op("add", self.runtime("__mm_product_high", [a, c], True), cross)
        else:
            low = self.op(op, a, c)
            carry = self.op("ltu", low, a) if op == "add" else self.op("ltu", a, c)
            part = self.op(op, b, d)
            high = self.op(op, part, carry)
            if is_signed:
                other = self.op("xor", high, d) if op == "add" else self.op("xor", b, d)
                over = self.op("shr", self.op("and", self.op("xor", high, b), other), self.constant(63))
            else:
                first = self.op("ltu", part, b) if op == "add" else self.op("ltu", b, d)
                second = self.op("ltu", high, part) if op == "add" else self.op("ltu", part, carry)
                over = self.op("or", first, second)
        self.give_pair(f"{made.name}?0", type_, low, high)
        if bits < 128:
            over = self.op("or", over, self.differs(self.converted(high, bits - 64, form), high))
        return over

    def wide_width(self, made: Instruction) -> None:
        operand = made.operands[0]
        form = {"zext": ZEROED, "sext": SIGNED}.get(made.op, RAW)
        if is_wide(operand.type):
            low, high = self.pair(operand, form)
            if is_wide(made.type):
                self.give_pair(made.name, made.type, low, high)
            else:
                self.define(made.name, made.type, low)
        elif made.op == "zext":
            self.give_pair(made.name, made.type, self.number(operand, ZEROED), self.constant(0))
        else:
            low = self.number(operand, SIGNED)
            self.give_pair(made.name, made.type, low, self.op("sar", low, self.constant(63)))

    def wide_condition(self, made: Instruction) -> tuple[int, bool]:
        condition = made.condition
        form = SIGNED if condition[0] == "s" else ZEROED
        (a, b), (c, d) = self.pair(made.operands[0], form), self.pair(made.operands[1], form)
        if condition in ("eq", "ne"):
            change = self.op("or", self.op("xor", a, c), self.op("xor", b, d))
            return self.op("eq", change, self.constant(0)), condition == "ne"
        if condition[1:] in ("gt", "le"):
            a, b, c, d = c, d, a, b
        less = self.wide_less("lts" if condition[0] == "s" else "ltu", (a, b), (c, d))
        return less, condition[1:] in ("ge", "le")

    def wide_less(self, op: str, one: Pair, other: Pair) -> int:
        """1 where a number is less than another one, by a comparison of their upper words, else 0."""
        lower = self.op("and", self.op("eq", one[1], other[1]), self.op("ltu", one[0], other[0]))
        return self.op("or", self.op(op, one[1], other[1]), lower)

    def condition_of(self, made: Instruction) -> tuple[int, bool]:
        if is_wide(made.operands[0].type):
            return self.wide_condition(made)
        return super().condition_of(made)

    def select_group(self, made: Instruction) -> None:
        assert made.name is not None
        condition, yes, no = made.operands
        vector = isinstance(condition.type, VectorType)
        conditions = self.group(condition) if vector else None
        parts: list[Value] = []
        for number, (first, second) in enumerate(zip(self.group(yes), self.group(no))):
            name = f"{made.name}?{number}"
            chosen = Instruction("select", first.type, name,
                                 [conditions[number] if conditions else condition, first, second])
            self.select(chosen)
            parts.append(Local(first.type, name))
        self.groups[made.name] = parts


def is_plain(type_: Type) -> bool:
    return isinstance(type_, PointerType) or isinstance(type_, IntType) and bits_of(type_) <= 64
