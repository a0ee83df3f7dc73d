"""LLVM's functions on numbers of 65 to 128 bits: the same as those on narrower ones, with two words each."""

from __future__ import annotations

from mm.cc.forms import SIGNED, ZEROED, bits_of
from mm.cc.ir import Instruction, Local, Number, Value
from mm.cc.wide import Pair, Wide, is_wide

HALF = 64


class WideCounting(Wide):
    """Extremes, counts of bits, and rotations of numbers of two words."""

    def pairs_taken(self, made: Instruction, form: str) -> tuple[Pair, Pair]:
        return self.pair(self.value_of(made, 0), form), self.pair(self.value_of(made, 1), form)

    def give_one_of(self, made: Instruction, condition: int, yes: Pair, no: Pair) -> None:
        low, high = (self.picked(condition, first, second) for first, second in zip(yes, no))
        self.give_pair(made.name, made.type, low, high)

    def _extreme(self, made: Instruction, op: str, form: str, greater: bool) -> None:
        if not is_wide(made.type):
            super()._extreme(made, op, form, greater)
            return
        a, b = self.pairs_taken(made, form)
        yes, no = (b, a) if greater else (a, b)
        self.give_one_of(made, self.wide_less(op, a, b), yes, no)

    def _order(self, made: Instruction, op: str, form: str) -> None:
        if not is_wide(self.value_of(made, 0).type):
            super()._order(made, op, form)
            return
        a, b = self.pairs_taken(made, form)
        self.give(made, self.op("sub", self.wide_less(op, b, a), self.wide_less(op, a, b)), SIGNED)

    def _abs(self, made: Instruction) -> None:
        if not is_wide(made.type):
            super()._abs(made)
            return
        low, high = self.pair(self.value_of(made, 0), SIGNED)
        sign = self.op("sar", high, self.constant(HALF - 1))
        turned = self.op("xor", low, sign)
        found = self.op("sub", turned, sign)
        above = self.op("add", self.op("xor", high, sign), self.op("ltu", found, turned))
        self.give_pair(made.name, made.type, found, above)

    # Counts

    def counted(self, function: str, word: int, bits: int = HALF) -> int:
        return self.runtime(function, [word, self.constant(bits)], True)

    def give_count(self, made: Instruction, count: int) -> None:
        self.give_pair(made.name, made.type, count, self.constant(0))

    def _ctpop(self, made: Instruction) -> None:
        if not is_wide(made.type):
            super()._ctpop(made)
            return
        low, high = (self.counted("__mm_ones", word) for word in self.pair(self.value_of(made, 0), ZEROED))
        self.give_count(made, self.op("add", low, high))

    def _ctlz(self, made: Instruction) -> None:
        """The zeros of the upper word, and those of the lower one if there is nothing else."""
        if not is_wide(made.type):
            super()._ctlz(made)
            return
        above = bits_of(made.type) - HALF
        low, high = self.pair(self.value_of(made, 0), ZEROED)
        below = self.plus(self.counted("__mm_leading_zeros", low), above)
        self.give_count(made, self.picked(high, self.counted("__mm_leading_zeros", high, above), below))

    def _cttz(self, made: Instruction) -> None:
        if not is_wide(made.type):
            super()._cttz(made)
            return
        low, high = self.pair(self.value_of(made, 0), ZEROED)
        above = self.plus(self.counted("__mm_trailing_zeros", high, bits_of(made.type) - HALF), HALF)
        self.give_count(made, self.picked(low, self.counted("__mm_trailing_zeros", low), above))

    def _through_library(self, made: Instruction, function: str) -> None:
        """Bytes or bits in the other order: each word turned round is the other one, and what was above goes out."""
        if not is_wide(made.type):
            super()._through_library(made, function)
            return
        high, low = (self.counted(function, word) for word in self.pair(self.value_of(made, 0), ZEROED))
        out = 2 * HALF - bits_of(made.type)
        self.give_pair(made.name, made.type, *(self.shifted("lshr", low, high, out) if out else (low, high)))

    # Rotations

    def _funnel(self, made: Instruction, left: bool) -> None:
        if not is_wide(made.type):
            super()._funnel(made, left)
            return
        bits, by = bits_of(made.type), self.value_of(made, 2)
        above, below = self.pairs_taken(made, ZEROED)
        if isinstance(by, Number):
            amount = (by.number & (1 << bits) - 1) % bits
            up = amount if left else bits - amount
            moved = (above if left else below) if not amount else self.either(
                self.shifted("shl", *above, up), self.shifted("lshr", *below, bits - up))
        else:
            moved = self.turned_by(above, below, self.rest_of(by, bits), bits, left)
        self.give_pair(made.name, made.type, *moved)

    def either(self, a: Pair, b: Pair) -> Pair:
        return self.op("or", a[0], b[0]), self.op("or", a[1], b[1])

    def rest_of(self, by: Value, bits: int) -> int:
        """An amount without the whole turns in it."""
        if bits & (bits - 1) == 0:
            return self.op("and", self.pair(by)[0], self.constant(bits - 1))
        name = f"?{len(self.groups)}g"
        self.wide_binary(Instruction("urem", by.type, name, [by, Number(by.type, bits)]))
        return self.pair(Local(by.type, name))[0]

    def turned_by(self, above: Pair, below: Pair, amount: int, bits: int, left: bool) -> Pair:
        """A shift by all bits is made of two, of which the first is by one bit."""
        rest = self.op("sub", self.constant(bits - 1), amount)
        if left:
            other = self.moved_by("lshr", self.shifted("lshr", *below, 1), rest)
            return self.either(self.moved_by("shl", above, amount), other)
        other = self.moved_by("shl", self.shifted("shl", *above, 1), rest)
        return self.either(self.moved_by("lshr", below, amount), other)

    # Sums that stay at the end of their range

    def _sum(self, made: Instruction, op: str, is_signed: bool) -> None:
        if not is_wide(made.type):
            super()._sum(made, op, is_signed)
            return
        over = self.wide_overflow(made, op, is_signed)
        total = self.pair(Local(made.type, f"{made.name}?0"))
        most = (1 << bits_of(made.type) - HALF - is_signed) - 1
        if is_signed:
            sign = self.op("sar", self.pair(self.value_of(made, 0), SIGNED)[1], self.constant(HALF - 1))
            end = self.op("xor", sign, self.constant(-1)), self.op("xor", sign, self.constant(most))
        else:
            end = (self.constant(-1), self.constant(most)) if op == "add" else (self.constant(0), self.constant(0))
        self.give_one_of(made, over, end, total)
