"""LLVM's functions on numbers: the greater of two, turned bits, and sums that tell whether they overflow."""

from __future__ import annotations

from mm.cc.forms import SIGNED, ZEROED, bits_of
from mm.cc.intrinsics import Intrinsics
from mm.cc.ir import Instruction, IntType, Local, Number


class Counting(Intrinsics):
    """Functions on numbers."""

    def _extreme(self, made: Instruction, op: str, form: str, greater: bool) -> None:
        a, b = (self.number(self.value_of(made, at), form) for at in (0, 1))
        less = self.op(op, a, b)
        yes, no = (b, a) if greater else (a, b)
        self.give(made, self.picked(less, yes, no), form)

    def _smax(self, made: Instruction) -> None:
        self._extreme(made, "lts", SIGNED, True)

    def _smin(self, made: Instruction) -> None:
        self._extreme(made, "lts", SIGNED, False)

    def _umax(self, made: Instruction) -> None:
        self._extreme(made, "ltu", ZEROED, True)

    def _umin(self, made: Instruction) -> None:
        self._extreme(made, "ltu", ZEROED, False)

    def _order(self, made: Instruction, op: str, form: str) -> None:
        """-1, 0 or 1: how two numbers compare."""
        a, b = (self.number(self.value_of(made, at), form) for at in (0, 1))
        self.give(made, self.op("sub", self.op(op, b, a), self.op(op, a, b)), SIGNED)

    def _scmp(self, made: Instruction) -> None:
        self._order(made, "lts", SIGNED)

    def _ucmp(self, made: Instruction) -> None:
        self._order(made, "ltu", ZEROED)

    def _abs(self, made: Instruction) -> None:
        a = self.number(self.value_of(made, 0), SIGNED)
        sign = self.op("sar", a, self.constant(63))
        self.give(made, self.op("sub", self.op("xor", a, sign), sign))

    def _through_library(self, made: Instruction, function: str) -> None:
        bits = bits_of(made.type)
        arguments = [self.number(self.value_of(made, 0), ZEROED), self.constant(bits)]
        self.give(made, self.runtime(function, arguments, True), ZEROED)

    def _ctpop(self, made: Instruction) -> None:
        self._through_library(made, "__mm_ones")

    def _ctlz(self, made: Instruction) -> None:
        self._through_library(made, "__mm_leading_zeros")

    def _cttz(self, made: Instruction) -> None:
        self._through_library(made, "__mm_trailing_zeros")

    def _bswap(self, made: Instruction) -> None:
        self._through_library(made, "__mm_bytes_swapped")

    def _bitreverse(self, made: Instruction) -> None:
        self._through_library(made, "__mm_bits_reversed")

    def _funnel(self, made: Instruction, left: bool) -> None:
        bits = bits_of(made.type)
        high, low = (self.number(self.value_of(made, at), ZEROED) for at in (0, 1))
        by = self.value_of(made, 2)
        if isinstance(by, Number):
            amount = (by.number & (1 << bits) - 1) % bits
            if not amount:
                self.give(made, high if left else low, ZEROED)
                return
            up = amount if left else bits - amount
            self.give(made, self.op("or", self.op("shl", high, self.constant(up)),
                                    self.op("shr", low, self.constant(bits - up))))
            return
        amount = self.op("and" if bits & (bits - 1) == 0 else "remu", self.number(by, ZEROED),
                         self.constant(bits - 1 if bits & (bits - 1) == 0 else bits))
        rest = self.op("sub", self.constant(bits), amount)
        # A shift by all bits is made of two, since the machine takes amounts modulo 64.
        one = self.constant(1)
        if left:
            moved = self.op("shr", self.op("shr", low, one), self.op("sub", rest, one))
            self.give(made, self.op("or", self.op("shl", high, amount), moved))
        else:
            moved = self.op("shl", self.op("shl", high, one), self.op("sub", rest, one))
            self.give(made, self.op("or", self.op("shr", low, amount), moved))

    def _fshl(self, made: Instruction) -> None:
        self._funnel(made, True)

    def _fshr(self, made: Instruction) -> None:
        self._funnel(made, False)

    # Sums that tell whether they overflow, and sums that stay at the end of their range

    def _overflowing(self, made: Instruction, op: str, is_signed: bool) -> tuple[int, int]:
        """The sum in 64 bits, with the form of the operands, and 1 where it leaves the range."""
        type_ = self.value_of(made, 0).type
        bits = bits_of(type_)
        form = SIGNED if is_signed else ZEROED
        a, b = (self.number(self.value_of(made, at), form) for at in (0, 1))
        total = self.op(op, a, b)
        beyond = None
        if op == "mul" and bits > 32:
            name = "__mm_signed_product_overflows" if is_signed else "__mm_product_overflows"
            beyond = self.runtime(name, [a, b], True)
        if bits < 64:
            other = self.differs(self.converted(total, bits, form), total)
            return total, other if beyond is None else self.op("or", other, beyond)
        if beyond is not None:
            return total, beyond
        if not is_signed:
            return total, self.op("ltu", total, a) if op == "add" else self.op("ltu", a, b)
        other = self.op("xor", total, b) if op == "add" else self.op("xor", a, b)
        change = self.op("and", self.op("xor", total, a), other)
        return total, self.op("shr", change, self.constant(63))

    def differs(self, a: int, b: int) -> int:
        """1 where two registers are not the same, else 0."""
        return self.op("eq", self.op("eq", a, b), self.constant(0))

    def _overflow_pair(self, made: Instruction, op: str, is_signed: bool) -> None:
        assert made.name is not None
        type_ = self.value_of(made, 0).type
        if bits_of(type_) > 64:
            over = self.wide_overflow(made, op, is_signed)
        else:
            total, over = self._overflowing(made, op, is_signed)
            self.define(f"{made.name}?0", type_, total)
        self.define(f"{made.name}?1", IntType(1), over, ZEROED)
        self.groups[made.name] = [Local(type_, f"{made.name}?0"), Local(IntType(1), f"{made.name}?1")]

    def wide_overflow(self, made: Instruction, op: str, is_signed: bool) -> int:
        """The same of more than 64 bits."""
        raise NotImplementedError

    def _sadd(self, made: Instruction) -> None:
        self._sum(made, "add", True)

    def _uadd(self, made: Instruction) -> None:
        self._sum(made, "add", False)

    def _ssub(self, made: Instruction) -> None:
        self._sum(made, "sub", True)

    def _usub(self, made: Instruction) -> None:
        self._sum(made, "sub", False)

    def _smul(self, made: Instruction) -> None:
        self._sum(made, "mul", True)

    def _umul(self, made: Instruction) -> None:
        self._sum(made, "mul", False)

    def _sum(self, made: Instruction, op: str, is_signed: bool) -> None:
        if not isinstance(made.type, IntType):
            self._overflow_pair(made, op, is_signed)
            return
        bits = made.type.bits
        total, over = self._overflowing(made, op, is_signed)
        if is_signed:
            a = self.number(self.value_of(made, 0), SIGNED)
            end = self.op("xor", self.op("sar", a, self.constant(63)), self.constant((1 << (bits - 1)) - 1))
        else:
            end = self.constant((1 << bits) - 1 if op == "add" else 0)
        self.give(made, self.picked(over, end, total))
