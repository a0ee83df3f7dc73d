"""Integers of more than 128 bits, as three words or more: what Clang makes of an overflow builtin of two numbers of 128
bits of which one has a sign, and of long rows of bit-fields."""

from __future__ import annotations

from typing import Optional

from mm.cc.accesses import MOST_BITS
from mm.cc.forms import RAW, SIGNED, ZEROED, bits_of
from mm.cc.ir import Instruction, IntType, Local, Number, Type, Value
from mm.cc.untranslated import Untranslated
from mm.cc.widecounting import HALF, WideCounting

BY_WORDS = ("and", "or", "xor")
SHIFTS = {"shl": RAW, "lshr": ZEROED, "ashr": SIGNED}


def is_wider(type_: Type) -> bool:
    return isinstance(type_, IntType) and 128 < type_.bits <= MOST_BITS


def count_of(bits: int) -> int:
    """How many words a number of so many bits has."""
    return -(-bits // HALF)


class Wider(WideCounting):
    """Integers of three words and more. Bits above their width may be anything, as in narrow ones."""

    def words_of(self, value: Value, form: str, count: int) -> list[int]:
        """So many words of a number, from the lowest on; above it are its sign or zeros, by the form."""
        if bits_of(value.type) <= HALF:
            found = [self.number(value, form)]
        else:
            *below, last = self.group(value)
            found = [*(self.number(part) for part in below), self.number(last, form)]
        return (found + [self.above(found[-1], form)] * (count - len(found)))[:count]

    def above(self, word: int, form: str) -> int:
        """The words above the highest one of a number."""
        return self.op("sar", word, self.constant(HALF - 1)) if form == SIGNED else self.constant(0)

    def give_words(self, name: Optional[str], type_: Type, words: list[int]) -> None:
        if name is None or bits_of(type_) <= HALF:
            self.define(name, type_, words[0])
            return
        kinds = [kind for _, kind in self.parts(type_)]
        for number, (kind, word) in enumerate(zip(kinds, words)):
            self.define(f"{name}?{number}", kind, word)
        self.groups[name] = [Local(kind, f"{name}?{number}") for number, kind in enumerate(kinds)]

    # Sums and products

    def summed(self, op: str, one: list[int], other: list[int]) -> list[int]:
        """A sum or a difference of as many words, with what each word carries to the next one."""
        found: list[int] = []
        carry: Optional[int] = None
        for a, b in zip(one, other):
            first = self.op(op, a, b)
            over = self.op("ltu", first, a) if op == "add" else self.op("ltu", a, b)
            if carry is not None:
                second = self.op(op, first, carry)
                again = self.op("ltu", second, first) if op == "add" else self.op("ltu", first, carry)
                first, over = second, self.op("or", over, again)
            found.append(first)
            carry = over
        return found

    def product(self, one: list[int], other: list[int]) -> list[int]:
        """The lower words of a product, as many as each side has: the sum of the products of their words."""
        count = len(one)
        found = [self.constant(0)] * count
        for at, a in enumerate(one):
            for by, b in enumerate(other[: count - at]):
                place = at + by
                part = [self.op("mul", a, b)]
                if place + 1 < count:
                    part.append(self.runtime("__mm_product_high", [a, b], True))
                part += [self.constant(0)] * (count - place - len(part))
                found[place:] = self.summed("add", found[place:], part)
        return found

    def wider_binary(self, made: Instruction) -> None:
        op, count = made.op, count_of(bits_of(made.type))
        if op in SHIFTS:
            words = self.moved_words(op, made, count)
        else:
            one, other = (self.words_of(operand, RAW, count) for operand in made.operands)
            if op in BY_WORDS:
                words = [self.op(op, a, b) for a, b in zip(one, other)]
            elif op in ("add", "sub"):
                words = self.summed(op, one, other)
            elif op == "mul":
                words = self.product(one, other)
            else:
                raise Untranslated(f"a division of integers of {bits_of(made.type)} bits")
        self.give_words(made.name, made.type, words)

    def moved_words(self, op: str, made: Instruction, count: int) -> list[int]:
        """A shift by a constant."""
        value, amount = made.operands
        bits = bits_of(made.type)
        if not isinstance(amount, Number) or not 0 <= amount.number < bits:
            raise Untranslated(f"a shift of an integer of {bits} bits by an amount that is no constant")
        far, by = divmod(amount.number, HALF)
        words = self.words_of(value, SHIFTS[op], count)
        if op == "shl":
            words = ([self.constant(0)] * (far + 1) + words)[: count + 1]
            return [self.joined(high, low, HALF - by) for low, high in zip(words, words[1:])]
        end = self.above(words[-1], SHIFTS[op])
        words = (words[far:] + [end] * (far + 1))[: count + 1]
        return [self.joined(high, low, by) for low, high in zip(words, words[1:])]

    def joined(self, high: int, low: int, by: int) -> int:
        """A word of two that stand one above the other, from a bit of the lower one on."""
        if by in (0, HALF):
            return high if by else low
        above = self.op("shl", high, self.constant(HALF - by))
        return self.op("or", self.op("shr", low, self.constant(by)), above)

    # Overflows, widths and comparisons

    def wide_overflow(self, made: Instruction, op: str, is_signed: bool) -> int:
        type_ = self.value_of(made, 0).type
        if not is_wider(type_):
            return super().wide_overflow(made, op, is_signed)
        bits, form = bits_of(type_), SIGNED if is_signed else ZEROED
        # In so many words nothing of the result is lost.
        count = count_of(2 * bits) if op == "mul" else count_of(bits + 1)
        one, other = (self.words_of(self.value_of(made, at), form, count) for at in (0, 1))
        words = self.product(one, other) if op == "mul" else self.summed(op, one, other)
        self.give_words(f"{made.name}?0", type_, words)
        return self.beyond(words, bits, form)

    def beyond(self, words: list[int], bits: int, form: str) -> int:
        """1 where a number does not fit so many bits, else 0."""
        last = count_of(bits) - 1
        fits = self.converted(words[last], bits - HALF * last, form)
        change, above = self.op("xor", fits, words[last]), self.above(fits, form)
        for word in words[last + 1:]:
            change = self.op("or", change, self.op("xor", word, above))
        return self.differs(change, self.constant(0))

    def wide_width(self, made: Instruction) -> None:
        operand = made.operands[0]
        if not is_wider(made.type) and not is_wider(operand.type):
            super().wide_width(made)
            return
        form = {"zext": ZEROED, "sext": SIGNED}.get(made.op, RAW)
        self.give_words(made.name, made.type, self.words_of(operand, form, count_of(bits_of(made.type))))

    def condition_of(self, made: Instruction) -> tuple[int, bool]:
        type_, condition = made.operands[0].type, made.condition
        if not is_wider(type_):
            return super().condition_of(made)
        is_signed = condition[0] == "s"
        one, other = (self.words_of(operand, SIGNED if is_signed else ZEROED, count_of(bits_of(type_)))
                      for operand in made.operands)
        if condition in ("eq", "ne"):
            change = self.constant(0)
            for a, b in zip(one, other):
                change = self.op("or", change, self.op("xor", a, b))
            return self.op("eq", change, self.constant(0)), condition == "ne"
        if condition[1:] in ("gt", "le"):
            one, other = other, one
        less = self.op("ltu", one[0], other[0])
        for at, (a, b) in enumerate(zip(one[1:], other[1:]), 2):
            here = self.op("lts" if is_signed and at == len(one) else "ltu", a, b)
            less = self.op("or", here, self.op("and", self.op("eq", a, b), less))
        return less, condition[1:] in ("ge", "le")
