"""Code that carries each value twice: as the translator has it, in a form or as a base with a distance, and as what it
stands for, a plain number or an address. The second is reckoned from LLVM's instructions alone. Where a value matters
(an address, what is stored, handed over or given back, a condition) the two are compared, and the code stops if they
differ. It is slower and longer, and there to try the translator."""

from __future__ import annotations

from typing import Optional

from mm.cc.control import Translator
from mm.cc.forms import RAW, SIGNED, ZEROED, bits_of
from mm.cc.ir import Global, Instruction, IntType, Local, Number, PointerType, StructType, Type, Undefined, Value, Zero

WORD = 8
PLAIN = {"add": "add", "sub": "sub", "mul": "mul", "and": "and", "or": "or", "xor": "xor", "shl": "shl", "lshr": "shr",
         "udiv": "divu", "urem": "remu"}
# Comparisons: the operation, whether its operands change places, and whether its result is turned round.
LESS = {"lt": (False, False), "gt": (True, False), "ge": (False, True), "le": (True, True)}
EXTREMES = {"smax": ("lts", True), "smin": ("lts", False), "umax": ("ltu", True), "umin": ("ltu", False)}
SHARED = {"volatile", "atomic"}


class Checked(Translator):
    """Translates one function, with a second reckoning."""

    def second(self, value: Value) -> Optional[int]:
        """What a value stands for: an unsigned number of its width, or an address; none where it is not carried. What
        comes from elsewhere (a parameter, a result) is taken as the translator has it."""
        value = self.names.resolve(value)
        type_ = self.layouts.plain(value.type)
        if not self.is_carried(type_):
            return None
        if isinstance(value, (Zero, Undefined)):
            return self.constant(0)
        if isinstance(value, Number) and isinstance(type_, IntType):
            return self.constant(value.number & self.mask(type_.bits))
        if isinstance(value, Local) and value.name in self.seconds:
            return self.seconds[value.name]
        if isinstance(type_, PointerType):
            return self.bits(self.pointer(value))
        if isinstance(value, Local) and value.name not in self.numbers:
            return None
        return self.cut_to(self.number(value, RAW), bits_of(type_))

    @staticmethod
    def is_carried(type_: Type) -> bool:
        return isinstance(type_, PointerType) or isinstance(type_, IntType) and type_.bits <= 64

    @staticmethod
    def mask(bits: int) -> int:
        return (1 << bits) - 1

    def cut_to(self, register: int, bits: int) -> int:
        return register if bits >= 64 else self.op("and", register, self.constant(self.mask(bits)))

    def with_sign(self, register: int, bits: int) -> int:
        """A number of so many bits, extended by its sign."""
        if bits >= 64:
            return register
        top = self.constant(1 << (bits - 1))
        return self.op("sub", self.op("xor", register, top), top)

    def compare_both(self, register: int, second: Optional[int]) -> None:
        if second is not None and register != second:
            self.emit("check", None, register, second)

    def keep_second(self, name: Optional[str], register: Optional[int]) -> None:
        if name is not None and register is not None:
            self.seconds[name] = register

    # A function

    @property
    def seconds(self) -> dict[str, int]:
        if not hasattr(self, "_seconds"):
            self._seconds: dict[str, int] = {}
        return self._seconds

    def promote(self) -> None:
        super().promote()
        for name in self.promoted:
            self.seconds[name] = self.code.new()

    def clear_unset(self) -> None:
        super().clear_unset()
        for name in self.promoted:
            self.emit("mov", self.seconds[name], self.constant(0))

    def place_of_several(self, name: str, type_: Type) -> None:
        super().place_of_several(name, type_)
        if self.is_carried(type_):
            self.seconds[name] = self.code.new()

    def pairs_of(self, to: Local, value: Value, pairs: list[tuple[int, int]]) -> None:
        """What is not defined is 0 here, so that both reckonings have the same."""
        type_ = self.layouts.plain(to.type)
        if isinstance(value, Undefined):
            if not self.is_carried(type_):
                for part in self.groups[to.name]:
                    assert isinstance(part, Local)
                    self.pairs_of(part, Undefined(part.type), pairs)
                return
            value = Zero(type_) if isinstance(type_, PointerType) else Number(type_, 0)
        super().pairs_of(to, value, pairs)
        second = self.second(value) if to.name in self.seconds else None
        if second is not None:
            pairs.append((self.seconds[to.name], second))

    def instruction(self, made: Instruction) -> None:
        before, after = getattr(self, "before_" + made.op, None), getattr(self, "after_" + made.op, None)
        if before is not None:
            before(made)
        super().instruction(made)
        if after is not None:
            after(made)
        elif made.op in PLAIN:
            self.same_operation(made)

    # Numbers

    def both(self, made: Instruction) -> Optional[tuple[int, int]]:
        first, second = (self.second(operand) for operand in made.operands[:2])
        return (first, second) if first is not None and second is not None else None

    def same_operation(self, made: Instruction) -> None:
        sides = self.both(made)
        if sides is not None:
            self.keep_second(made.name, self.cut_to(self.op(PLAIN[made.op], *sides), bits_of(made.type)))

    def after_ashr(self, made: Instruction) -> None:
        sides, bits = self.both(made), bits_of(made.type)
        if sides is not None:
            self.keep_second(made.name, self.cut_to(self.op("sar", self.with_sign(sides[0], bits), sides[1]), bits))

    def after_sdiv(self, made: Instruction) -> None:
        sides, bits = self.both(made), bits_of(made.type)
        if sides is None:
            return
        (size, below), (by, by_below) = (self.size_of(side, bits) for side in sides)
        if made.op == "srem":
            result, turned = self.op("remu", size, by), below
        else:
            result, turned = self.op("divu", size, by), self.op("xor", below, by_below)
        found = self.chosen_of(turned, self.op("sub", self.constant(0), result), result)
        self.keep_second(made.name, self.cut_to(found, bits))

    after_srem = after_sdiv

    def size_of(self, register: int, bits: int) -> tuple[int, int]:
        """A number without its sign, and whether it is below 0."""
        number = self.with_sign(register, bits)
        below = self.op("lts", number, self.constant(0))
        return self.chosen_of(below, self.op("sub", self.constant(0), number), number), below

    def chosen_of(self, condition: int, yes: int, no: int) -> int:
        d = self.code.new()
        self.emit("select", d, condition, no, extra=(yes,), late=(condition, no))
        return d

    def after_zext(self, made: Instruction) -> None:
        self.keep_second(made.name, self.second(made.operands[0]) if self.is_carried(made.type) else None)

    after_freeze = after_zext

    def after_sext(self, made: Instruction) -> None:
        second = self.second(made.operands[0]) if self.is_carried(made.type) else None
        if second is not None:
            extended = self.with_sign(second, bits_of(made.operands[0].type))
            self.keep_second(made.name, self.cut_to(extended, bits_of(made.type)))

    def after_trunc(self, made: Instruction) -> None:
        second = self.second(made.operands[0])
        if second is not None and self.is_carried(made.type):
            self.keep_second(made.name, self.cut_to(second, bits_of(made.type)))

    after_ptrtoint = after_trunc
    after_inttoptr = after_zext

    def after_icmp(self, made: Instruction) -> None:
        sides = self.both(made)
        if sides is None or not isinstance(made.type, IntType):
            return
        if made.condition in ("eq", "ne"):
            same = self.op("eq", *sides)
            self.keep_second(made.name, self.op("eq", same, self.constant(0)) if made.condition == "ne" else same)
            return
        if made.condition[0] == "s":
            bits = bits_of(made.operands[0].type)
            sides = self.with_sign(sides[0], bits), self.with_sign(sides[1], bits)
        swapped, turned = LESS[made.condition[1:]]
        less = self.op("lts" if made.condition[0] == "s" else "ltu", *(reversed(sides) if swapped else sides))
        self.keep_second(made.name, self.op("eq", less, self.constant(0)) if turned else less)

    def after_select(self, made: Instruction) -> None:
        found = [self.second(operand) for operand in made.operands]
        if None not in found and self.is_carried(self.layouts.plain(made.type)):
            condition, yes, no = (register for register in found if register is not None)
            self.keep_second(made.name, self.chosen_of(condition, yes, no))

    # Addresses

    def after_bitcast(self, made: Instruction) -> None:
        if isinstance(made.type, PointerType):
            self.keep_second(made.name, self.second(made.operands[0]))

    def after_getelementptr(self, made: Instruction) -> None:
        found, type_ = self.second(made.operands[0]), made.source
        for number, index in enumerate(made.operands[1:]):
            second = self.second(index)
            if found is None or second is None or type_ is None:
                return
            plain = self.layouts.plain(type_)
            if number and isinstance(plain, StructType):
                place, type_ = self.layouts.inside(plain, index.number if isinstance(index, Number) else 0)
                found = self.op("add", found, self.constant(place))
                continue
            type_ = type_ if not number else plain.element  # type: ignore[attr-defined]
            by = self.op("mul", self.with_sign(second, bits_of(index.type)), self.constant(self.layouts.size(type_)))
            found = self.op("add", found, by)
        self.keep_second(made.name, found)

    def of_memory(self, place: Value) -> bool:
        """Whether a place is in memory, and not a local that lives in registers."""
        return not (isinstance(place, Local) and place.name in self.promoted)

    def word_at(self, place: Value) -> Optional[tuple[int, int]]:
        """The word in which an address is, and how far up it stands there in bits."""
        address = self.second(place)
        if address is None:
            return None
        base = self.pointer(place).base
        by = self.op("sub", self.op("and", address, self.constant(-WORD)), base)
        up = self.op("shl", self.op("and", address, self.constant(WORD - 1)), self.constant(3))
        return self.op("ld", self.op("lea", base, by)), up

    def width_in_word(self, made: Instruction, type_: Type) -> Optional[int]:
        """The bits of an access that stays in one word; none for another one."""
        type_ = self.layouts.plain(type_)
        if made.words & SHARED or not self.is_carried(type_):
            return None
        bits = bits_of(type_)
        size = (bits + 7) // 8
        return bits if size in (1, 2, 4, 8) and (made.align or self.layouts.align(type_)) >= size else None

    def before_load(self, made: Instruction) -> None:
        if self.of_memory(made.operands[0]) and not self.only_asked(made):
            self.compare_both(self.bits(self.pointer(made.operands[0])), self.second(made.operands[0]))

    def after_load(self, made: Instruction) -> None:
        place = made.operands[0]
        if not self.of_memory(place):
            assert isinstance(place, Local)
            self.keep_second(made.name, self.op("mov", self.seconds[place.name]))
            return
        bits = self.width_in_word(made, made.type)
        found = self.word_at(place) if bits and not self.only_asked(made) else None
        if bits and found is not None:
            self.keep_second(made.name, self.cut_to(self.op("shr", *found), bits))

    def before_store(self, made: Instruction) -> None:
        value, place = made.operands
        self.word_before: Optional[int] = None
        if not self.of_memory(place):
            assert isinstance(place, Local)
            second = self.second(value)
            assert second is not None
            self.emit("mov", self.seconds[place.name], second)
            return
        self.compare_both(self.bits(self.pointer(place)), self.second(place))
        found = self.word_at(place) if self.width_in_word(made, value.type) else None
        self.word_before = found[0] if found else None

    def after_store(self, made: Instruction) -> None:
        """The bytes of the value are there, and the others of the word are as they were."""
        value, place = made.operands
        second = self.second(value) if self.word_before is not None else None
        found = self.word_at(place) if second is not None else None
        if found is None or second is None or self.word_before is None:
            return
        width = -(-bits_of(self.layouts.plain(value.type)) // 8) * 8
        change = self.op("xor", self.op("shr", self.word_before, found[1]), second)
        wanted = self.op("xor", self.word_before, self.op("shl", self.cut_to(change, width), found[1]))
        self.compare_both(found[0], wanted)

    # Where values matter

    def before_call(self, made: Instruction) -> None:
        if isinstance(made.callee, tuple) or isinstance(made.callee, Global) and made.callee.name.startswith(
                ("llvm.", "__mm_op_")):
            return
        for argument in made.arguments:
            if argument.by_value is None:
                self.handed_over(argument.value, "zeroext" in argument.words)

    def handed_over(self, value: Value, zeroed: bool) -> None:
        type_, second = self.layouts.plain(value.type), self.second(value)
        if second is None or isinstance(value, Undefined):
            return
        if isinstance(type_, PointerType):
            self.compare_both(self.whole(self.pointer(value)), second)
            return
        bits = bits_of(type_)
        form = ZEROED if zeroed or bits == 1 else SIGNED
        self.compare_both(self.number(value, form), second if form == ZEROED else self.with_sign(second, bits))

    def after_call(self, made: Instruction) -> None:
        name = made.callee.name if isinstance(made.callee, Global) else ""
        how = EXTREMES.get(name.split(".")[1]) if name.startswith("llvm.") else None
        if how is None or not self.is_carried(made.type):
            return
        first, other = (self.second(argument.value) for argument in made.arguments[:2])
        if first is None or other is None:
            return
        op, greater = how
        bits = bits_of(made.type)
        sides = (self.with_sign(first, bits), self.with_sign(other, bits)) if op == "lts" else (first, other)
        less = self.op(op, *sides)
        yes, no = (other, first) if greater else (first, other)
        self.keep_second(made.name, self.chosen_of(less, yes, no))

    def before_ret(self, made: Instruction) -> None:
        if made.operands:
            self.handed_over(made.operands[0], "zeroext" in self.function.words)

    def before_switch(self, made: Instruction) -> None:
        value = made.operands[0]
        second, bits = self.second(value), bits_of(value.type)
        if second is not None and bits > 1:
            self.compare_both(self.number(value, SIGNED), self.with_sign(second, bits))

    def branch(self, made: Instruction) -> None:
        self.at_branch = True
        super().branch(made)
        self.at_branch = False

    at_branch = False

    def branch_condition(self, value: Value) -> tuple[int, bool]:
        register, turned = super().branch_condition(value)
        second = self.second(value) if self.at_branch else None
        if second is not None:
            zero = self.op("eq", register, self.constant(0))
            self.compare_both(zero if turned else self.op("eq", zero, self.constant(0)), second)
        return register, turned
