"""Words that several threads share. Who changes a part of one takes the word out of memory, which leaves it empty, and puts
it back, which leaves it full; whoever wants to do the same meanwhile waits. A load does not wait: it gets what was there."""

from __future__ import annotations

from dataclasses import dataclass
from typing import Optional

from mm.cc.forms import RAW, SIGNED, ZEROED, bits_of
from mm.cc.ir import Instruction, IntType, Local, PointerType, Type, Value
from mm.cc.objects import Objects
from mm.cc.pointers import Pointer
from mm.cc.untranslated import Untranslated

WORD = 8
TAKE, PUT_BACK, STORE = "full, empty", "empty, full", "full, keep"
# Comparisons that say whether the old number is less, and whether the greater one is wanted.
EXTREMES = {"max": ("lts", True), "min": ("lts", False), "umax": ("ltu", True), "umin": ("ltu", False)}


@dataclass(frozen=True)
class Taken:
    """A word that was taken out of memory: its register, its address as a register and a constant, and how many bytes of it
    are meant from which one on. If it is not known from which, a register has it in bits, modulo 64."""

    word: int
    base: int
    constant: int
    size: int
    place: int = 0
    shift: Optional[int] = None


class Atomic(Objects):
    """Operations that are one to all others of their kind."""

    def take(self, pointer: Pointer, type_: Type) -> Taken:
        """Takes the word in which a value stands."""
        base, constant, place, shift = self.word_with(pointer, type_)
        word = self.op("ld", base, number=constant, extra=TAKE)
        return Taken(word, base, constant, bits_of(type_) // 8, place, shift)

    def word_with(self, pointer: Pointer, type_: Type) -> tuple[int, int, int, Optional[int]]:
        """The address of the word, and where in it the value stands. It is aligned, as each value is that is atomic."""
        size = bits_of(type_) // 8
        if size not in (1, 2, 4, WORD):
            raise Untranslated(self.left_out(type_))
        at = self.position(pointer, size)
        if at is not None and at + size <= WORD:
            base, constant = self.address(pointer, at)
            return base, constant, at, None
        if at is not None:
            raise Untranslated("an atomic operation on bytes of two words")
        base, shift = self.word_of(pointer)
        return base, 0, 0, shift

    def taken_value(self, taken: Taken, name: str, type_: Type) -> None:
        """Says where the old value is."""
        if isinstance(type_, PointerType):
            self.pointers[name] = Pointer(taken.word)
            return
        word = taken.word if taken.shift is None else self.op("shr", taken.word, taken.shift)
        if taken.size == WORD:
            self.define(name, type_, word, SIGNED + ZEROED)
        else:
            self.define(name, type_, self.cut(word, taken.place, taken.size, SIGNED), SIGNED)

    def put_back(self, taken: Taken, value: int) -> None:
        """Puts the word back with another value in it."""
        if taken.size == WORD:
            word = value
        elif taken.shift is None:
            word = self.put(taken.word, value, taken.place, taken.size)
        else:
            word = self.put_at(taken.word, taken.shift, value, taken.size)
        self.emit("st", None, taken.base, word, number=taken.constant, extra=PUT_BACK)

    def store(self, made: Instruction) -> None:
        value, place = made.operands
        type_ = self.layouts.plain(value.type)
        if "atomic" not in made.words or isinstance(place, Local) and place.name in self.promoted:
            super().store(made)
            return
        pointer, new = self.pointer(place), self.shared_value(value)
        if bits_of(type_) // 8 == WORD:
            base, constant, _, _ = self.word_with(pointer, type_)
            self.emit("st", None, base, new, number=constant, extra=STORE)
        else:
            self.put_back(self.take(pointer, type_), new)

    def shared_value(self, value: Value) -> int:
        return self.whole(self.pointer(value)) if isinstance(value.type, PointerType) else self.number(value, RAW)

    def read_and_write(self, made: Instruction) -> None:
        place, value = made.operands
        type_ = self.layouts.plain(made.type)
        name = made.name or f"?{self.code.registers}"
        if not isinstance(type_, (IntType, PointerType)):
            raise Untranslated(self.left_out(type_))
        if isinstance(type_, PointerType) and made.condition != "xchg":
            raise Untranslated(f"atomicrmw {made.condition}")
        pointer, given = self.pointer(place), self.shared_value(value)
        taken = self.take(pointer, type_)
        self.taken_value(taken, name, type_)
        new = given if made.condition == "xchg" else self.changed(made.condition, Local(type_, name), value)
        self.put_back(taken, new)

    def changed(self, how: str, old: Value, value: Value) -> int:
        """What such an operation stores."""
        if how in EXTREMES:
            op, greater = EXTREMES[how]
            # Extended by their signs, unsigned numbers keep their order.
            a, b = self.number(old, SIGNED), self.number(value, SIGNED)
            return self.picked(self.op(op, a, b), *((b, a) if greater else (a, b)))
        a, b = self.number(old), self.number(value)
        if how == "nand":
            return self.op("xor", self.op("and", a, b), self.constant(-1))
        if how in ("add", "sub") and bits_of(old.type) == 64:
            # The number may be a pointer, which stays one while it is in its segment.
            return self.whole(Pointer(a, b if how == "add" else self.op("sub", self.constant(0), b)))
        if how in ("add", "sub", "and", "or", "xor"):
            return self.op(how, a, b)
        raise Untranslated(f"atomicrmw {how}")

    def compare_and_change(self, made: Instruction) -> None:
        """Where the values differ, the old one is put back."""
        assert made.name is not None
        place, expected, new = made.operands
        type_, name = self.layouts.plain(expected.type), made.name
        pointer, wanted, given = self.pointer(place), self.shared_value(expected), self.shared_value(new)
        taken = self.take(pointer, type_)
        self.taken_value(taken, name + "?0", type_)
        old = Local(expected.type, name + "?0")
        if isinstance(type_, PointerType):
            same = self.op("eq", taken.word, wanted)
        else:
            same = self.op("eq", self.number(old, SIGNED), self.number(expected, SIGNED))
        self.put_back(taken, self.picked(same, given, self.shared_value(old)))
        self.define(name + "?1", IntType(1), same, ZEROED)
        self.groups[name] = [old, Local(IntType(1), name + "?1")]
