"""Loads and stores: words as they are, and bytes, halves and fours inside of words."""

from __future__ import annotations

from typing import Optional

from mm.cc.code import LocalObject
from mm.cc.forms import RAW, SIGNED, ZEROED
from mm.cc.ir import (
    ArrayType,
    Global,
    Instruction,
    IntType,
    Local,
    PointerType,
    StructType,
    Type,
    Undefined,
    Value,
    VectorType,
)
from mm.cc.lowering import Lowering
from mm.cc.pointers import Pointer
from mm.cc.untranslated import Untranslated

WORD = 8
# What an integer may have at most; longer ones are left out.
MOST_BITS = 1 << 16


class Accesses(Lowering):
    """Memory has words alone. Narrow accesses take the word apart; where it is not known where in its word they
    stand, they find out."""

    # Where an access goes

    def position(self, pointer: Pointer, align: int) -> Optional[int]:
        """The place of an access in its word, where it is known."""
        known = self.known.get(pointer.base)
        if known is not None and (pointer.offset is None or pointer.step % WORD == 0):
            return (known.place + pointer.constant) % WORD
        if align >= WORD:
            return 0
        return None

    def address(self, pointer: Pointer, less: int = 0) -> tuple[int, int]:
        """A register and a constant whose sum is `less` bytes before a pointer, inside of the segment if the access
        is."""
        constant = pointer.constant - less
        if pointer.offset is None and -(1 << 31) <= constant < 1 << 31:
            return pointer.base, constant
        by = self.plus(pointer.offset, constant) if pointer.offset is not None else self.constant(constant)
        return self.op("lea", pointer.base, by), 0

    def exact(self, pointer: Pointer) -> int:
        """A pointer where it is accessed: it faults where it leaves its segment."""
        if pointer.at_base:
            return pointer.base
        if pointer.offset is None and -(1 << 31) <= pointer.constant < 1 << 31:
            return self.op("leai", pointer.base, number=pointer.constant)
        return self.op("lea", pointer.base, self.distance(pointer))

    def inside_of_local(self, pointer: Pointer, less: int, size: int) -> Optional[tuple[LocalObject, int]]:
        """The object of the frame that an access at a constant place is in: the frame's own pointer reaches it."""
        known = self.known.get(pointer.base)
        if known is None or known.local is None or pointer.offset is not None:
            return None
        place = known.place + pointer.constant - less
        inside = 0 <= place and place + size <= 1 << known.log
        return (self.code.objects[known.local], place) if inside else None

    # Words

    def load_word(self, pointer: Pointer, less: int = 0) -> int:
        local = self.inside_of_local(pointer, less, WORD)
        if local is not None:
            return self.op("load_local", number=local[1], extra=local[0])
        register, constant = self.address(pointer, less)
        return self.op("ld", register, number=constant)

    def store_word(self, pointer: Pointer, value: int, less: int = 0) -> None:
        local = self.inside_of_local(pointer, less, WORD)
        if local is not None:
            self.emit("store_local", None, value, number=local[1], extra=local[0])
            return
        register, constant = self.address(pointer, less)
        self.emit("st", None, register, value, number=constant)

    # Eight bytes that may stand anywhere. A pointer in them stays one if they are a word.

    def load_eight(self, pointer: Pointer, align: int) -> int:
        at = self.position(pointer, align)
        if at == 0 or align >= WORD:
            return self.load_word(pointer)
        if at is not None:
            return self.load_pieces(pointer, WORD, align, RAW)
        return self.runtime("__mm_load_anywhere", [self.exact(pointer)], True)

    def store_eight(self, pointer: Pointer, align: int, value: int) -> None:
        at = self.position(pointer, align)
        if at == 0 or align >= WORD:
            self.store_word(pointer, value)
        elif at is not None:
            self.store_pieces(pointer, WORD, align, value)
        else:
            self.runtime("__mm_store_anywhere", [self.exact(pointer), value])

    # Narrow loads

    def load_narrow(self, pointer: Pointer, size: int, align: int, form: str) -> int:
        """A number of 1, 2 or 4 bytes in a form."""
        at = self.position(pointer, align)
        if at is not None and at + size <= WORD:
            return self.cut(self.load_word(pointer, at), at, size, form)
        if align < size and not (at is not None and at % size == 0):
            return self.load_pieces(pointer, size, align, form)
        if size == 4:
            d, four, half = self.code.new(), self.constant(4), self.constant(32)
            address = self.exact(pointer)
            self.emit("load_four_" + form, d, address, extra=(four, half), late=(address, half))
            return d
        word, shift = self.word_of(pointer)
        return self.cut(self.op("shr", self.op("ld", word), shift), 0, size, form)

    def word_of(self, pointer: Pointer) -> tuple[int, int]:
        """The word in which a narrow access stands, and how far up it stands in it in bits, modulo 64."""
        known = self.known.get(pointer.base)
        three = self.constant(3)
        if known is not None and pointer.offset is not None:
            by = self.plus(pointer.offset, pointer.constant + known.place)
            return self.op("leab", pointer.base, self.op("and", by, self.constant(-8))), self.op("shl", by, three)
        address = self.exact(pointer)
        back = self.op("sub", self.constant(0), self.op("and", address, self.constant(7)))
        return self.op("lea", address, back), self.op("shl", address, three)

    def cut(self, word: int, at: int, size: int, form: str) -> int:
        """The bytes of a word from a place on, in a form."""
        bits = size * 8
        if form == SIGNED:
            above = 64 - bits - at * 8
            if above:
                word = self.op("shl", word, self.constant(above))
            return self.op("sar", word, self.constant(64 - bits))
        if at:
            word = self.op("shr", word, self.constant(at * 8))
        if form == ZEROED and at * 8 + bits < 64:
            word = self.op("and", word, self.constant((1 << bits) - 1))
        return word

    def load_pieces(self, pointer: Pointer, size: int, align: int, form: str) -> int:
        """A number that may stand across words, in pieces that do not."""
        piece = max(1, min(align, WORD))
        if size % piece:
            piece = size & -size
        found = None
        for at in range(0, size, piece):
            part_form = ZEROED if at + piece < size else form if size < WORD else RAW
            part = self.load_narrow(self.further(pointer, at), piece, piece, part_form)
            if at:
                part = self.op("shl", part, self.constant(at * 8))
            found = part if found is None else self.op("or", found, part)
        assert found is not None
        return found

    @staticmethod
    def further(pointer: Pointer, by: int) -> Pointer:
        return Pointer(pointer.base, pointer.offset, pointer.constant + by, pointer.step)

    # Narrow stores

    def store_narrow(self, pointer: Pointer, size: int, align: int, value: int, zeroed: bool = False) -> None:
        at = self.position(pointer, align)
        if at is not None and at + size <= WORD:
            self.store_word(pointer, self.put(self.load_word(pointer, at), value, at, size), at)
            return
        if align < size and not (at is not None and at % size == 0):
            self.store_pieces(pointer, size, align, value)
            return
        if size == 4:
            four, half = self.constant(4), self.constant(32)
            address = self.exact(pointer)
            self.emit("store_four", None, address, value, extra=(four, half), late=(address, value, four, half),
                      temporary=(self.code.new(), self.code.new()))
            return
        word, shift = self.word_of(pointer)
        self.emit("st", None, word, self.put_at(self.op("ld", word), shift, value, size))

    def put_at(self, word: int, shift: int, value: int, size: int) -> int:
        """A word with some of its bytes replaced, which stand so many bits up in it."""
        change = self.op("and", self.op("xor", self.op("shr", word, shift), value), self.constant((1 << 8 * size) - 1))
        return self.op("xor", word, self.op("shl", change, shift))

    def put(self, word: int, value: int, at: int, size: int) -> int:
        """A word with some of its bytes replaced."""
        bits = size * 8
        if at * 8 + bits == 64:
            up = self.constant(at * 8)
            keep = self.constant(64 - at * 8)
            low = self.op("shr", self.op("shl", word, keep), keep)
            return self.op("or", low, self.op("shl", value, up))
        old = self.op("shr", word, self.constant(at * 8)) if at else word
        change = self.op("and", self.op("xor", old, value), self.constant((1 << bits) - 1))
        if at:
            change = self.op("shl", change, self.constant(at * 8))
        return self.op("xor", word, change)

    def store_pieces(self, pointer: Pointer, size: int, align: int, value: int) -> None:
        piece = max(1, min(align, WORD))
        if size % piece:
            piece = size & -size
        for at in range(0, size, piece):
            part = self.op("shr", value, self.constant(at * 8)) if at else value
            self.store_narrow(self.further(pointer, at), piece, piece, part)

    # Any type

    def form_wanted(self, name: Optional[str]) -> str:
        return self.forms.carried(name) if name else RAW

    def load_value(self, pointer: Pointer, type_: Type, align: int, name: str) -> None:
        """Loads a value and says where it is."""
        type_ = self.layouts.plain(type_)
        if isinstance(type_, PointerType):
            self.pointers[name] = Pointer(self.load_eight(pointer, align))
        elif isinstance(type_, IntType) and type_.bits <= 64:
            register, known = self.load_integer(pointer, type_.bits, align, self.form_wanted(name))
            self.define(name, type_, register, known)
        else:
            self.groups[name] = self.load_group(pointer, type_, align, name)

    def load_group(self, pointer: Pointer, type_: Type, align: int, name: str) -> list[Value]:
        parts: list[Value] = []
        for number, (place, part) in enumerate(self.parts(type_)):
            part_name = f"{name}?{number}"
            self.load_value(self.further(pointer, place), part, min(align, place & -place or align), part_name)
            parts.append(Local(part, part_name))
        return parts

    def parts(self, type_: Type) -> list[tuple[int, Type]]:
        """The places and types of what a value in parts is made of."""
        type_ = self.layouts.plain(type_)
        if isinstance(type_, StructType):
            return list(zip(self.layouts.fields(type_), type_.fields))
        if isinstance(type_, (ArrayType, VectorType)):
            size = self.layouts.size(type_.element)
            if isinstance(type_, VectorType) and isinstance(type_.element, IntType) and type_.element.bits < 8:
                raise Untranslated("a vector of bits in memory")
            return [(size * at, type_.element) for at in range(type_.count)]
        if isinstance(type_, IntType) and 64 < type_.bits <= MOST_BITS:
            return [(at // 8, IntType(min(64, type_.bits - at))) for at in range(0, type_.bits, 64)]
        raise Untranslated(self.left_out(type_))

    @staticmethod
    def left_out(type_: Type) -> str:
        name = type(type_).__name__
        if name == "FloatType":
            return "floating point"
        if isinstance(type_, IntType):
            return f"an integer of {type_.bits} bits"
        return f"a value of the type `{type_}`"

    def load_integer(self, pointer: Pointer, bits: int, align: int, form: str) -> tuple[int, str]:
        """An integer of any width up to a word, and the forms that it has."""
        size = (bits + 7) // 8
        if size == WORD:
            register = self.load_eight(pointer, align)
            return (register, "SZ") if bits == 64 else (register, "")
        if size in (1, 2, 4) and bits == size * 8:
            return self.load_narrow(pointer, size, align, form), form if form != RAW else ""
        if bits == 1:
            return self.load_narrow(pointer, 1, align, ZEROED), ZEROED
        if size in (1, 2, 4):
            return self.load_narrow(pointer, size, align, ZEROED), ZEROED
        return self.load_pieces(pointer, size, min(align, size & -size), ZEROED), ZEROED

    def store_value(self, pointer: Pointer, value: Value, align: int) -> None:
        type_ = self.layouts.plain(value.type)
        if isinstance(type_, PointerType):
            self.store_eight(pointer, align, self.whole(self.pointer(value)))
        elif isinstance(type_, IntType) and type_.bits <= 64:
            self.store_integer(pointer, value, type_.bits, align)
        elif isinstance(value, Undefined):
            return
        else:
            places = self.parts(type_)
            for (place, _), part in zip(places, self.group(value)):
                self.store_value(self.further(pointer, place), part, min(align, place & -place or align))

    def store_integer(self, pointer: Pointer, value: Value, bits: int, align: int) -> None:
        size = (bits + 7) // 8
        register = self.number(value, RAW if bits == size * 8 else ZEROED)
        if size == WORD:
            self.store_eight(pointer, align, register)
        elif size in (1, 2, 4):
            self.store_narrow(pointer, size, align, register)
        else:
            self.store_pieces(pointer, size, min(align, size & -size), register)

    def group(self, value: Value) -> list[Value]:
        raise NotImplementedError

    def runtime(self, name: str, arguments: list[int], result: bool = False) -> int:
        raise NotImplementedError

    def load(self, made: Instruction) -> None:
        place = made.operands[0]
        if isinstance(place, Local) and place.name in self.promoted:
            self.load_promoted(made, place.name)
            return
        name = made.name or f"?{self.code.registers}"
        if self.only_asked(made):
            self.define(name, made.type, self.constant(0))
            return
        align = made.align or self.layouts.align(made.type)
        self.load_value(self.pointer(place), made.type, align, name)

    def only_asked(self, made: Instruction) -> bool:
        """Whether a load is made for `__builtin_constant_p` alone, which C does not carry out."""
        users = self.users.get(made.name or "", [])
        return isinstance(made.type, IntType) and made.type.bits <= WORD * 8 and bool(users) and all(
            isinstance(user.callee, Global) and user.callee.name.startswith("llvm.is.constant") for user in users)

    def load_promoted(self, made: Instruction, name: str) -> None:
        assert made.name is not None
        if isinstance(made.type, PointerType):
            here = self.pointers[name]
            offset = self.op("mov", here.offset) if here.offset is not None else None
            self.pointers[made.name] = Pointer(self.op("mov", here.base), offset, 0)
            return
        form = self.forms.carried(name)
        self.define(made.name, made.type, self.op("mov", self.numbers[name][RAW]), form if form != RAW else "")

    def store(self, made: Instruction) -> None:
        value, place = made.operands
        if isinstance(place, Local) and place.name in self.promoted:
            self.store_promoted(value, place.name)
            return
        self.store_value(self.pointer(place), value, made.align or self.layouts.align(value.type))

    def store_promoted(self, value: Value, name: str) -> None:
        if isinstance(value.type, PointerType):
            here, new = self.pointers[name], self.pointer(value)
            distance = self.distance(new) if here.offset is not None else None
            self.emit("mov", here.base, new.base)
            if here.offset is not None:
                self.emit("mov", here.offset, distance)
            return
        self.emit("mov", self.numbers[name][RAW], self.number(value, self.forms.carried(name)))

    # Locals

    def alloca(self, made: Instruction) -> None:
        assert made.name is not None and made.source is not None
        if made.name in self.promoted:
            return
        size = self.layouts.size(made.source)
        if made.name in self.repeated or made.operands and not hasattr(made.operands[0], "number"):
            self.dynamic_alloca(made, size)
            return
        if made.operands:
            size *= made.operands[0].number  # type: ignore[attr-defined]
        # A pointer keeps its tag in a word alone, also in a packed structure.
        align = max(made.align, WORD if self.layouts.holds_pointers(made.source) else 1)
        self.pointers[made.name] = self.local_object(made.name, size, align, self.begins.get(made.name))

    def local_object(self, name: str, size: int, align: int, begin: Optional[int] = None) -> Pointer:
        raise NotImplementedError

    def dynamic_alloca(self, made: Instruction, size: int) -> None:
        raise NotImplementedError

    repeated: set[str]
