"""Values in parts, and objects of the frame."""

from __future__ import annotations

from typing import Optional

from mm.cc.code import Fixed, LocalObject, log_of, place_in
from mm.cc.forms import RAW, ZEROED
from mm.cc.ir import (
    Expression,
    FloatType,
    Instruction,
    IntType,
    Local,
    Number,
    Parts,
    PointerType,
    Text,
    Undefined,
    Value,
    Zero,
)
from mm.cc.pointers import Known, Pointer
from mm.cc.untranslated import Untranslated
from mm.cc.vectors import Vectors

WORD = 8


class Objects(Vectors):
    """What is made of several words."""

    def group(self, value: Value) -> list[Value]:
        if isinstance(value, Local):
            found = self.groups.get(value.name)
            if found is None:
                raise Untranslated(self.left_out(value.type))
            return found
        if isinstance(value, Parts):
            return list(value.parts)
        if isinstance(value, Number):
            return [Number(kind, value.number >> 8 * at) for at, kind in self.parts(value.type)]
        if isinstance(value, Expression):
            name = f"?{len(self.groups)}g"
            self.instruction(Instruction(value.op, value.type, name, list(value.parts), source=value.source,
                                         condition=value.condition))
            return self.groups[name]
        kinds = [part for _, part in self.parts(value.type)]
        if isinstance(value, Text):
            return [Number(kind, byte) for kind, byte in zip(kinds, value.data)]
        if isinstance(value, Zero):
            return [Number(kind, 0) if isinstance(kind, IntType) else Zero(kind) for kind in kinds]
        if isinstance(value, Undefined):
            return [Undefined(kind) for kind in kinds]
        raise Untranslated(f"a constant of the type `{value.type}`")

    def extract(self, made: Instruction) -> None:
        value: Value = made.operands[0]
        for index in made.indices:
            value = self.group(value)[index]
        made.type = self.layouts.plain(value.type)
        self.alias(made.name, value)

    def alias(self, name: Optional[str], value: Value) -> None:
        """Another name for a value."""
        if name is None:
            return
        type_ = self.layouts.plain(value.type)
        if isinstance(type_, PointerType):
            self.pointers[name] = self.pointer(value)
        elif isinstance(type_, IntType) and type_.bits <= 64:
            if isinstance(value, Local):
                self.numbers[name] = self.numbers[value.name]
            else:
                self.define(name, type_, self.number(value, RAW))
        elif isinstance(type_, FloatType):
            raise Untranslated("floating point")
        else:
            self.groups[name] = self.group(value)

    def insert(self, made: Instruction) -> None:
        assert made.name is not None
        self.groups[made.name] = self.replaced(self.group(made.operands[0]), made.operands[1], made.indices)

    def replaced(self, parts: list[Value], value: Value, indices: tuple[int, ...]) -> list[Value]:
        parts = list(parts)
        if len(indices) == 1:
            parts[indices[0]] = value
        else:
            raise Untranslated("a part of a part")
        return parts

    # Objects of the frame

    def local_object(self, name: str, size: int, align: int, begin: Optional[int] = None) -> Pointer:
        """An object of the frame; one that is a part of another one begins at a certain place in a word."""
        log = max(log_of(size), (align - 1).bit_length() if align > 1 else 0)
        place = place_in(size, align, log, self.at_end)
        if begin is not None and place % WORD != begin:
            log += (1 << log) < size + begin
            place = (1 << log) - size - ((1 << log) - size - begin) % WORD
        made = LocalObject(name, size, align, log, place)
        self.code.objects.append(made)
        base = self.fix(Fixed("local", len(self.code.objects) - 1))
        self.known[base] = Known(made.place, log, len(self.code.objects) - 1)
        return Pointer(base)

    def dynamic_alloca(self, made: Instruction, size: int) -> None:
        assert made.name is not None
        self.code.dynamic = True
        count = self.number(made.operands[0], ZEROED) if made.operands else self.constant(1)
        total = self.scaled(count, size) if size else self.constant(0)
        if made.align > WORD:
            # It ends at the end of its segment, so it begins at a multiple of what its size is a multiple of.
            total = self.op("and", self.plus(total, made.align - 1), self.constant(-made.align))
        log = self.runtime("__mm_log_of_array", [total], True)
        d = self.code.new()
        self.emit("dynamic", d, log, total, late=(log, total), temporary=(self.code.new(), self.code.new()))
        self.pointers[made.name] = Pointer(d)
