"""The words of a global: bytes put into words, and pointers."""

from __future__ import annotations

from dataclasses import dataclass, field
from typing import Callable, Union

from mm.cc.forms import bits_of
from mm.cc.ir import (
    ArrayType,
    BlockAddress,
    Expression,
    FloatNumber,
    FloatType,
    Global,
    IntType,
    Layouts,
    Number,
    Parts,
    PointerType,
    StructType,
    Text,
    Undefined,
    Value,
    VectorType,
    Zero,
)
from mm.cc.lowering import signed
from mm.cc.untranslated import Untranslated


@dataclass(frozen=True)
class Place:
    """A constant pointer: a global or a function or a block by name, and how far on."""

    target: Union[Global, BlockAddress]
    by: int


Constant = Union[int, Place]


class Constants:
    """Computes constants."""

    def __init__(self, layouts: Layouts, resolve: Callable[[Value], Value]) -> None:
        self.layouts, self.resolve = layouts, resolve

    def of(self, value: Value) -> Constant:
        value = self.resolve(value)
        if isinstance(value, Number):
            return value.number & ((1 << bits_of(value.type)) - 1) if bits_of(value.type) <= 64 else value.number
        if isinstance(value, (Zero, Undefined)):
            return 0
        if isinstance(value, (Global, BlockAddress)):
            return Place(value, 0)
        if isinstance(value, Expression):
            return self._expression(value)
        raise Untranslated(f"a constant of the type `{value.type}`")

    def _expression(self, value: Expression) -> Constant:
        op, parts = value.op, value.parts
        if op in ("bitcast", "inttoptr", "ptrtoint", "addrspacecast"):
            found = self.of(parts[0])
            return found & ((1 << bits_of(value.type)) - 1) if isinstance(found, int) else found
        if op == "getelementptr":
            return self._moved(value)
        if op in ("trunc", "zext"):
            return self._plain(self.of(parts[0])) & ((1 << bits_of(value.type)) - 1)
        if op == "sext":
            return signed(self._plain(self.of(parts[0])), bits_of(parts[0].type)) & ((1 << bits_of(value.type)) - 1)
        if op in ("add", "sub"):
            left, right = self.of(parts[0]), self.of(parts[1])
            sign = 1 if op == "add" else -1
            mask = (1 << bits_of(value.type)) - 1
            if isinstance(left, int) and isinstance(right, int):
                return left + sign * right & mask
            if isinstance(left, Place) and isinstance(right, int):
                return Place(left.target, left.by + sign * signed(right, bits_of(value.type)))
            if isinstance(right, Place) and isinstance(left, int) and op == "add":
                return Place(right.target, right.by + signed(left, bits_of(value.type)))
            if isinstance(left, Place) and isinstance(right, Place) and left.target == right.target and op == "sub":
                return left.by - right.by & mask
        raise Untranslated(f"a constant that is computed by `{op}`")

    @staticmethod
    def _plain(found: Constant) -> int:
        if isinstance(found, int):
            return found
        raise Untranslated("a part of a pointer in a constant")

    def _moved(self, value: Expression) -> Constant:
        start = self.of(value.parts[0])
        by, type_ = 0, value.source
        for number, index in enumerate(value.parts[1:]):
            assert type_ is not None
            step = signed(self._plain(self.of(index)), bits_of(index.type))
            if number == 0:
                by += step * self.layouts.size(type_)
            else:
                plain = self.layouts.plain(type_)
                if isinstance(plain, StructType):
                    place, type_ = self.layouts.inside(plain, step)
                    by += place
                else:
                    assert isinstance(plain, (ArrayType, VectorType))
                    type_ = plain.element
                    by += step * self.layouts.size(type_)
        if isinstance(start, int):
            return start + by & (1 << 64) - 1
        return Place(start.target, start.by + by)


@dataclass
class Words:
    """The words of a segment, and the pointers in it by place."""

    data: bytearray
    pointers: dict[int, Place] = field(default_factory=dict)

    def put(self, constants: Constants, value: Value, at: int) -> None:
        """Puts a constant at a place."""
        layouts = constants.layouts
        type_ = layouts.plain(value.type)
        if isinstance(value, (Zero, Undefined)):
            return
        if isinstance(value, Text):
            self.data[at : at + len(value.data)] = value.data
        elif isinstance(value, Parts):
            if isinstance(type_, StructType):
                for place, part in zip(layouts.fields(type_), value.parts):
                    self.put(constants, part, at + place)
            else:
                assert isinstance(type_, (ArrayType, VectorType))
                size = layouts.size(type_.element)
                for number, part in enumerate(value.parts):
                    self.put(constants, part, at + number * size)
        elif isinstance(type_, (IntType, PointerType)):
            found = constants.of(value)
            if isinstance(found, int):
                size = (bits_of(type_) + 7) // 8
                self.data[at : at + size] = (found & (1 << 8 * size) - 1).to_bytes(size, "little")
            elif at % 8 or bits_of(type_) != 64:
                raise Untranslated("a pointer in a constant that does not fill a word")
            else:
                self.pointers[at] = found
        elif isinstance(value, FloatNumber) or isinstance(type_, FloatType):
            raise Untranslated("floating point")
        else:
            raise Untranslated(f"a constant of the type `{value.type}`")
