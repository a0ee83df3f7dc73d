"""Vectors, which the machine has none of: each operation is done element by element."""

from __future__ import annotations

from typing import Optional

from mm.cc.forms import ZEROED
from mm.cc.ir import Argument, FloatType, Instruction, Local, Number, Type, Undefined, Value, VectorType, Zero
from mm.cc.pointers import Pointer
from mm.cc.untranslated import Untranslated
from mm.cc.wide import WORD_TYPE
from mm.cc.wider import Wider

# What becomes of all elements of a vector: an operation, or one of LLVM's functions.
FOLDED = ("add", "mul", "and", "or", "xor")
FOLDED_BY_CALL = ("smax", "smin", "umax", "umin")


class Vectors(Wider):
    """Vectors as their elements."""

    def intrinsic(self, made: Instruction, name: str) -> None:
        _, kind, *rest = name.split(".")
        if kind == "vector" and rest[:1] == ["reduce"]:
            self.folded(made, rest[1])
        elif isinstance(made.type, VectorType) and made.name is not None:
            self.call_by_element(made, made.type.element, name)
        else:
            super().intrinsic(made, name)

    def call_by_element(self, made: Instruction, element: Type, name: str) -> None:
        """One of LLVM's functions, for each element by itself."""
        groups = [self.group(argument.value) if isinstance(argument.type, VectorType) else None for argument in made.arguments]
        parts: list[Value] = []
        for number in range(made.type.count):  # type: ignore[attr-defined]
            given = [Argument(group[number]) if group is not None else argument
                     for group, argument in zip(groups, made.arguments)]
            parts.append(self.called(f"{made.name}?{number}", element, name, given))
        self.groups[made.name or ""] = parts

    def called(self, part: str, type_: Type, name: str, given: list[Argument]) -> Value:
        self.intrinsic(Instruction("call", type_, part, arguments=given), name)
        return Local(type_, part)

    def folded(self, made: Instruction, how: str) -> None:
        """What becomes of all elements, one after the other."""
        if how not in (*FOLDED, *FOLDED_BY_CALL):
            raise Untranslated(f"LLVM's function llvm.vector.reduce.{how}")
        found, *rest = self.group(self.value_of(made, 0))
        for number, part in enumerate(rest):
            name = f"{made.name}?{number}"
            if how in FOLDED_BY_CALL:
                self.called(name, made.type, f"llvm.{how}", [Argument(found), Argument(part)])
            else:
                self.instruction(Instruction(how, made.type, name, [found, part]))
            found = Local(made.type, name)
        self.alias(made.name, found)

    def by_element(self, made: Instruction, element: Type) -> None:
        """An operation on vectors, for each element by itself."""
        assert made.name is not None
        groups = [self.group(operand) for operand in made.operands]
        parts: list[Value] = []
        for number, operands in enumerate(zip(*groups)):
            name = f"{made.name}?{number}"
            part = Instruction(made.op, element, name, list(operands), condition=made.condition)
            if made.op == "icmp":
                self.define(name, element, self.truth(part), ZEROED)
            else:
                self.instruction(part)
            parts.append(Local(element, name))
        self.groups[made.name] = parts

    def extract_element(self, made: Instruction) -> None:
        whole, at = made.operands
        if isinstance(at, (Number, Zero)):
            self.alias(made.name, self.group(whole)[at.number if isinstance(at, Number) else 0])
            return
        assert made.name is not None
        place = self.element_place(whole, at)
        self.load_value(place, made.type, self.layouts.align(made.type), made.name)

    def element_place(self, whole: Value, at: Value) -> Pointer:
        size = self.layouts.size(whole.type)
        kept = self.local_object("vector", size, 8)
        self.store_value(kept, whole, 8)
        self.kept = kept
        return self.moved(kept, self.layouts.plain(whole.type), [Zero(WORD_TYPE), at])

    def insert_element(self, made: Instruction) -> None:
        assert made.name is not None
        whole, value, at = made.operands
        if isinstance(at, (Number, Zero)):
            parts = list(self.group(whole))
            parts[at.number if isinstance(at, Number) else 0] = value
            self.groups[made.name] = parts
            return
        place = self.element_place(whole, at)
        self.store_value(place, value, self.layouts.align(value.type))
        self.load_value(self.kept, made.type, 8, made.name)

    def shuffle(self, made: Instruction) -> None:
        assert made.name is not None
        first, second, mask = made.operands
        both = [*self.group(first), *self.group(second)]
        element = both[0].type
        parts = self.group(mask)
        self.groups[made.name] = [
            Undefined(element) if isinstance(at, Undefined) else both[at.number if isinstance(at, Number) else 0]
            for at in parts
        ]

    def through_object(self, made: Instruction) -> None:
        """The same bits as another type, through an object."""
        assert made.name is not None
        operand = made.operands[0]
        for type_ in (operand.type, made.type):
            inner = type_.element if isinstance(type_, VectorType) else type_
            if isinstance(inner, FloatType):
                raise Untranslated("floating point")
        kept = self.local_object("bits", self.layouts.size(operand.type), 8)
        self.store_value(kept, operand, 8)
        self.load_value(kept, made.type, 8, made.name)

    def alias(self, name: Optional[str], value: Value) -> None:
        raise NotImplementedError


def has_floats(type_: Type) -> bool:
    return isinstance(type_, FloatType) or isinstance(type_, VectorType) and isinstance(type_.element, FloatType)
