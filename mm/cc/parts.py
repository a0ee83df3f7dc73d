"""Where parts of structures begin in a word. The optimiser cuts a structure that a function copies and looks into: a
field is a number then, and what lies between fields is an array of bytes. Such an array can have pointers in it, which
stay pointers only if it begins at the same place in a word as what was cut."""

from __future__ import annotations

from typing import Optional, Sequence, Union

from mm.cc.ir import (
    ArrayType,
    Expression,
    Function,
    Global,
    Instruction,
    IntType,
    Layouts,
    Local,
    Number,
    StructType,
    Type,
    Value,
    VectorType,
    Zero,
)
from mm.cc.pointers import ALONG

WORD = 8
COPIES = ("llvm.memcpy", "llvm.memmove")
# How many steps are made to find of what a pointer was computed.
MOST_STEPS = 40
# What a pointer was computed of, and how far that is from it, in a word.
Root = tuple[str, int]


class Parts:
    """Finds where the parts in a function begin in a word."""

    def __init__(self, function: Function, layouts: Layouts) -> None:
        self.layouts = layouts
        self.begins: dict[str, int] = {}
        instructions = [made for block in function.blocks for made in block.body]
        self.parts = {made.name: max(made.align, 1) for made in instructions if made.name and self._is_part(made)}
        if not self.parts:
            return
        self.made = {made.name: made for made in instructions if made.name is not None}
        pairs = [pair for made in instructions for pair in self._pair(made)]
        changed = True
        while changed:
            changed = False
            for one, other in [*pairs, *[(other, one) for one, other in pairs]]:
                changed = self._learn(one, other) or changed

    def _is_part(self, made: Instruction) -> bool:
        return (made.op == "alloca" and not made.operands and isinstance(made.source, ArrayType)
                and made.source.element == IntType(8) and made.source.count >= WORD and made.align < WORD)

    def _pair(self, made: Instruction) -> list[tuple[Root, Root]]:
        """What a copy is to and from, if both are found."""
        if made.op != "call" or not isinstance(made.callee, Global) or not made.callee.name.startswith(COPIES):
            return []
        found = [("", 0) if argument.align % WORD == 0 and argument.align else self._root(argument.value)
                 for argument in made.arguments[:2]]
        return [(found[0], found[1])] if found[0] is not None and found[1] is not None else []

    def _learn(self, part: Root, other: Root) -> bool:
        """Where a part begins, by what it is copied from or to. What is no part begins with a word."""
        name, place = part
        if name not in self.parts or name in self.begins or other[0] in self.parts and other[0] not in self.begins:
            return False
        begin = (self.begins.get(other[0], 0) + other[1] - place) % WORD
        if begin % self.parts[name]:
            return False
        self.begins[name] = begin
        return True

    def _root(self, value: Value) -> Optional[Root]:
        at = 0
        for _ in range(MOST_STEPS):
            made: Union[Value, Instruction, None] = value
            if isinstance(value, Local):
                made = self.made.get(value.name)
            if isinstance(made, Instruction) and made.op in ("phi", "select"):
                value = made.operands[made.op == "select"]
                continue
            if not isinstance(made, (Instruction, Expression)) or made.op not in ALONG:
                return (value.name if isinstance(value, Local) else ""), at % WORD
            inner = made.operands if isinstance(made, Instruction) else list(made.parts)
            if made.op == "getelementptr":
                by = self._distance(made.source, inner[1:])
                if by is None:
                    return None
                at += by
            value = inner[0]
        return None

    def _distance(self, source: Optional[Type], indices: Sequence[Value]) -> Optional[int]:
        """How far indices lead, but for whole words."""
        type_, at = source, 0
        for number, index in enumerate(indices):
            if type_ is None:
                return None
            known = index.number if isinstance(index, Number) else 0 if isinstance(index, Zero) else None
            if number:
                plain = self.layouts.plain(type_)
                if isinstance(plain, StructType) and known is not None:
                    place, type_ = self.layouts.inside(plain, known)
                    at += place
                    continue
                if not isinstance(plain, (ArrayType, VectorType)):
                    return None
                type_ = plain.element
            size = self.layouts.size(type_)
            if known is None and size % WORD:
                return None
            at += size * (known or 0)
        return at
