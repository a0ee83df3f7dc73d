"""Where pointers come from: which have the same base, and which stand at it."""

from __future__ import annotations

from dataclasses import dataclass
from typing import Optional, Union

from mm.cc.ir import (
    Block,
    Expression,
    Function,
    Global,
    Instruction,
    IntType,
    Layouts,
    Local,
    Number,
    PointerType,
    Type,
    Undefined,
    Value,
    Zero,
)

# The base of a value: a name of the function, or a global with `@`, or `null`; none while nothing is known.
Base = Optional[str]
ALONG = ("getelementptr", "bitcast", "freeze", "addrspacecast")


@dataclass(frozen=True)
class Pointer:
    """A pointer of C: a guarded pointer, and how far from it in bytes: a register with a number, a multiple of
    `step`, and a constant."""

    base: int
    offset: Optional[int] = None
    constant: int = 0
    step: int = 1

    @property
    def at_base(self) -> bool:
        return self.offset is None and not self.constant


@dataclass(frozen=True)
class Known:
    """What is known of the object at a base: where it stands in its segment, the segment's length, and its frame
    object if it has one."""

    place: int
    log: int
    local: Union[int, None] = None


class Bases:
    """Finds bases before code is made. Loops keep one base where the pointer only moves in an object."""

    def __init__(self, function: Function, layouts: Layouts, promoted: dict[str, Type]) -> None:
        self.layouts = layouts
        self.made: dict[str, Instruction] = {}
        self.several: dict[str, list[Value]] = {
            name: [] for name, type_ in promoted.items() if isinstance(type_, PointerType)
        }
        for block in function.blocks:
            for made in block.body:
                if made.name is not None and isinstance(made.type, PointerType):
                    self.made[made.name] = made
                    if made.op == "phi":
                        self.several[made.name] = made.operands
                    elif made.op == "select":
                        self.several[made.name] = made.operands[1:]
                if made.op == "store" and isinstance(made.operands[1], Local) and made.operands[1].name in promoted:
                    if isinstance(made.operands[0].type, PointerType):
                        self.several[made.operands[1].name].append(made.operands[0])
        self.promoted = promoted
        # Constants that are bases, as the address of a label is.
        self.constants: dict[str, Value] = {}
        self.base = self._find_bases()
        self.moved = self._find_moved()

    def _find_bases(self) -> dict[str, Base]:
        base: dict[str, Base] = {name: None for name in self.several}
        for name in self.promoted:
            if name in base:
                base[name] = name
        while True:
            self._settle(base)
            unknown = [name for name, found in base.items() if found is None]
            if not unknown:
                return base
            for name in unknown:
                base[name] = name

    def _settle(self, base: dict[str, Base]) -> None:
        """Gives each value the one base of what it comes from, or itself, until nothing changes."""
        changed = True
        while changed:
            changed = False
            for name, values in self.several.items():
                if base[name] == name:
                    continue
                found = {self._base_of(value, base) for value in values} - {None}
                new = found.pop() if len(found) == 1 else name if found else None
                if new in self.made and any(isinstance(value, Undefined) for value in values):
                    # A value of a loop is another one in each turn: on the way that brings none, it may be made later.
                    new = name
                if new != base[name]:
                    if base[name] is not None:
                        new = name
                    base[name] = new
                    changed = True

    def _base_of(self, value: Value, base: dict[str, Base]) -> Base:
        while True:
            if isinstance(value, Local):
                if value.name in base:
                    return base[value.name]
                made = self.made.get(value.name)
                if made is None:
                    return value.name
                if made.op in ALONG and isinstance(made.operands[0].type, PointerType):
                    value = made.operands[0]
                    continue
                if made.op == "load":
                    place = made.operands[0]
                    if isinstance(place, Local) and place.name in self.promoted:
                        return value.name
                return value.name
            if isinstance(value, Global):
                return "@" + value.name
            if isinstance(value, Expression) and value.op in ALONG:
                value = value.parts[0]
                continue
            if isinstance(value, Zero):
                return "null"
            if isinstance(value, Undefined):
                return None
            key = f"?{id(value)}"
            self.constants[key] = value
            return key

    def _find_moved(self) -> set[str]:
        """The values that come from several places and may stand elsewhere than at their base."""
        moved: set[str] = set()
        changed = True
        while changed:
            changed = False
            for name, values in self.several.items():
                if name not in moved and any(self.moves(value, moved) for value in values):
                    moved.add(name)
                    changed = True
        return moved

    def moves(self, value: Value, moved: Optional[set[str]] = None) -> bool:
        moved = self.moved if moved is None else moved
        while True:
            if isinstance(value, Local):
                if value.name in self.several:
                    return value.name in moved
                made = self.made.get(value.name)
                if made is None:
                    return False
                if made.op == "getelementptr":
                    if any(not (isinstance(index, Number) and not index.number) for index in made.operands[1:]):
                        return True
                    value = made.operands[0]
                    continue
                if made.op in ALONG and isinstance(made.operands[0].type, PointerType):
                    value = made.operands[0]
                    continue
                if made.op == "load":
                    place = made.operands[0]
                    return isinstance(place, Local) and place.name in moved
                return made.op == "inttoptr"
            if isinstance(value, Expression):
                return value.op != "bitcast" or self.moves(value.parts[0], moved)
            return False


def promotable(function: Function) -> dict[str, Type]:
    """Locals of one number or pointer whose address is not taken: they live in registers, whatever the level of
    optimisation."""
    if any(is_twice(made) for block in function.blocks for made in block.body):
        return {}
    found: dict[str, Type] = {}
    for block in function.blocks:
        for made in block.body:
            if made.op == "alloca" and not made.operands and made.name and _plain(made.source):
                found[made.name] = made.source  # type: ignore[assignment]
    for block in function.blocks:
        for made in block.body:
            for value in _stay_in_memory(made):
                if isinstance(value, Local):
                    found.pop(value.name, None)
            if made.op in ("load", "store"):
                place = made.operands[-1]
                type_ = made.type if made.op == "load" else made.operands[0].type
                if isinstance(place, Local) and place.name in found and (
                    found[place.name] != type_ or "volatile" in made.words
                ):
                    found.pop(place.name)
    return found


def read_unset(blocks: list[Block], promoted: dict[str, Type]) -> list[str]:
    """The numbers among these locals that may be read before they are set, given the blocks that can be reached, the
    first of them first."""
    names = {name for name, type_ in promoted.items() if isinstance(type_, IntType)}
    may_be_unset: dict[str, set[str]] = {blocks[0].name: set(names)}
    by_name = {block.name: block for block in blocks}
    found: set[str] = set()
    work = [blocks[0].name]
    while work:
        block = by_name[work.pop()]
        unset = set(may_be_unset[block.name])
        for made in block.body:
            place = made.operands[-1] if made.op in ("load", "store") else None
            if isinstance(place, Local) and place.name in unset:
                if made.op == "load":
                    found.add(place.name)
                else:
                    unset.discard(place.name)
        last = block.body[-1]
        for label in [*last.labels, *[label for _, label in last.cases]]:
            before = may_be_unset.get(label)
            if before is None or not unset <= before:
                may_be_unset[label] = unset | (before or set())
                work.append(label)
    return [name for name in promoted if name in found]


def _plain(type_: Optional[Type]) -> bool:
    return isinstance(type_, PointerType) or isinstance(type_, IntType) and type_.bits <= 64


def is_twice(made: Instruction) -> bool:
    """Whether it is a call of `setjmp`."""
    return made.op == "call" and isinstance(made.callee, Global) and made.callee.name in ("setjmp", "_setjmp")


def _stay_in_memory(made: Instruction) -> list[Value]:
    """The values of an instruction that must be there as pointers, if they are locals."""
    if made.op == "load":
        return []
    if made.op == "store":
        return made.operands[:1]
    if made.op == "call":
        if isinstance(made.callee, Global) and made.callee.name.startswith(("llvm.dbg", "llvm.lifetime")):
            return []
        return [argument.value for argument in made.arguments] + (
            [made.callee] if isinstance(made.callee, Value) else []
        )
    return made.operands
