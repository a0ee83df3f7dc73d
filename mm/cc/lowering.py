"""From the instructions of a function to operations of the machine."""

from __future__ import annotations

from typing import Optional, Sequence

from mm.cc.code import Code, CodeBlock, Fixed, Op, Variable
from mm.cc.forms import RAW, SIGNED, ZEROED, Forms, bits_of
from mm.cc.ir import (
    ArrayType,
    BlockAddress,
    Expression,
    FloatNumber,
    FloatType,
    Function,
    Global,
    Instruction,
    Layouts,
    Local,
    Number,
    PointerType,
    StructType,
    Type,
    Undefined,
    Value,
    VectorType,
    Zero,
)
from mm.cc.parts import Parts
from mm.cc.pointers import Bases, Known, Pointer, promotable
from mm.cc.untranslated import Untranslated

MASK = (1 << 64) - 1
# What computes an integer of others that may have been pointers; how far back that is followed, and up to which mask an
# `and` leaves the lowest bits alone.
COMPUTED = {"add", "sub", "and", "or", "xor", "shl", "lshr", "mul", "udiv", "freeze"}
MOST_STEPS, MOST_MARKS = 8, 1 << 16


def signed(number: int, bits: int) -> int:
    number &= (1 << bits) - 1
    return number - (1 << bits) if number >> (bits - 1) else number


class Names:
    """What the functions of a program share: labels, and what is known of each global. Names are those of the
    function's module."""

    def label(self, name: str) -> str:
        """The label of a function, which is then part of the program."""
        raise NotImplementedError

    def fresh(self) -> str:
        """A new label."""
        raise NotImplementedError

    def is_door(self, name: str) -> bool:
        """Whether it is a door, of this program or of another one. A pointer to it is an enter pointer."""
        raise NotImplementedError

    def door(self, name: str, arguments: int) -> Optional[str]:
        """The label by which a door of another program is entered with so many arguments; none of what is no such door."""
        raise NotImplementedError

    def through_pointer(self, arguments: int, variadic: bool, stays: bool) -> str:
        """The label by which a call with so many arguments goes through a pointer; an empty one if it simply jumps there.
        What stays in the program can go to no other one."""
        raise NotImplementedError

    def is_function(self, name: str) -> bool:
        raise NotImplementedError

    def function(self, name: str) -> Optional[Function]:
        raise NotImplementedError

    def segment(self, name: str) -> tuple[str, Known]:
        """The segment of a global, which is then part of the program."""
        raise NotImplementedError

    def resolve(self, value: Value) -> Value:
        """What an alias stands for."""
        raise NotImplementedError

    def declare(self, name: str, variable: Variable) -> None:
        """A global that is a variable of a function, as an array that is never changed."""
        raise NotImplementedError


class Lowering:
    """Makes the code of one function: registers for its values, blocks, and the ends of blocks. Its parts are in
    other modules."""

    def __init__(self, function: Function, layouts: Layouts, names: Names, at_end: bool) -> None:
        self.function, self.layouts, self.names, self.at_end = function, layouts, names, at_end
        self.promoted = promotable(function)
        self.forms = Forms(function, self.promoted)
        self.bases = Bases(function, layouts, self.promoted)
        # Where parts of structures begin in a word.
        self.begins = Parts(function, layouts).begins
        self.code = Code(function.name, names.label(function.name))
        self.numbers: dict[str, dict[str, int]] = {}
        self.pointers: dict[str, Pointer] = {}
        self.groups: dict[str, list[Value]] = {}
        self.known: dict[int, Known] = {}
        self.fixed: dict[Fixed, int] = {}
        self.uses: dict[str, int] = {}
        self.line: Optional[str] = None
        self.block = CodeBlock(self.code.label)
        self.labels = {block.name: names.fresh() for block in function.blocks}
        self.variadic_words: Optional[int] = None
        # Objects for arguments that are handed over by value, by size, alignment and place in a call.
        self.copies: dict[tuple[int, int, int], Pointer] = {}
        self.copied = 0
        self.made = {made.name: made for block in function.blocks for made in block.body if made.name}
        self.users: dict[str, list[Instruction]] = {}
        for block in function.blocks:
            for made in block.body:
                for value in [*made.operands, *[argument.value for argument in made.arguments]]:
                    if isinstance(value, Local):
                        self.users.setdefault(value.name, []).append(made)

    # Operations

    def emit(self, name: str, d: Optional[int] = None, a: Optional[int] = None, b: Optional[int] = None,
             number: int = 0, extra: object = None, late: tuple[int, ...] = (), temporary: tuple[int, ...] = ()) -> Op:
        made = Op(name, d, a, b, number, extra, late, temporary)
        made.line = self.line
        self.block.body.append(made)
        return made

    def op(self, name: str, a: Optional[int] = None, b: Optional[int] = None, number: int = 0,
           extra: object = None) -> int:
        """An operation with a new register for its result."""
        d = self.code.new()
        self.emit(name, d, a, b, number, extra)
        return d

    def fix(self, fixed: Fixed) -> int:
        found = self.fixed.get(fixed)
        if found is None:
            found = self.fixed[fixed] = self.code.new()
            self.code.fixed[found] = fixed
        return found

    def constant(self, number: int) -> int:
        return self.fix(Fixed("int", signed(number, 64)))

    # Numbers

    def number(self, value: Value, form: str = RAW) -> int:
        """The register of a number in a form."""
        bits = bits_of(value.type)
        if isinstance(value, Number):
            return self.constant(value.number & ((1 << bits) - 1) if form == ZEROED or bits == 1 and form == RAW
                                 else signed(value.number, bits))
        if isinstance(value, (Zero, Undefined)):
            return self.constant(0)
        if isinstance(value, Local):
            if isinstance(value.type, PointerType):
                return self.whole(self.pointer(value))
            if isinstance(value.type, FloatType):
                raise Untranslated("floating point")
            have = self.numbers.get(value.name)
            if have is None:
                raise Untranslated(f"a value of the type `{value.type}`")
            if form in have:
                return have[form]
            return self.converted(have[RAW], bits, form)
        if isinstance(value, Expression):
            return self._number_of_expression(value, form)
        if isinstance(value.type, PointerType):
            return self.whole(self.pointer(value))
        if isinstance(value, FloatNumber):
            raise Untranslated("floating point")
        raise Untranslated(f"a constant of the type `{value.type}`")

    def _number_of_expression(self, value: Expression, form: str) -> int:
        if isinstance(value.type, PointerType):
            return self.whole(self.pointer(value))
        name = f"?{len(self.numbers)}"
        made = Instruction(value.op, value.type, name, list(value.parts), source=value.source)
        made.condition = value.condition
        self.instruction(made)
        return self.number(Local(value.type, name), form)

    def converted(self, register: int, bits: int, form: str) -> int:
        if bits >= 64 or form == RAW:
            return register
        if form == ZEROED:
            return self.op("and", register, self.constant((1 << bits) - 1))
        if bits == 1:
            return self.op("sub", self.constant(0), self.op("and", register, self.constant(1)))
        by = self.constant(64 - bits)
        return self.op("sar", self.op("shl", register, by), by)

    def define(self, name: Optional[str], type_: Type, register: int, known: str = "") -> None:
        """Says where a value is, and in which forms it stands there; those that its uses want are made now."""
        if name is None:
            return
        bits = bits_of(type_)
        have = {RAW: register}
        if bits >= 64:
            have = {RAW: register, SIGNED: register, ZEROED: register}
        for form in known:
            have[form] = register
        for form in self.forms.of(name):
            if form not in have:
                have[form] = self.converted(register, bits, form)
        self.numbers[name] = have

    # Pointers

    def pointer(self, value: Value) -> Pointer:
        value = self.names.resolve(value)
        if isinstance(value, Local):
            found = self.pointers.get(value.name)
            if found is None:
                if value.name in self.numbers:
                    return Pointer(self.numbers[value.name][RAW])
                raise Untranslated(f"the pointer %{value.name}")
            return found
        if isinstance(value, Global):
            return self.global_pointer(value.name)
        if isinstance(value, (Zero, Undefined)):
            return Pointer(self.constant(0))
        if isinstance(value, Number):
            return Pointer(self.constant(value.number))
        if isinstance(value, BlockAddress):
            return Pointer(self.fix(Fixed("text", 0, self.labels[value.block]
                                          if value.function == self.function.name and value.block in self.labels
                                          else self.foreign_block(value))))
        if isinstance(value, Expression):
            if value.op == "getelementptr":
                return self.moved(self.pointer(value.parts[0]), value.source, value.parts[1:])
            if value.op in ("bitcast", "addrspacecast"):
                return self.pointer(value.parts[0])
            if value.op == "inttoptr":
                return self.pointer_of_number(value.parts[0])
            name = f"?{len(self.pointers)}p"
            made = Instruction(value.op, value.type, name, list(value.parts), condition=value.condition)
            self.instruction(made)
            return self.pointer(Local(value.type, name))
        raise Untranslated(f"a constant of the type `{value.type}`")

    def foreign_block(self, value: BlockAddress) -> str:
        raise Untranslated("a label of another function")

    def global_pointer(self, name: str) -> Pointer:
        if self.names.is_function(name) and not self.names.is_door(name):
            return Pointer(self.fix(Fixed("text", 0, self.names.label(name))))
        segment, known = self.names.segment(name)
        base = self.fix(Fixed("global", 0, segment))
        self.known[base] = known
        return Pointer(base)

    def moved(self, start: Pointer, source: Optional[Type], indices: tuple[Value, ...] | list[Value]) -> Pointer:
        """A pointer that goes by indices into a type."""
        constant, offset, step = start.constant, start.offset, start.step
        type_ = source
        for number, index in enumerate(indices):
            if type_ is None:
                raise Untranslated("a pointer without its type")
            if number:
                plain = self.layouts.plain(type_)
                if isinstance(plain, StructType):
                    if not isinstance(index, (Number, Zero)):
                        raise Untranslated("a field without its number")
                    place, type_ = self.layouts.inside(plain, index.number if isinstance(index, Number) else 0)
                    constant += place
                    continue
                if not isinstance(plain, (ArrayType, VectorType)):
                    raise Untranslated(f"a part of a value of the type `{plain}`")
                type_ = plain.element
            size = self.layouts.size(type_)
            if isinstance(index, (Number, Zero)):
                constant += size * (signed(index.number, bits_of(index.type)) if isinstance(index, Number) else 0)
                continue
            if isinstance(index, Undefined) or not size:
                continue
            by = self.scaled(self.number(index, SIGNED), size)
            low = size & -size
            offset, step = (by, low) if offset is None else (self.op("add", offset, by), min(step, low))
        constant = signed(constant, 64)
        return Pointer(start.base, offset, constant, step)

    def scaled(self, index: int, size: int) -> int:
        if size == 1:
            return index
        if size & (size - 1) == 0:
            return self.op("shl", index, self.constant(size.bit_length() - 1))
        return self.op("mul", index, self.constant(size))

    def plus(self, register: int, number: int) -> int:
        """A sum with a constant, as an integer."""
        if not number:
            return register
        if -(1 << 31) <= number < 1 << 31:
            return self.op("addi", register, number=number)
        return self.op("add", register, self.constant(number))

    def distance(self, pointer: Pointer) -> int:
        """How far a pointer is from its base, in a register."""
        if pointer.offset is None:
            return self.constant(pointer.constant)
        return self.plus(pointer.offset, pointer.constant)

    def bits(self, pointer: Pointer) -> int:
        """The 64 bits of a pointer, for comparisons and sums; a tag is lost where it is not at its base."""
        if pointer.at_base:
            return pointer.base
        if pointer.offset is None:
            return self.plus(pointer.base, pointer.constant)
        return self.plus(self.op("add", pointer.base, pointer.offset), pointer.constant)

    def whole(self, pointer: Pointer) -> int:
        """A pointer as one word: guarded while it is in its segment, else its bits as an integer, which nothing can
        be done with but to compare it."""
        if pointer.at_base:
            return pointer.base
        known = self.known.get(pointer.base)
        if pointer.offset is None and known is not None:
            if 0 <= known.place + pointer.constant < 1 << known.log:
                return self.op("leai", pointer.base, number=pointer.constant)
            return self.plus(pointer.base, pointer.constant)
        d, by, shift = self.code.new(), self.distance(pointer), self.constant(54)
        self.emit("guarded", d, pointer.base, by, extra=(shift,), late=(pointer.base, by, shift),
                  temporary=(self.code.new(), self.code.new()))
        return d

    def pointer_of_number(self, value: Value) -> Pointer:
        """A pointer of an integer. Where the integer was computed of one pointer of this function, it is that
        pointer, moved."""
        start = self._leaf(value)
        if start is None:
            return Pointer(self.number(value, ZEROED))
        here = self.pointer(start)
        if self._origin(value)[0] == "ptrtoint":
            return here
        return Pointer(here.base, self.op("sub", self.number(value, ZEROED), here.base))

    def _origin(self, value: Value) -> tuple[str, Sequence[Value], Optional[Instruction]]:
        """What makes a value in this function: the operation, its operands, and its instruction if it has one."""
        if isinstance(value, Expression):
            return value.op, value.parts, None
        made = self.made.get(value.name) if isinstance(value, Local) else None
        return (made.op, made.operands, made) if made is not None else ("", (), None)

    def _leaf(self, value: Value, depth: int = MOST_STEPS) -> Optional[Value]:
        """The pointer that an integer was computed of, the first of several. A distance of two pointers and the lowest
        bits of one are computed of none."""
        op, operands, made = self._origin(value)
        if op == "ptrtoint":
            return operands[0] if bits_of(value.type) == 64 else None
        if made is not None and op in ("load", "phi") and depth:
            return self._leaf_of_several(made, depth)
        if op not in COMPUTED or not depth:
            return None
        found = [leaf for leaf in (self._leaf(operand, depth - 1) for operand in operands) if leaf is not None]
        marks = op == "and" and isinstance(operands[1], Number) and 0 <= operands[1].number < MOST_MARKS
        return found[0] if found and not marks and (op != "sub" or len(found) == 1) else None

    def _leaf_of_several(self, made: Instruction, depth: int) -> Optional[Value]:
        """The same of a variable that lives in a register, or of a value of a loop: of what it is given, all but one are
        computed of itself."""
        name = self._variable(made)
        given = made.operands if made.op == "phi" else self.forms.stored.get(name, [])
        others = list(dict.fromkeys(each for each in given if not self._is_of(each, name, depth)))
        leaf = self._leaf(others[0], depth - 1) if len(others) == 1 else None
        return None if isinstance(leaf, Local) and leaf.name not in self.pointers else leaf

    @staticmethod
    def _variable(made: Instruction) -> str:
        """The name of the variable that is read, or of the value of a loop."""
        place = made.operands[0] if made.op == "load" else None
        return place.name if isinstance(place, Local) else made.name or ""

    def _is_of(self, value: Value, name: str, depth: int) -> bool:
        """Whether an integer is computed of a variable."""
        op, operands, made = self._origin(value)
        if made is not None and op in ("load", "phi"):
            return self._variable(made) == name
        return op in COMPUTED and depth > 0 and any(self._is_of(operand, name, depth - 1) for operand in operands)

    def instruction(self, made: Instruction) -> None:
        raise NotImplementedError
