"""What a module of LLVM's text is made of: types with their sizes, constants, instructions, functions and globals."""

from __future__ import annotations

from dataclasses import dataclass, field
from typing import Any, Callable, Optional, Sequence, Union

from mm.cc.untranslated import Untranslated

WORD = 8


@dataclass(frozen=True)
class Type:
    """A type of a value or an object."""


@dataclass(frozen=True)
class IntType(Type):
    bits: int

    def __str__(self) -> str:
        return f"integer of {self.bits} bits"


@dataclass(frozen=True)
class PointerType(Type):
    def __str__(self) -> str:
        return "pointer"


@dataclass(frozen=True)
class VoidType(Type):
    """No value, also that of labels, tokens and metadata."""

    def __str__(self) -> str:
        return "void"


@dataclass(frozen=True)
class FloatType(Type):
    name: str

    def __str__(self) -> str:
        return "floating point"


@dataclass(frozen=True)
class ArrayType(Type):
    count: int
    element: Type

    def __str__(self) -> str:
        return f"array of {self.count}, each {self.element}"


@dataclass(frozen=True)
class VectorType(Type):
    count: int
    element: Type

    def __str__(self) -> str:
        return f"vector of {self.count}, each {self.element}"


@dataclass(frozen=True)
class StructType(Type):
    fields: tuple[Type, ...]
    packed: bool = False

    def __str__(self) -> str:
        return f"structure of {len(self.fields)} fields"


@dataclass(frozen=True)
class NamedType(Type):
    """A structure that the module names."""

    name: str

    def __str__(self) -> str:
        return self.name.replace(".", " ", 1)


@dataclass(frozen=True)
class FunctionType(Type):
    result: Type
    parameters: tuple[Type, ...]
    variadic: bool

    def __str__(self) -> str:
        return "function"


POINTER, VOID = PointerType(), VoidType()
FLOAT_SIZES = {"half": 2, "bfloat": 2, "float": 4, "double": 8, "x86_fp80": 16, "fp128": 16, "ppc_fp128": 16}


class Layouts:
    """Sizes, alignments and places of fields, as Clang lays them out for the target that is asked for."""

    def __init__(self, named: dict[str, Type], wide: int = 16) -> None:
        # How integers of more than 64 bits are aligned.
        self.named, self.wide = named, wide
        self.known: dict[Type, tuple[int, int]] = {}
        self.places: dict[Type, list[int]] = {}

    def plain(self, type_: Type) -> Type:
        """A type with its name looked up."""
        while isinstance(type_, NamedType):
            type_ = self.named.get(type_.name, VOID)
        return type_

    def size(self, type_: Type) -> int:
        return self._both(type_)[0]

    def align(self, type_: Type) -> int:
        return self._both(type_)[1]

    def _both(self, type_: Type) -> tuple[int, int]:
        found = self.known.get(type_)
        if found is None:
            found = self.known[type_] = self._measure(self.plain(type_))
        return found

    def _measure(self, type_: Type) -> tuple[int, int]:
        if isinstance(type_, IntType):
            size = 1
            while size * 8 < type_.bits and size < 8:
                size *= 2
            if type_.bits > 64:
                return -(-type_.bits // (8 * self.wide)) * self.wide, self.wide
            return size, size
        if isinstance(type_, PointerType):
            return WORD, WORD
        if isinstance(type_, FloatType):
            return FLOAT_SIZES[type_.name], FLOAT_SIZES[type_.name]
        if isinstance(type_, ArrayType):
            return type_.count * self.size(type_.element), self.align(type_.element)
        if isinstance(type_, VectorType):
            size = 1
            while size < type_.count * self.size(type_.element):
                size *= 2
            return size, size
        if isinstance(type_, StructType):
            return self._structure(type_)
        return 1, 1

    def _structure(self, type_: StructType) -> tuple[int, int]:
        places, at, most = [], 0, 1
        for part in type_.fields:
            align = 1 if type_.packed else self.align(part)
            at, most = -(-at // align) * align, max(most, align)
            places.append(at)
            at += self.size(part)
        self.places[type_] = places
        return -(-at // most) * most, most

    def fields(self, type_: StructType) -> list[int]:
        """The offsets of a structure's fields."""
        self._both(type_)
        return self.places[type_]

    def holds_pointers(self, type_: Optional[Type]) -> bool:
        """Whether there is a pointer in an object."""
        plain = self.plain(type_) if type_ is not None else VOID
        if isinstance(plain, StructType):
            return any(self.holds_pointers(part) for part in plain.fields)
        return self.holds_pointers(plain.element) if isinstance(plain, ArrayType) else isinstance(plain, PointerType)

    def inside(self, type_: Type, index: int) -> tuple[int, Type]:
        """The offset and the type of a part."""
        type_ = self.plain(type_)
        if isinstance(type_, StructType):
            return self.fields(type_)[index], type_.fields[index]
        if isinstance(type_, (ArrayType, VectorType)):
            return index * self.size(type_.element), type_.element
        raise Untranslated(f"a part of a value of the type `{type_}`")


@dataclass(frozen=True)
class Value:
    """What an instruction takes: its type says how."""

    type: Type


@dataclass(frozen=True)
class Local(Value):
    name: str


@dataclass(frozen=True)
class Global(Value):
    name: str


@dataclass(frozen=True)
class Number(Value):
    number: int


@dataclass(frozen=True)
class Undefined(Value):
    """A value that may be anything, also one that must not be used."""


@dataclass(frozen=True)
class Zero(Value):
    """All bits zero: the null pointer, and objects of zeros."""


@dataclass(frozen=True)
class FloatNumber(Value):
    text: str


@dataclass(frozen=True)
class Parts(Value):
    """A constant array, structure or vector."""

    parts: tuple[Value, ...]


@dataclass(frozen=True)
class Text(Value):
    """A constant array of bytes."""

    data: bytes


@dataclass(frozen=True)
class BlockAddress(Value):
    function: str
    block: str


@dataclass(frozen=True)
class Expression(Value):
    """A constant that is computed of others. `source` is the type that a getelementptr goes by."""

    op: str
    parts: tuple[Value, ...]
    source: Optional[Type] = None
    condition: str = ""


@dataclass
class Argument:
    """An operand of a call, or a parameter: its value and what is said of it."""

    value: Value
    words: frozenset[str] = frozenset()
    by_value: Optional[Type] = None

    @property
    def type(self) -> Type:
        return self.value.type

    @property
    def is_in_memory(self) -> bool:
        """Whether it is a structure, which the caller has in its frame: one that is handed over by value, or a result."""
        return self.by_value is not None or "sret" in self.words

    @property
    def align(self) -> int:
        """What is said of its alignment: that of a pointer, or of what is handed over by value."""
        return max((int(word[5:]) for word in self.words if word[:5] == "align" and word[5:].isdigit()), default=1)


@dataclass
class Instruction:
    """An instruction. What further fields mean depends on the operation."""

    op: str
    type: Type = VOID
    name: Optional[str] = None
    operands: list[Value] = field(default_factory=list)
    words: frozenset[str] = frozenset()
    source: Optional[Type] = None
    align: int = 0
    condition: str = ""
    labels: list[str] = field(default_factory=list)
    arguments: list[Argument] = field(default_factory=list)
    callee: Any = None
    signature: Optional[FunctionType] = None
    cases: list[tuple[int, str]] = field(default_factory=list)
    indices: tuple[int, ...] = ()
    debug: Optional[str] = None


@dataclass
class Block:
    name: str
    body: list[Instruction] = field(default_factory=list)


@dataclass
class Function:
    """A function; one without blocks is declared alone. Its blocks are read when they are asked for: of the library few
    are."""

    name: str
    result: Type
    parameters: list[Argument]
    variadic: bool
    internal: bool = False
    weak: bool = False
    words: frozenset[str] = frozenset()
    debug: Optional[str] = None
    read: Optional[Callable[[], list[Block]]] = None
    known: Optional[list[Block]] = None

    @property
    def blocks(self) -> list[Block]:
        if self.known is None:
            self.known = self.read() if self.read else []
        return self.known

    @property
    def defined(self) -> bool:
        return self.read is not None or bool(self.known)


@dataclass
class GlobalObject:
    """A global: an initial value where it is defined here."""

    name: str
    type: Type
    constant: bool
    value: Optional[Value]
    align: int = 1
    internal: bool = False
    weak: bool = False
    debug: Optional[str] = None


@dataclass
class Alias:
    """Another name for a function or a global."""

    value: Value
    internal: bool = False
    weak: bool = False


@dataclass
class Module:
    """A translated file."""

    name: str
    types: dict[str, Type] = field(default_factory=dict)
    globals: dict[str, GlobalObject] = field(default_factory=dict)
    functions: dict[str, Function] = field(default_factory=dict)
    aliases: dict[str, Alias] = field(default_factory=dict)
    debug: dict[str, str] = field(default_factory=dict)
    # Functions and blocks whose address is taken.
    addressed: set[tuple[str, str]] = field(default_factory=set)
    # What is wrong with functions and globals that could not be read, by name.
    unread: dict[str, str] = field(default_factory=dict)
    # Whether there is assembler text outside of functions.
    assembler: bool = False
    # How integers of more than 64 bits are aligned.
    wide: int = 16

    def layouts(self) -> Layouts:
        return Layouts(self.types, self.wide)

    def named(self, name: str) -> Union[Function, GlobalObject, Alias, None]:
        """The function, the global or the alias of a name."""
        return self.functions.get(name) or self.globals.get(name) or self.aliases.get(name)


def operands_of(instruction: Instruction) -> Sequence[Value]:
    """All values that an instruction takes, those of a call with its callee."""
    if instruction.op != "call":
        return instruction.operands
    found = [argument.value for argument in instruction.arguments]
    return [*found, instruction.callee] if isinstance(instruction.callee, Value) else found
