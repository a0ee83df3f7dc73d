"""Random expressions in C, over what is in scope; C defines them with -fwrapv."""

from __future__ import annotations

import random
from dataclasses import dataclass, field
from typing import Callable

# The types of numbers: their bits, and whether they have a sign.
NARROW = {"signed char": (8, True), "unsigned char": (8, False), "short": (16, True), "unsigned short": (16, False),
          "int": (32, True), "unsigned": (32, False), "long": (64, True), "unsigned long": (64, False)}
WIDE = {"__int128": (128, True), "unsigned __int128": (128, False)}
TYPES = {**NARROW, **WIDE}
SMALL = (0, 1, 2, 3, 4, 5, 7, 8, 10, 15, 16, 31, 32, 63, 64, 100, 127, 128, 255, 256, -1, -2, -3, -7, -128, -129)
ENDS = (2**31 - 1, 2**31, 2**32 - 1, 2**32, -2**31, 2**63 - 1, -2**63 + 1, 32767, 32768, 65535, 65536,
        0x5555555555555555, 0x0123456789ABCDEF, 0x90000001, 0x80000000, -0x90000001)
DIVISORS = (2, 3, 5, 7, 8, 10, 16, 100, 127, 255, 1000)
COUNTED = ("__builtin_popcountl((unsigned long){})", "__builtin_popcount((unsigned){})",
           "__builtin_bswap32((unsigned){})", "__builtin_bswap64((unsigned long){})",
           "__builtin_bswap16((unsigned short){})", "__builtin_clzl((unsigned long){} | 1)",
           "__builtin_ctz((unsigned){} | 0x100)", "__builtin_parity((unsigned){})", "__builtin_ffsl((long){})")
MOST_DEPTH = 6


def plain(type_: str) -> str:
    return type_.replace(" ", "_")


@dataclass
class Array:
    """An array in scope: its name, the type and the number of its elements, and how it is aligned if it asks for it."""

    name: str
    type: str
    count: int
    align: int = 0


@dataclass
class Structure:
    """A structure: its name, and its fields with their types and, for arrays, their lengths."""

    name: str
    fields: list[tuple[str, str, int]]


@dataclass
class Scope:
    """What a function's text can name."""

    numbers: list[str] = field(default_factory=list)
    arrays: list[Array] = field(default_factory=list)
    pointers: list[tuple[str, Array]] = field(default_factory=list)
    structures: list[tuple[str, Structure]] = field(default_factory=list)
    names: int = 0

    def fresh(self, letter: str) -> str:
        self.names += 1
        return f"{letter}{self.names}"


class Expressions:
    """Makes expressions of a seed."""

    def __init__(self, seed: int, count: int) -> None:
        self.random, self.count, self.wide = random.Random(seed), count, seed % 2 == 0
        self.scope, self.depth = Scope(), 0
        self.structures: list[Structure] = []
        self.globals: list[str] = []
        self.helpers: list[tuple[str, str, str]] = []

    def chance(self, of: float) -> bool:
        return self.random.random() < of

    def type(self) -> str:
        return self.random.choice(list(NARROW))

    def any_type(self) -> str:
        return self.random.choice(list(WIDE)) if self.wide and self.chance(0.15) else self.type()

    # Expressions

    def literal(self) -> str:
        kind = self.random.random()
        if kind < 0.4:
            number = self.random.choice(SMALL)
        elif kind < 0.7:
            number = self.random.choice(ENDS)
        else:
            number = self.random.getrandbits(self.random.choice((8, 16, 32, 63)))
        narrow = -2**31 < number < 2**31
        endings = (["", "l"] if narrow else ["l"]) + (["u", "ul"] if narrow and number >= 0 else ["ul"] * (number >= 0))
        return f"({number}{self.random.choice(endings)})"

    def place(self) -> str:
        """Something that has a value and can be given one."""
        scope, kind = self.scope, self.random.random()
        if scope.arrays and kind < 0.3:
            array = self.random.choice(scope.arrays)
            return f"{array.name}[{self.index(array.count)}]"
        if scope.pointers and kind < 0.45:
            return self.through(*self.random.choice(scope.pointers))
        if scope.structures and kind < 0.6:
            name, made = self.random.choice(scope.structures)
            part, _, many = self.random.choice(made.fields)
            return f"{name}.{part}[{self.index(many)}]" if many else f"{name}.{part}"
        return self.random.choice(scope.numbers)

    def through(self, name: str, array: Array) -> str:
        """An element by a pointer that stands anywhere in its array."""
        kind = self.random.random()
        if kind < 0.35:
            return f"(*{name})"
        if kind < 0.7:
            return f"{name}[(long)({self.index(array.count)}) - ({name} - {array.name})]"
        return f"(*({name} + (int)((int)({self.index(array.count)}) - (int)({name} - {array.name}))))"

    def index(self, count: int) -> str:
        if count == 1:
            return "0"
        if self.depth > 3 or self.chance(0.4):
            return str(self.random.randrange(count))
        if count & (count - 1) == 0 and self.chance(0.5):
            return f"(({self.expression(1)}) & {count - 1})"
        return f"((unsigned{self.random.choice((' char', ' short', '', ' long'))})({self.expression(1)}) % {count})"

    def expression(self, depth: int) -> str:
        if depth <= 0 or self.depth >= MOST_DEPTH:
            return self.literal() if self.chance(0.25) else self.place()
        self.depth += 1
        ways: list[tuple[float, Callable[[int], str]]] = [
            (28, self.binary), (12, self.shift), (12, self.division), (10, self.comparison), (12, self.cast),
            (6, self.unary), (6, self.choice), (4, self.logic), (4, self.between_pointers), (3, self.counted),
            (3, self.helped), (2, self.turned), (2, self.aligned), (4, lambda depth: self.place())]
        way = self.random.choices([each for _, each in ways], [weight for weight, _ in ways])[0]
        text = way(depth - 1)
        self.depth -= 1
        return text

    def binary(self, depth: int) -> str:
        return f"({self.expression(depth)} {self.random.choice('+-*&|^+-')} {self.expression(depth)})"

    def shift(self, depth: int) -> str:
        type_ = self.random.choice([name for name in (TYPES if self.wide and self.chance(0.3) else NARROW)
                                    if TYPES[name][0] >= 32])
        op = self.random.choice(("<<", ">>"))
        return f"(({type_}){self.expression(depth)} {op} ({self.expression(depth)} & {TYPES[type_][0] - 1}))"

    def division(self, depth: int) -> str:
        type_ = self.any_type()
        op, name = self.random.choice((("/", "quotient"), ("%", "rest")))
        if self.chance(0.5):
            by = self.random.choice(DIVISORS + ((-3, -7, -8) if TYPES[type_][1] else ()))
            return f"(({type_}){self.expression(depth)} {op} ({type_}){by})"
        return f"{name}_{plain(type_)}(({type_}){self.expression(depth)}, ({type_}){self.expression(depth)})"

    def comparison(self, depth: int) -> str:
        return f"({self.expression(depth)} {self.random.choice(('<', '<=', '>', '>=', '==', '!='))} {self.expression(depth)})"

    def cast(self, depth: int) -> str:
        return f"(({self.type()}){self.expression(depth)})"

    def unary(self, depth: int) -> str:
        return f"({self.random.choice('-~!')}{self.expression(depth)})"

    def choice(self, depth: int) -> str:
        return f"({self.expression(depth)} ? {self.expression(depth)} : {self.expression(depth)})"

    def logic(self, depth: int) -> str:
        return f"({self.expression(depth)} {self.random.choice(('&&', '||'))} {self.expression(depth)})"

    def between_pointers(self, depth: int) -> str:
        """A comparison or a difference of pointers into one array."""
        if not self.scope.pointers:
            return self.place()
        name, array = self.random.choice(self.scope.pointers)
        other = self.random.choice([*[each for each, its in self.scope.pointers if its is array], array.name,
                                    f"({array.name} + {self.random.randint(0, array.count)})"])
        return f"({name} {self.random.choice(('<', '<=', '>', '>=', '==', '!=', '-'))} {other})"

    def counted(self, depth: int) -> str:
        return self.random.choice(COUNTED).format(self.expression(depth))

    def turned(self, depth: int) -> str:
        """A rotation, which Clang makes one operation of."""
        type_, bits = self.random.choice((("unsigned", 32), ("ul", 64), ("unsigned char", 8)))
        by = self.random.randint(1, bits - 1)
        value = self.place()
        return f"(({type_})(({type_}){value} << {by} | ({type_}){value} >> {bits - by}))"

    def aligned(self, depth: int) -> str:
        """The lower bits of the address of an element, where its array is aligned by its declaration."""
        arrays = [array for array in self.scope.arrays if array.align]
        if not arrays:
            return self.place()
        array = self.random.choice(arrays)
        return f"((ul)({array.name} + {self.index(array.count)}) & {array.align - 1})"

    def helped(self, depth: int) -> str:
        if not self.helpers:
            return self.place()
        name, first, second = self.random.choice(self.helpers)
        return f"{name}(({first}){self.expression(depth)}, ({second}){self.expression(depth)})"
