"""Expressions that reckon, as gdb has them: `(1+2)*3`, `r3 & 0xff`, `$pc + 8`, `i * 2 < n && r1 != 0`. Their names are those that
`print` knows."""

from __future__ import annotations

import operator
import re
from typing import Callable, Iterator, Optional, Protocol, Union

from mm.machine.words import WORD_MASK, Word
from mm.names.expressions import NoAddress
from mm.names.numbers import number_of
from mm.records import dataclass


class Reader(Protocol):
    """What knows the words that an expression is made of."""

    def word(self, text: str) -> Word:
        """That of a register, a name, a variable."""

    def at(self, address: int) -> Word:
        """That at an address."""

    def place(self, text: str) -> Optional[Word]:
        """That at a name with an offset, as `box+8`; none if the name is that of a value."""

    def refuse_scaled(self, text: str) -> None:
        """Refuses a value to which C would add a number of elements."""


TOKEN = re.compile(
    r"\s*(?:(?P<NUMBER>0[xX][0-9a-fA-F_]+|0[bB][01_]+|0[oO][0-7_]+|\d[\d_]*(?!\w))|(?P<LETTER>'(?:[^'\\]|\\.)')"
    r"|(?P<NAME>\$?[A-Za-z_]\w*)|(?P<SIGN><<|>>|<=|>=|==|!=|&&|\|\||->|[-+*/%&|^~!<>()\[\].]))"
)
LETTERS = {"n": 10, "t": 9, "r": 13, "0": 0, "a": 7, "b": 8, "f": 12, "v": 11, "e": 27}
BITS = 64


def _quotient(a: int, b: int) -> int:
    """That of C: towards zero."""
    if b == 0:
        raise NoAddress("this divides by zero")
    found = abs(a) // abs(b)
    return found if (a < 0) == (b < 0) else -found


def _shifted(shift: Callable[[int, int], int]) -> Callable[[int, int], int]:
    def shifted(a: int, b: int) -> int:
        if not 0 <= b < BITS:
            raise NoAddress(f"a word is shifted by 0 to {BITS - 1}, and not by {b}")
        return shift(a, b)

    return shifted


# The signs between two values, the loosest first, with what they do to numbers that have signs.
LEVELS: tuple[dict[str, Callable[[int, int], int]], ...] = (
    {"||": lambda a, b: a != 0 or b != 0},
    {"&&": lambda a, b: a != 0 and b != 0},
    {"|": operator.or_},
    {"^": operator.xor},
    {"&": operator.and_},
    {"==": operator.eq, "!=": operator.ne},
    {"<": operator.lt, ">": operator.gt, "<=": operator.le, ">=": operator.ge},
    {"<<": _shifted(operator.lshift), ">>": _shifted(operator.rshift)},
    {"+": operator.add, "-": operator.sub},
    {"*": operator.mul, "/": _quotient, "%": lambda a, b: a - b * _quotient(a, b)},
)
COMPARISONS = ("==", "!=", "<", ">", "<=", ">=")
LOGICAL = ("&&", "||", "!")
ALONE: dict[str, Callable[[int], int]] = {"-": operator.neg, "+": operator.pos, "~": operator.invert, "!": operator.not_}


@dataclass(frozen=True)
class Leaf:
    """What is read as a whole: a number, a register, a name with what follows it, with `&` or `*` before it."""

    text: str


@dataclass(frozen=True)
class Sign:
    """A sign and what it is of: one value or two. `*` of one is the word at an address. `place` is its text if it may be a name
    with an offset."""

    sign: str
    parts: tuple[Tree, ...]
    place: str = ""


Tree = Union[Leaf, Sign]


def number_in(word: Word) -> int:
    """The number of an integer, with its sign; the address of a pointer."""
    return word.pointer.address if word.pointer else word.signed


class _Parser:
    """Reads an expression; none of its methods knows what its names are."""

    def __init__(self, text: str) -> None:
        self.text = text
        self.tokens: list[tuple[str, str]] = []
        self.places: list[tuple[int, int]] = []
        at, end = 0, len(text.rstrip())
        while at < end:
            match = TOKEN.match(text, at)
            if match is None and text[at:].lstrip().startswith("="):
                raise NoAddress(f"`{text}`: a run is looked at and never changed; `==` compares")
            if match is None or match.lastgroup is None:
                raise NoAddress(f"`{text}`: `{text[at:].strip()[:1]}` cannot stand in an expression")
            self.tokens.append((match.lastgroup, match[match.lastgroup]))
            self.places.append(match.span(match.lastgroup))
            at = match.end()
        self.at = 0

    @property
    def sign(self) -> str:
        kind, text = self.tokens[self.at] if self.at < len(self.tokens) else ("", "")
        return text if kind == "SIGN" else ""

    def want(self, sign: str) -> None:
        if self.sign != sign:
            raise NoAddress(f"`{self.text}` is not an expression: a `{sign}` is missing")
        self.at += 1

    def whole(self) -> Tree:
        found = self.level(0)
        if self.at < len(self.tokens):
            begin = self.places[self.at][0]
            raise NoAddress(f"`{self.text}` goes on after `{self.text[:begin].strip()}`")
        return found

    def level(self, at: int) -> Tree:
        if at == len(LEVELS):
            return self.unary()
        first = self.at
        found = self.level(at + 1)
        while self.sign in LEVELS[at]:
            sign, here = self.sign, self.at
            self.at += 1
            right = self.level(at + 1)
            found = Sign(sign, (found, right), self.place(first, here) if sign in "+-" else "")
        return found

    def place(self, first: int, sign: int) -> str:
        """The text from a token on, if it is a name, in which there may be a dot, and a number after the sign; else nothing."""
        kinds = [kind if kind != "SIGN" else text for kind, text in self.tokens[first : first + 3]][: sign - first]
        is_name = kinds == ["NAME"] or sign == first + 3 and kinds == ["NAME", ".", "NAME"]
        if not is_name or self.at != sign + 2 or self.tokens[sign + 1][0] != "NUMBER":
            return ""
        return self.text[self.places[first][0] : self.places[sign + 1][1]]

    def unary(self) -> Tree:
        sign = self.sign
        if sign in ALONE:
            self.at += 1
            return Sign(sign, (self.unary(),))
        if sign in ("*", "&") and not self.begins_name():
            self.at += 1
            if sign == "&":
                raise NoAddress(f"`{self.text}`: only a name has an address")
            inner = self.unary()
            is_name = isinstance(inner, Leaf) and number_of(inner.text) is None
            return Leaf(f"*{inner.text}") if is_name and isinstance(inner, Leaf) else Sign("*", (inner,))
        if sign == "(" and self.at + 1 < len(self.tokens):
            self.at += 1
            found = self.level(0)
            self.want(")")
            return found
        return self.leaf()

    def begins_name(self) -> bool:
        """Whether only signs `*` and `&` stand before a name from here on."""
        at = self.at
        while at < len(self.tokens) and self.tokens[at] in (("SIGN", "*"), ("SIGN", "&")):
            at += 1
        return at < len(self.tokens) and self.tokens[at][0] == "NAME"

    def leaf(self) -> Tree:
        """A number, a letter, or a name with its members and elements."""
        signs = ""
        while self.sign in ("*", "&"):
            signs += self.sign
            self.at += 1
        first = self.at
        if self.at == len(self.tokens):
            raise NoAddress(f"a value is missing at the end of `{self.text}`")
        kind = self.tokens[self.at][0]
        if kind == "SIGN":
            raise NoAddress(f"a value is missing before `{self.sign}` in `{self.text}`")
        self.at += 1
        while kind == "NAME" and self.sign in (".", "->", "["):
            if self.sign == "[":
                self.at += 1
                self.level(0)
                self.want("]")
            else:
                self.at += 2
        if self.at > len(self.tokens):
            raise NoAddress(f"a name is missing at the end of `{self.text}`")
        return Leaf(signs + self.text[self.places[first][0] : self.places[self.at - 1][1]])


def tree_of(text: str) -> Tree:
    """What a text means as an expression, or `NoAddress` with the reason for which it is none."""
    return _Parser(text).whole()


def reckons(text: str) -> Optional[Tree]:
    """The expression that a text is if it has a sign that reckons; none if it is a value alone, or no expression."""
    try:
        tree = tree_of(text)
    except NoAddress:
        return None
    return tree if isinstance(tree, Sign) else None


def _letter(text: str) -> Optional[int]:
    """The number of a letter in quotes."""
    inside = text[1:-1]
    if not text.startswith("'"):
        return None
    return ord(inside) if len(inside) == 1 else LETTERS.get(inside[1], ord(inside[1]))


def leaves(tree: Tree) -> Iterator[Tree]:
    """What of an expression is read as a whole."""
    if isinstance(tree, Leaf) or tree.place:
        yield tree
    else:
        for part in tree.parts:
            yield from leaves(part)


def value_in(tree: Tree, read: Reader) -> Word:
    """The word that an expression comes to. Numbers are taken modulo 2^64, with their signs where that matters, as in C."""
    if isinstance(tree, Leaf):
        number = number_of(tree.text)
        number = _letter(tree.text) if number is None else number
        return read.word(tree.text) if number is None else Word(number & WORD_MASK)
    there = read.place(tree.place) if tree.place else None
    if there is not None:
        return there
    if tree.sign in ("&&", "||"):
        first = number_in(value_in(tree.parts[0], read)) != 0
        if first == (tree.sign == "||"):
            return Word(int(first))
        return Word(int(number_in(value_in(tree.parts[1], read)) != 0))
    if tree.sign in ("+", "-"):
        for part in tree.parts:
            if isinstance(part, Leaf) and number_of(part.text) is None and _letter(part.text) is None:
                read.refuse_scaled(part.text)
    words = [value_in(part, read) for part in tree.parts]
    if len(words) == 1 and tree.sign == "*":
        return read.at(number_in(words[0]))
    if len(words) == 1:
        return Word(int(ALONE[tree.sign](number_in(words[0]))) & WORD_MASK)
    level = next(level for level in LEVELS if tree.sign in level)
    if words[0].tagged and words[1].tagged and tree.sign in ("==", "!="):
        return Word(int(level[tree.sign](words[0].bits, words[1].bits)))
    return Word(int(level[tree.sign](number_in(words[0]), number_in(words[1]))) & WORD_MASK)
