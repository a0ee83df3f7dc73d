"""Variables of C as a person names them: `i`, `name[3]`, `*p`, `list->next->value`, `&where.y`."""

from __future__ import annotations

import re
from typing import Optional

from mm.debugger.arithmetic import tree_of, value_in
from mm.machine.words import Word
from mm.names.expressions import NoAddress
from mm.names.symbols import Symbols
from mm.views.cvalues import CThing, CValues

TOKEN = re.compile(r"\s*([A-Za-z_]\w*|0[xX][0-9a-fA-F]+|\d+|->|<<|>>|[][.*&()]|[-+/%|^~])")


class _Index:
    """What an index is made of: variables of C and numbers."""

    def __init__(self, text: str, values: CValues) -> None:
        self.text, self.values = text, values

    def word(self, text: str) -> Word:
        thing = c_thing(text, self.values)
        if thing is None:
            raise NoAddress(f"`{self.text}`: the index is neither a number nor a variable")
        return word_of(thing, self.values)

    def at(self, address: int) -> Word:
        raise NoAddress(f"`{self.text}`: the index is neither a number nor a variable")

    def place(self, text: str) -> Optional[Word]:
        return None

    def refuse_scaled(self, text: str) -> None:
        return None


class CExpression:
    """Reads and evaluates an expression."""

    def __init__(self, text: str, values: CValues) -> None:
        self.text, self.values = text, values
        self.tokens: list[str] = []
        at = 0
        while at < len(text.rstrip()):
            match = TOKEN.match(text, at)
            if match is None:
                raise NoAddress(f"`{text}` is not an expression of names, members (a.b, p->b), elements (a[1]) and `*`")
            self.tokens.append(match[1])
            at = match.end()
        self.at = 0

    def value(self) -> Optional[CThing]:
        """What it names; none if its first name is no variable of C."""
        found = self.unary()
        if found is not None and self.at < len(self.tokens):
            raise NoAddress(f"`{self.text}` goes on after `{' '.join(self.tokens[:self.at])}`")
        return found

    @property
    def token(self) -> str:
        return self.tokens[self.at] if self.at < len(self.tokens) else ""

    def next(self) -> str:
        self.at += 1
        return self.tokens[self.at - 1] if self.at <= len(self.tokens) else ""

    def want(self, token: str) -> None:
        if self.next() != token:
            raise NoAddress(f"`{token}` is missing in `{self.text}`")

    def unary(self) -> Optional[CThing]:
        if self.token == "*":
            self.next()
            inner = self.unary()
            return self.element(inner, 0) if inner is not None else None
        return self.postfix()

    def postfix(self) -> Optional[CThing]:
        if self.token == "(":
            self.next()
            found = self.unary()
            self.want(")")
        else:
            name = self.next()
            found, whose = self.values.found(name)
            if found is None and whose is not None:
                raise NoAddress(f"`{name}` of {whose} has no place here: it is not there yet, or not needed any more")
        while found is not None and self.token in ("[", ".", "->"):
            sign = self.next()
            if sign == "[":
                found = self.element(found, self.index())
                self.want("]")
            else:
                found = self.member(self.element(found, 0) if sign == "->" else found, self.next())
        return found

    def index(self) -> int:
        said, depth = "", 0
        while self.token and (depth or self.token != "]"):
            depth += (self.token == "[") - (self.token == "]")
            said += f"{self.next()} "
        return value_in(tree_of(said), _Index(self.text, self.values)).signed

    def element(self, thing: CThing, index: int) -> CThing:
        kind = thing.kind
        if kind.kind not in ("array", "pointer"):
            raise NoAddress(f"`{self.text}`: {thing.types.title(thing.type)} is neither an array nor a pointer")
        start = thing.address
        if kind.kind == "pointer":
            word = self.values.word(thing)
            pointer = word.pointer if word else None
            if pointer is None:
                raise NoAddress(f"`{self.text}`: the pointer is {self.values.spell(thing)}")
            start = pointer.address
        return CThing(thing.types, kind.inner, (start or 0) + index * (thing.types.size(kind.inner) or 1))

    def member(self, thing: CThing, name: str) -> CThing:
        part = next((part for part in thing.kind.fields if part.name == name), None)
        if part is None:
            has = ", ".join(part.name for part in thing.kind.fields)
            raise NoAddress(f"`{self.text}`: {thing.types.title(thing.type)} has no member `{name}`"
                            + (f"; it has {has}" if has else ""))
        return self.values.member(thing, part)


def c_thing(text: str, values: CValues) -> Optional[CThing]:
    """What an expression of C names; none if its first name is none of C."""
    text = text.strip()
    if not re.match(r"[A-Za-z_(*]", text):
        return None
    try:
        return CExpression(text, values).value()
    except NoAddress:
        first = re.search(r"[A-Za-z_]\w*", text)
        if first and (values.named(first[0]) or values.is_elsewhere(first[0])):
            raise
        return None


def no_place(text: str, symbols: Symbols, values: Optional[CValues]) -> str:
    """Why the first name of a text has no place, if it is one of C alone; else nothing."""
    first = re.search(r"[A-Za-z_]\w*", text)
    if not first or symbols.named(first[0]):
        return ""
    name, notes = first[0], symbols.all_notes()
    thing = values.named(name) if values is not None else None
    if thing is not None and thing.address is None:
        return f"`{name}` is in no memory: it is in a register, or is a constant"
    owners = {owner for known in notes for made in known.functions for owner in made.owners(name)}
    if owners:
        return f"`{name}` of {' and '.join(sorted(owners))} has no place here, where no such function is carried out"
    for path, line in symbols.c_files().items():
        if any(re.search(rf"\b{name}\b", written) for written in line.file):
            return (f"`{name}` is in {path}, but has no place: its value was put into the code that uses it, "
                    "or it is not a variable")
    return ""


def whose_is(text: str, values: CValues) -> str:
    """`, v of main` if the first name of an expression is a variable of another function than that whose line it is."""
    first = re.search(r"[A-Za-z_]\w*", text)
    whose = values.found(first[0])[1] if first else None
    return f", {first[0]} of {whose}" if first and whose is not None and whose != values.innermost else ""


def word_of(thing: CThing, values: CValues) -> Word:
    found = values.word(thing)
    if found is None:
        raise NoAddress("no page is there")
    return found
