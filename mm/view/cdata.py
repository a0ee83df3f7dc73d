"""What a page knows of programs in C: the line of each word of code, and where variables are while it is carried out.

`places` has an entry `[address, line, state]` wherever one of the two changes, with -1 for none: the places of an entry
of `lines`, `[source, line, function]`, and of `states`, a list of variables `[name, where, type]`. A type is a list of
leaves `[name, byte, size, how, bit, bits]`; `how` is int, uint, pointer, text, other, or the names of the values of an
enumeration."""

from __future__ import annotations

from typing import Any, Iterator, Optional

from mm.machine.words import Word
from mm.names.clines import CFunction, CLine, CNotes
from mm.names.ctypes import CType, CTypes
from mm.names.symbols import Region, Symbols

MOST_LEAVES = 24
NOWHERE = "-"
Json = Any
Leaf = list[Json]


class CData:
    """Collects the tables."""

    def __init__(self, symbols: Symbols, sources: list[Json]) -> None:
        self.symbols, self.sources = symbols, sources
        self.places: list[Json] = []
        self.lines: list[Json] = []
        self.states: list[Json] = []
        self.types: list[Json] = []
        self.known: dict[Any, int] = {}
        for region in symbols.regions:
            notes = region.source.notes if region.source else None
            if notes is not None and any(notes.lines):
                self._region(region, notes)

    def form(self) -> Json:
        return {"places": self.places, "lines": self.lines, "states": self.states, "types": self.types}

    def _number(self, table: list[Json], key: Any, made: Json) -> int:
        """The place of something in a table, where it stands once."""
        if key not in self.known:
            self.known[key] = len(table)
            table.append(made)
        return self.known[key]

    def _region(self, region: Region, notes: CNotes) -> None:
        last = (-1, -1)
        for place in range(region.words + 1):
            address = region.base + 8 * place
            number = region.line_of(address) if place < region.words else None
            here = self._here(number, notes) if number else (-1, -1)
            if here != last:
                self.places.append([address, *here])
                last = here

    def _here(self, number: int, notes: CNotes) -> tuple[int, int]:
        line, function = notes.line_at(number), notes.function_at(number)
        if line is None or function is None:
            return -1, -1
        at = self._number(self.lines, (line.path, line.line, function.label, line.inner), self._line(line, function))
        state = list(self._variables(number, line.inner, function, notes))
        return at, self._number(self.states, repr(state), state) if state else -1

    def _line(self, line: CLine, function: CFunction) -> Json:
        return [self._source(line), line.line, function.inner_name(line.inner)]

    def _source(self, line: CLine) -> int:
        """The place of a file of C among the sources, to which it is added if it is still there."""
        found = next((at for at, source in enumerate(self.sources) if source["path"] == line.path), None)
        if found is None:
            found = len(self.sources)
            self.sources.append({"path": line.path, "lines": line.file, "c": 1})
        return found

    def _variables(self, number: int, inner: int, function: CFunction, notes: CNotes) -> Iterator[Json]:
        for made in function.objects:
            if made.inner == inner and made.type:
                yield [made.name, f"*f{made.at}:{made.log}", self._type(made.type, notes.types)]
        for variable in function.variables_at(number):
            if variable.inner == inner:
                yield [variable.name, self._where(variable.where, notes), self._type(variable.type, notes.types)]

    def _where(self, where: str, notes: CNotes) -> str:
        """A place, with the pointers of globals as words."""
        star, terms = ("*", where[1:]) if where.startswith("*") else ("", where)
        found = [self._global(term[1:], notes) if term.startswith("@") else term for term in terms.split("+")]
        return star + "+".join(found)

    def _global(self, name: str, notes: CNotes) -> str:
        pointer = self.symbols.c_pointer(name, notes)
        return str(Word(pointer.bits, True)) if pointer else NOWHERE

    def _type(self, number: int, types: CTypes) -> int:
        found = leaves(number, types)[:MOST_LEAVES]
        return self._number(self.types, ("type", repr(found)), found)


def leaves(number: int, types: CTypes, name: str = "", at: int = 0) -> list[Leaf]:
    """What a type is made of, as far as it is shown."""
    found = types.get(number)
    if found is None:
        return [[name, at, 8, "int", 0, 0]]
    if found.kind in ("struct", "union"):
        parts: list[Leaf] = []
        for part in found.fields:
            if part.bits is None:
                parts += leaves(part.type, types, f"{name}.{part.name}", at + part.at // 8)
            else:
                size, how = types.size(part.type), how_of(types.get(part.type))
                parts.append([f"{name}.{part.name}", at + part.at // 8, size, how, part.at % 8, part.bits])
        return parts
    if found.kind == "array":
        inner, size = types.get(found.inner), types.size(found.inner)
        if inner is not None and inner.kind == "base" and inner.size == 1:
            return [[name, at, found.count, "text", 0, 0]]
        return [leaf for place in range(min(found.count, MOST_LEAVES))
                for leaf in leaves(found.inner, types, f"{name}[{place}]", at + place * size)]
    return [[name, at, found.size, how_of(found), 0, 0]]


def how_of(type_: Optional[CType]) -> Json:
    """How a number or a pointer is written."""
    if type_ is None:
        return "int"
    if type_.kind == "enum":
        return {str(number): name for number, name in type_.values.items()}
    return "pointer" if type_.kind == "pointer" else "other" if type_.floating else "int" if type_.signed else "uint"


def c_form(symbols: Symbols, sources: list[Json]) -> Optional[Json]:
    """The tables of an image with programs in C; none of another one. Files of C are added to the sources."""
    found = CData(symbols, sources).form()
    return found if found["places"] else None
