"""Types of C as the translator tells them: of each its kind, its size, and what it is made of."""

from __future__ import annotations

from typing import Mapping, Optional

from mm.records import dataclass, field

POINTER_BYTES = 8


@dataclass(frozen=True)
class CField:
    """A member of a structure: its place in bits, its type, and its bits if it is a bit-field."""

    name: str
    at: int
    type: int
    bits: Optional[int] = None


@dataclass(frozen=True)
class CType:
    """A type: `kind` is base, enum, pointer, array, struct or union."""

    kind: str
    name: str = ""
    size: int = 0
    signed: bool = False
    floating: bool = False
    inner: int = 0
    count: int = 0
    fields: tuple[CField, ...] = ()
    values: Mapping[int, str] = field(default_factory=dict)


def read_type(words: list[str]) -> CType:
    """A type of the words of its comment after the number."""
    kind = words[0]
    if kind == "pointer":
        return CType(kind, size=POINTER_BYTES, inner=int(words[1]))
    if kind == "array":
        return CType(kind, count=int(words[1]), inner=int(words[2]))
    if kind in ("struct", "union"):
        return CType(kind, words[2], int(words[1]), fields=tuple(map(_field, words[3:])))
    letter, size = words[1][0], int(words[1][1:])
    if kind == "enum":
        pairs = [value.split("=") for value in words[3:]]
        return CType(kind, words[2], size, letter == "i", values={int(number): name for name, number in pairs})
    return CType(kind, " ".join(words[2:]), size, letter == "i", letter == "x")


def _field(text: str) -> CField:
    name, at, type_, *bits = text.split(":")
    return CField(name, int(at), int(type_), int(bits[0]) if bits else None)


class CTypes:
    """The types of a source, by their numbers; 0 is one of which nothing is known."""

    def __init__(self) -> None:
        self.types: dict[int, CType] = {}

    def add(self, words: list[str]) -> None:
        self.types[int(words[0])] = read_type(words[1:])

    def get(self, number: int) -> Optional[CType]:
        return self.types.get(number)

    def size(self, number: int) -> int:
        found = self.get(number)
        if found is None:
            return 0
        return found.count * self.size(found.inner) if found.kind == "array" else found.size

    def title(self, number: int) -> str:
        """A type as C writes it, but for the order of arrays of pointers."""
        found = self.get(number)
        if found is None:
            return "void"
        if found.kind == "pointer":
            inner = self.title(found.inner)
            return f"{inner}*" if inner.endswith("*") else f"{inner} *"
        if found.kind == "array":
            counts, inner_type = f"[{found.count}]", self.get(found.inner)
            while inner_type is not None and inner_type.kind == "array":
                counts, found, inner_type = counts + f"[{inner_type.count}]", inner_type, self.get(inner_type.inner)
            return self.title(found.inner) + counts
        return found.name if found.kind == "base" else f"{found.kind} {found.name}".replace(" -", "")
