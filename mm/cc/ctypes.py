"""Types of C for the debugger: what LLVM's text says of them, as numbered comments of a source."""

from __future__ import annotations

import re
from typing import Iterator, Optional

FIELD = re.compile(r'\b(\w+): ("[^"]*"|!\d+|[-\w.| ]+)')
ELEMENTS = re.compile(r"!\d+|null")
LETTERS = {"DW_ATE_signed": "i", "DW_ATE_signed_char": "i", "DW_ATE_unsigned": "u", "DW_ATE_unsigned_char": "u",
           "DW_ATE_boolean": "u", "DW_ATE_UTF": "u", "DW_ATE_float": "x"}
NOTHING = 0


def fields_of(said: str) -> dict[str, str]:
    return {name: value.strip('"') for name, value in FIELD.findall(said)}


class Types:
    """The types of a program by their numbers; 0 is a type of which nothing is known, as `void`."""

    def __init__(self) -> None:
        self.numbers: dict[tuple[int, str], int] = {}
        self.said: list[str] = []

    def notes(self) -> Iterator[str]:
        for number, said in enumerate(self.said, 1):
            yield f"type {number} {said}"

    def of_variable(self, node: str, debug: dict[str, str]) -> int:
        return self.number(fields_of(debug.get(node, "")).get("type"), debug)

    def of_global(self, node: Optional[str], debug: dict[str, str]) -> tuple[str, int]:
        """The name of a global, and the number of its type."""
        said = fields_of(debug.get(node or "", ""))
        said = fields_of(debug.get(said.get("var", ""), ""))
        return said.get("name", ""), self.number(said.get("type"), debug)

    def number(self, node: Optional[str], debug: dict[str, str]) -> int:
        said = debug.get(node or "", "")
        if node is None or not said:
            return NOTHING
        key = id(debug), node
        if key not in self.numbers:
            self._read(key, said, debug)
        return self.numbers[key]

    def _read(self, key: tuple[int, str], said: str, debug: dict[str, str]) -> None:
        fields = fields_of(said)
        tag, size, base = fields.get("tag", ""), int(fields.get("size", "0")) // 8, fields.get("baseType")
        name = fields.get("name", "-")
        if "!DIBasicType(" in said:
            self._add(key, f"base {LETTERS.get(fields.get('encoding', ''), 'x')}{size} {name}")
        elif tag == "DW_TAG_pointer_type":
            at = self._add(key, "")
            self.said[at] = f"pointer {self.number(base, debug)}"
        elif tag == "DW_TAG_enumeration_type":
            letter = LETTERS.get(fields_of(debug.get(base or "", "")).get("encoding", ""), "u")
            values = [fields_of(debug[part]) for part in self._elements(fields, debug)]
            pairs = [f"{value['name']}={value['value']}" for value in values]
            self._add(key, " ".join([f"enum {letter}{size} {name}", *pairs]))
        elif tag == "DW_TAG_array_type":
            self._array(key, fields, debug)
        elif tag in ("DW_TAG_structure_type", "DW_TAG_union_type"):
            at = self._add(key, "")
            members = [self._member(debug[part], debug) for part in self._elements(fields, debug)]
            kind = "struct" if tag == "DW_TAG_structure_type" else "union"
            self.said[at] = " ".join([kind, str(size), name, *members])
        elif "!DIDerivedType(" in said:
            self.numbers[key] = NOTHING
            self.numbers[key] = self.number(base, debug)
        else:
            self.numbers[key] = NOTHING

    def _add(self, key: tuple[int, str], said: str) -> int:
        self.said.append(said)
        self.numbers[key] = len(self.said)
        return len(self.said) - 1

    @staticmethod
    def _elements(fields: dict[str, str], debug: dict[str, str]) -> list[str]:
        return [part for part in ELEMENTS.findall(debug.get(fields.get("elements", ""), "")) if part in debug]

    def _array(self, key: tuple[int, str], fields: dict[str, str], debug: dict[str, str]) -> None:
        """An array; one of several dimensions is an array of arrays."""
        inner = self.number(fields.get("baseType"), debug)
        counts = [fields_of(debug[part]).get("count", "0") for part in self._elements(fields, debug)]
        for count in reversed(counts):
            self.said.append(f"array {count if count.isdigit() else 0} {inner}")
            inner = len(self.said)
        self.numbers[key] = inner

    def _member(self, said: str, debug: dict[str, str]) -> str:
        """`x:32:3` stands 32 bits on, and has type 3; `flag:64:5:1` has one bit."""
        fields = fields_of(said)
        bits = f":{fields.get('size', '0')}" if "DIFlagBitField" in fields.get("flags", "") else ""
        type_ = self.number(fields.get("baseType"), debug)
        return f"{fields.get('name', '-')}:{fields.get('offset', '0')}:{type_}{bits}"
