"""Alignments of LLVM's text, before it is optimised: an array that asks for none of its own begins at a word.

For our target Clang aligns each variable that is an array of 16 bytes or more to 16, and each array of a length that is
known at the run alone. An object of 20 bytes would then have 12 spare bytes after it, in which nothing is caught. So
this says 8 to the optimiser, for each array that neither C nor its elements align further; the translator obeys what
the optimised text says. Loads, stores and copies may always be said to be aligned less."""

from __future__ import annotations

import re

PROMISED, ENOUGH = ", align 16", ", align 8"
ALLOCA = re.compile(r'  (%(?:[-\w.$]+|"[^"]*")) = alloca ')
DECLARED = re.compile(r'dbg[._]declare\((?:metadata )?[^,]* (%(?:[-\w.$]+|"[^"]*")), (?:metadata )?(!\d+),')
# The variable and its type, of what LLVM's text says for debuggers.
FIELD = re.compile(r"\b(var|type|baseType|elements): (!\d+)")
LIST = re.compile(r"!\d+")
DEBUG = re.compile(r"!dbg (!\d+)")
ACCESS = re.compile(r"  (?:%[^=]* = )?(?:tail )?(?:load|store|cmpxchg|atomicrmw|call void @llvm\.mem)\b")
ASKED = re.compile(r"\balign: \d+")
# Elements that are aligned to 16 by what they are.
WIDE = re.compile(r"\bi128\b|\bfp128\b|<\d+ x ")
# Copies of initial values, which C cannot name.
OF_CLANG = re.compile(r"@__const\.")
MOST_TYPES = 1000


class Alignments:
    """Which alignments of a module were asked for."""

    def __init__(self, lines: list[str]) -> None:
        self.lines = lines
        self.debug: dict[str, str] = {}
        for line in lines:
            if line[:1] == "!":
                number, _, said = line.partition(" = ")
                self.debug[number] = said
        self.variables: dict[str, str] = {}

    def lowered(self) -> list[str]:
        found: list[str] = []
        for number, line in enumerate(self.lines):
            if line.startswith("define "):
                self.variables = self._declared(number)
            found.append(self._line(line) if PROMISED in line or " align 16 " in line else line)
        return found

    def _declared(self, first: int) -> dict[str, str]:
        """The variables of a function by the names of their objects."""
        found: dict[str, str] = {}
        for line in self.lines[first:]:
            if line == "}":
                break
            declared = DECLARED.search(line) if "dbg" in line else None
            if declared:
                found[declared[1]] = declared[2]
        return found

    def _line(self, line: str) -> str:
        if ACCESS.match(line):
            return line.replace(" align 16", " align 8")
        alloca = ALLOCA.match(line)
        if alloca and not WIDE.search(line) and self._is_array(line, alloca.end()):
            variable = self.variables.get(alloca[1])
            # Without a variable it is `alloca`, whose result C does not align.
            asked = self.asks(variable) if variable else False
            return line if asked else line.replace(PROMISED, ENOUGH)
        if line[:1] == "@" and not WIDE.search(line):
            return line if self._asked_of_global(line) else line.replace(PROMISED, ENOUGH)
        return line

    @staticmethod
    def _is_array(line: str, at: int) -> bool:
        """Whether an object is an array, or has a length that is known at the run alone."""
        return line[at] == "[" or re.search(r", i\d+ %", line) is not None

    def _asked_of_global(self, line: str) -> bool:
        if OF_CLANG.match(line) or " external " in line:
            return False
        debug = DEBUG.search(line)
        variable = FIELD.search(self.debug.get(debug[1], "")) if debug else None
        kind = re.search(r"\b(?:global|constant) (.)", line)
        return variable is None or not kind or kind[1] != "[" or self.asks(variable[2])

    def asks(self, variable: str) -> bool:
        """Whether a variable, or anything in it, is aligned by its declaration. What is not known is taken as if."""
        work, seen = [variable], set()
        while work:
            node = work.pop()
            if node in seen:
                continue
            seen.add(node)
            said = self.debug.get(node, "")
            if not said or ASKED.search(said) or "DIFlagVector" in said or len(seen) > MOST_TYPES:
                return True
            if "DW_TAG_pointer_type" in said or "!DISubrange(" in said or "!DIEnumerator(" in said:
                continue
            for field, target in FIELD.findall(said):
                work += LIST.findall(self.debug.get(target, "")) if field == "elements" else [target]
        return False


def without_debug(lines: list[str]) -> list[str]:
    """The text without what it says for debuggers."""
    kept = [line for line in lines if "@llvm.dbg." not in line and not line.startswith("    #dbg_")]
    return [re.sub(r",? !dbg !\d+", "", line) for line in kept]


def lowered(text: str, debug: bool) -> str:
    """A text in which arrays begin at a word; without what it says for debuggers where that is not wanted."""
    lines = Alignments(text.splitlines()).lowered()
    return "\n".join(lines if debug else without_debug(lines)) + "\n"

