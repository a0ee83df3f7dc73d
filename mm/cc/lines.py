"""Where code comes from in C: the file, the line and the function of a debug location of LLVM's text."""

from __future__ import annotations

import os
import re
from typing import Callable, Optional

from mm.cc.code import Variable
from mm.cc.ctypes import Types
from mm.cc.ir import Module

LOCATION = re.compile(r"!DILocation\(line: (\d+)(?:, column: (\d+))?, scope: (!\d+)(?:, inlinedAt: (!\d+))?")
SCOPE = re.compile(r"\bscope: (!\d+)")
FILE = re.compile(r"\bfile: (!\d+)")
NAME = re.compile(r'\bname: "([^"]*)"')
FILE_NAME = re.compile(r'filename: "([^"]*)"(?:, directory: "([^"]*)")?')
LINE = re.compile(r"\bline: (\d+)")
VARIABLE = re.compile(r"\bvar: (!\d+)")


class Lines:
    """The places in C of a module's debug locations."""

    def __init__(self, module: Module) -> None:
        self.debug, self.name = module.debug, module.name
        self.files: dict[str, Optional[str]] = {}
        self.known: dict[str, Optional[str]] = {}

    def of(self, location: Optional[str]) -> Optional[str]:
        """`ov.c:7`; none if nothing is known, or for what the compiler made itself."""
        if location is None:
            return None
        if location not in self.known:
            self.known[location] = self._find(location)
        return self.known[location]

    def _find(self, location: str) -> Optional[str]:
        match = LOCATION.search(self.debug.get(location, ""))
        if not match or match[1] == "0":
            return None
        file = self.file_of(match[3])
        return f"{file}:{match[1]}" if file else None

    def position(self, location: Optional[str]) -> Optional[str]:
        """`ov.c:7:12`, with the column, for messages."""
        found, match = self.of(location), LOCATION.search(self.debug.get(location or "", ""))
        return f"{found}:{match[2]}" if found and match and match[2] else found

    def function_at(self, location: Optional[str]) -> Optional[str]:
        """The name in C of the function that a location is in."""
        match = LOCATION.search(self.debug.get(location or "", ""))
        return self.name_of(self.function_of(match[3])) if match else None

    def file_of(self, scope: str) -> Optional[str]:
        if scope not in self.files:
            said = self.debug.get(scope, "")
            file, outer = FILE.search(said), SCOPE.search(said)
            name = FILE_NAME.search(self.debug.get(file[1], "")) if file else None
            further = self.file_of(outer[1]) if outer and not name else None
            self.files[scope] = self.shown(name[1], name[2] or "") if name else further
        return self.files[scope]

    def shown(self, name: str, folder: str) -> str:
        """A file as it is named here: from where the module's own file was named, or from the current folder."""
        full, own = os.path.normpath(os.path.join(folder, name)), os.path.dirname(self.name)
        if not os.path.isabs(full):
            return name
        near = os.path.relpath(full, os.path.dirname(os.path.abspath(self.name)))
        if not near.startswith(".."):
            return os.path.join(own, near)
        here = os.path.relpath(full)
        return full if here.startswith("..") or os.path.isabs(self.name) else here

    def of_function(self, subprogram: Optional[str]) -> Optional[str]:
        """The line where a function begins."""
        said = self.debug.get(subprogram or "", "")
        line, file = LINE.search(said), self.file_of(subprogram) if subprogram else None
        return f"{file}:{line[1]}" if line and file else None

    def of_global(self, debug: Optional[str]) -> Optional[str]:
        """The line where a global is declared."""
        variable = VARIABLE.search(self.debug.get(debug or "", ""))
        return self.of_function(variable[1]) if variable else None

    def name_of(self, node: str) -> str:
        name = NAME.search(self.debug.get(node, ""))
        return name[1] if name else "?"

    def call_of(self, location: str) -> Optional[tuple[str, str]]:
        """The function that a location is in and the location of its call, if it was put into another one there."""
        match = LOCATION.search(self.debug.get(location, ""))
        return (self.function_of(match[3]), match[4]) if match and match[4] else None

    def function_of(self, scope: str) -> str:
        """The function that a scope is in, by its number."""
        said = self.debug.get(scope, "")
        outer = SCOPE.search(said)
        return scope if "!DISubprogram(" in said or not outer else self.function_of(outer[1])


class FunctionNotes:
    """What is said of a function in comments: its lines, its variables, and the functions that were put into it, which
    have numbers from 1 on."""

    def __init__(self, lines: Lines, types: Types, segment: Callable[[str], Optional[str]]) -> None:
        self.lines, self.types, self.segment_of = lines, types, segment
        self.inner: dict[tuple[str, str], int] = {}
        self.inlined: list[str] = []
        self.said: dict[Variable, tuple[str, str]] = {}

    def frame(self, location: str) -> str:
        """` in 2`, for a place in the second of the functions that were put into this one."""
        call = self.lines.call_of(location)
        if call is None:
            return ""
        if call not in self.inner:
            number = self.inner[call] = len(self.inner) + 1
            at, outer = self.lines.of(call[1]) or "?:0", self.frame(call[1])
            self.inlined.append(f"inlined {number} {self.lines.name_of(call[0])} at {at}{outer}")
        return f" in {self.inner[call]}"

    def place(self, location: Optional[str]) -> Optional[str]:
        """`ov.c:7`, `ov.c:7 in 2`."""
        found = self.lines.of(location)
        return f"{found}{self.frame(location)}" if found and location else None

    def segment(self, name: str) -> Optional[str]:
        """`@table`, for a global of that segment."""
        found = self.segment_of(name)
        return f"@{found}" if found else None

    def variable(self, variable: Variable) -> tuple[str, str]:
        """The name and the type of a variable, and ` in 2`."""
        found = self.said.get(variable)
        if found is None:
            name, type_ = self.lines.name_of(variable.node), self.types.of_variable(variable.node, self.lines.debug)
            found = self.said[variable] = f"{name} {type_}", self.frame(variable.location)
        return found
