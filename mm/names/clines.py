"""What the translator of C says of its source in comments: lines of C, functions, objects and variables with their C
names and types, and frames of the stack."""

from __future__ import annotations

import bisect
import re
from typing import Callable, Iterator, Optional

from mm.names.ctypes import CTypes
from mm.names.nearby import lines_nearby
from mm.records import dataclass, field

MARK = ";@ "
BLOCK = re.compile(r"(L|P_)\d+")
LABEL = re.compile(r"([A-Za-z_]\w*):")
# No number of theirs has more digits.
NUMBER = "([0-9]{1,18})"
FRAME = re.compile(rf"frame back (-|[0-9]{{1,18}}) caller (at|by) {NUMBER}")
OBJECT = re.compile(rf"(?:local|global) (\S+) {NUMBER} at {NUMBER}(?: log {NUMBER})?(?: type {NUMBER})?(?: in {NUMBER})?(?: constant)?")
UNNAMED = re.compile(rf"unnamed at {NUMBER}(?: constant)?")
LINE = re.compile(rf"line (.*):{NUMBER}(?: in {NUMBER})?")
FUNCTION = re.compile(rf"function (\S+) at (.*):{NUMBER}")
INLINED = re.compile(rf"inlined {NUMBER} (\S+) at (.*):{NUMBER}(?: in {NUMBER})?")
VARIABLE = re.compile(rf"var (\S+) {NUMBER} (\S+)(?: in {NUMBER})?")
NOWHERE = "-"
# What gives a function a stack pointer of its own, and what leaves it.
MOVES = re.compile(r"leai r15, r15, -\d+|mov r15, r12")
RETURN = "jmp r14"
# What is carried out before `main`.
START = "start"
MOST_FRAMES = 100


@dataclass(frozen=True)
class CLine:
    """A line of a file of C, and the function that it is of: 0 for that in which it stands, else one that was put into
    that. `source` is the path of the source that names it."""

    path: str
    line: int
    inner: int = field(default=0, compare=False)
    source: str = field(default="", compare=False)

    def __str__(self) -> str:
        return f"{self.path}:{self.line}"

    @property
    def file(self) -> list[str]:
        """The lines of the file, where it is still there and near enough to the source."""
        return lines_nearby(self.path, self.source)

    @property
    def text(self) -> str:
        """The line itself."""
        lines = self.file
        return lines[self.line - 1].strip() if 0 < self.line <= len(lines) else ""


@dataclass(frozen=True)
class CObject:
    """An object by its C name: its size, and where it stands in its segment, or in a frame."""

    name: str
    size: int
    at: int
    log: int = 0
    type: int = 0
    inner: int = 0


@dataclass(frozen=True)
class CVariable:
    """A variable: its type, where it is, and the function that it is of."""

    name: str
    type: int
    where: str
    inner: int = 0


@dataclass(frozen=True)
class CInlined:
    """A function that was put into another one: its name, and the line of the call."""

    name: str
    call: CLine


@dataclass
class CFunction:
    """A function: its label and its C name, where it begins, where its frame keeps the way back and the caller's frame,
    its named objects, the functions that were put into it, and where its variables are, by lines of the source."""

    label: str
    name: str = ""
    begins: Optional[CLine] = None
    back: Optional[int] = None
    caller: tuple[str, int] = ("by", 0)
    objects: list[CObject] = field(default_factory=list)
    inlined: dict[int, CInlined] = field(default_factory=dict)
    variables: list[tuple[int, CVariable]] = field(default_factory=list)
    # Lines of the source: that after which the stack pointer is the function's own, and that after which its frame
    # keeps the way back.
    moved: Optional[int] = None
    kept: Optional[int] = None

    def enters(self, number: int, said: str) -> None:
        """Looks for what makes the frame, in a line of the source."""
        if self.moved is None and MOVES.fullmatch(said):
            self.moved = number
        if self.kept is None and self.back is not None and said == f"st r15, r14, {self.back}, any, keep":
            self.kept = number

    def has_moved(self, number: int) -> bool:
        """Whether the stack pointer is the function's own at a line of the source."""
        return self.moved is not None and number > self.moved

    def has_kept(self, number: int) -> bool:
        return self.kept is not None and number > self.kept

    def inner_name(self, inner: int) -> str:
        found = self.inlined.get(inner)
        return found.name if found else self.name

    def owners(self, name: str) -> set[str]:
        """The functions with their code here that have a variable of a name."""
        inner = [made.inner for made in self.objects if made.name == name]
        inner += [made.inner for _, made in self.variables if made.name == name]
        return {self.inner_name(number) for number in inner}

    def variables_at(self, number: int) -> list[CVariable]:
        """The variables that are somewhere at a line of the source."""
        known: dict[tuple[str, int], CVariable] = {}
        for line, variable in self.variables:
            if line > number:
                break
            known.pop((variable.name, variable.inner), None)
            if variable.where != NOWHERE:
                known[variable.name, variable.inner] = variable
        return list(known.values())


class CNotes:
    """The notes of a source, by its lines; with the path of the source."""

    def __init__(self, lines: list[str], path: str = "") -> None:
        self.path = path
        self.starts: list[int] = []
        self.lines: list[Optional[CLine]] = []
        self.function_starts: list[int] = []
        self.functions: list[CFunction] = []
        self.globals: dict[str, CObject] = {}
        # Where the object of a segment begins that has no name in C, such as a string constant; and the segments whose
        # objects are constant.
        self.unnamed: dict[str, int] = {}
        self.constant: set[str] = set()
        # The segments whose objects are the first values of variables of functions: they have the names of these, and no
        # types.
        self.first_values: set[str] = set()
        self.types = CTypes()
        # The lines that leave a function: its frame is gone there.
        self.returns: set[int] = set()
        segment = ""
        for number, said in enumerate(lines, 1):
            label = LABEL.match(said)
            if said.startswith(".segment"):
                segment = said.split()[1]
                self._mark(number, None)
            elif label and not BLOCK.fullmatch(label[1]):
                self._mark(number, None)
                self.function_starts.append(number)
                self.functions.append(CFunction(label[1], label[1]))
            elif MARK in said:
                self._note(said.partition(MARK)[2].strip(), number, segment)
            elif self.functions:
                self.functions[-1].enters(number, said.strip())
                if said.strip() == RETURN:
                    self.returns.add(number)

    def __bool__(self) -> bool:
        return bool(self.globals) or any(line is not None for line in self.lines)

    def _mark(self, number: int, line: Optional[CLine]) -> None:
        self.starts.append(number)
        self.lines.append(line)

    def _note(self, note: str, number: int, segment: str) -> None:
        line, made, unnamed = LINE.fullmatch(note), OBJECT.fullmatch(note), UNNAMED.fullmatch(note)
        if (unnamed or made) and segment and note.endswith(" constant"):
            self.constant.add(segment)
        if line:
            self._mark(number, CLine(line[1], int(line[2]), int(line[3] or 0), self.path))
        elif note.startswith("type "):
            self.types.add(note.split()[1:])
        elif made and note.startswith("global"):
            self.globals[segment] = _object(made)
            if segment in self.constant and not self.globals[segment].type:
                self.first_values.add(segment)
        elif unnamed:
            self.unnamed[segment] = int(unnamed[1])
        elif self.functions:
            self._of_function(self.functions[-1], note, number)

    def _of_function(self, function: CFunction, note: str, number: int) -> None:
        begins, frame, made = FUNCTION.fullmatch(note), FRAME.fullmatch(note), OBJECT.fullmatch(note)
        inlined, variable = INLINED.fullmatch(note), VARIABLE.fullmatch(note)
        if begins:
            function.name, function.begins = begins[1], CLine(begins[2], int(begins[3]), 0, self.path)
        elif frame:
            function.back = None if frame[1] == "-" else int(frame[1])
            function.caller = (frame[2], int(frame[3]))
        elif made:
            function.objects.append(_object(made))
        elif inlined:
            call = CLine(inlined[3], int(inlined[4]), int(inlined[5] or 0), self.path)
            function.inlined[int(inlined[1])] = CInlined(inlined[2], call)
        elif variable:
            found = CVariable(variable[1], int(variable[2]), variable[3], int(variable[4] or 0))
            function.variables.append((number, found))

    def line_at(self, number: int) -> Optional[CLine]:
        """The line of C that a line of the source comes from."""
        at = bisect.bisect_right(self.starts, number) - 1
        return self.lines[at] if at >= 0 else None

    def function_at(self, number: int) -> Optional[CFunction]:
        at = bisect.bisect_right(self.function_starts, number) - 1
        return self.functions[at] if at >= 0 else None

    def inlined_at(self, name: str) -> list[int]:
        """The lines of the source where a function begins that was put into others, once for each of these."""
        found: dict[tuple[str, int], int] = {}
        for line, start in zip(self.lines, self.starts):
            function = self.function_at(start) if line is not None and line.inner else None
            if line is not None and function is not None and function.inner_name(line.inner) == name:
                found.setdefault((function.label, line.inner), start + 1)
        return list(found.values())

    def first_of(self, path: str, line: int) -> Optional[int]:
        """The first line of the source that comes from a line of C, or from the next one that has code."""
        found = [(made.line, start) for made, start in zip(self.lines, self.starts)
                 if made is not None and made.line >= line and (made.path == path or made.path.endswith("/" + path))]
        return min(found)[1] + 1 if found else None


def _object(made: re.Match[str]) -> CObject:
    return CObject(made[1], int(made[2]), int(made[3]), int(made[4] or 0), int(made[5] or 0), int(made[6] or 0))


def place_in(made: CObject, offset: int, types: Optional[CTypes]) -> str:
    """The place of a byte in an object, or beside it: `name[8] of 8 bytes` for bytes, `table[4] of int[4], 16 bytes`
    for other elements, and `byte 20 of record, 16 bytes`."""
    found = types.get(made.type) if types else None
    if found is None or found.kind == "array" and types and types.size(found.inner) == 1:
        return f"{made.name}[{offset}] of {made.size} bytes"
    assert types is not None
    path, type_, left = "", made.type, offset
    while found is not None and found.kind == "array" and types.size(found.inner):
        index, left = divmod(left, types.size(found.inner))
        path, type_ = f"{path}[{index}]", found.inner
        found = types.get(type_)
    if not path or left:
        return f"byte {offset} of {made.name}, {made.size} bytes"
    return f"{made.name}{path} of {types.title(made.type)}, {made.size} bytes"


@dataclass(frozen=True)
class CFrame:
    """A function that is being carried out: where it stands, its stack pointer, and what is known of it."""

    address: int
    stack: int
    function: CFunction
    line: Optional[CLine]
    # The comments of its source, and the line there.
    notes: CNotes
    number: int

    @property
    def name(self) -> str:
        return self.function.inner_name(self.line.inner if self.line else 0)

    def lines(self) -> Iterator[CLine]:
        """The line here, and those of the calls of functions that were put into this one: the innermost first."""
        line = self.line
        while line is not None:
            yield line
            inlined = self.function.inlined.get(line.inner)
            line = inlined.call if inlined else None

    def calls(self) -> Iterator[tuple[str, Optional[CLine]]]:
        """The functions that have their code here, each with its line: the innermost first."""
        if self.line is None and self.function.label != START:
            yield self.function.name, None
        for line in self.lines():
            yield self.function.inner_name(line.inner), line


Place = Callable[[int], Optional[tuple[CNotes, int]]]
Word = Callable[[int], Optional[int]]


def frames(address: int, stack: int, place: Place, word: Word, link: Optional[int] = None) -> Iterator[CFrame]:
    """The functions that are being carried out, the innermost first. `place` gives the line of the source, `word` the
    address in a word of memory. `link` is the address in the register of the way back, which the innermost function may
    not have kept: one that calls none keeps it there, and another one while it makes its frame."""
    for depth in range(MOST_FRAMES):
        found = place(address)
        known = found[0].function_at(found[1]) if found else None
        if known is None or found is None:
            return
        notes, number = found
        yield CFrame(address, stack, known, notes.line_at(number), *found)
        back, caller = _caller(known, stack, word, number, None if depth else link, number in notes.returns)
        if back is None or caller is None or known.label == START:
            return
        # The way back stands after the call.
        address, stack = back - 8, caller


def _caller(known: CFunction, stack: int, word: Word, number: int, link: Optional[int],
            leaves: bool) -> tuple[Optional[int], Optional[int]]:
    """The way back from a function, and its caller's stack pointer."""
    kind, by = known.caller
    moved = link is None or not leaves and (known.has_moved(number) or kind == "by" and not by)
    caller = stack if not moved else stack + by if kind == "by" else word(stack + by)
    kept = link is None or known.back is not None and known.has_kept(number) and not leaves
    return (word(stack + known.back) if known.back is not None else None) if kept else link, caller
