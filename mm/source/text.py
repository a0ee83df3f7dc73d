"""A whole source: its segments with their words by line, its labels, its threads, and where names are used."""

from __future__ import annotations

import bisect
import re
from typing import TYPE_CHECKING, Optional

from mm.records import dataclass, field
from mm.source import wants
from mm.source.letters import head_of, letters_of, without_letters
from mm.source.lines import WORD_DIRECTIVES, Line, read_line
from mm.source.tokens import TokenKind
from mm.source.wants import DIRECTIVES, OPERANDS

if TYPE_CHECKING:
    from mm.names.clines import CNotes

# The beginning of a line: its label, `.empty`, and its directive or operation. What follows is read only if it matters here.
BEGINNING = re.compile(
    r"[ \t\r]*(?:([A-Za-z_][A-Za-z0-9_]*)[ \t\r]*:)?[ \t\r]*(?:\.empty(?![A-Za-z0-9_])[ \t\r]*)?(\.?[A-Za-z_][A-Za-z0-9_]*)?"
)
# What the comments of the translator of C begin with; mm.names.clines reads them.
NOTE = ";@ "
WORDS = frozenset(OPERANDS) | frozenset(WORD_DIRECTIVES)


@dataclass(frozen=True)
class Run:
    """Words of one line: the place of the first in its segment, how many, the line, and the directive or operation."""

    place: int
    count: int
    line: int
    head: str


@dataclass
class SourceSegment:
    """A segment of a text, with the line where it begins."""

    name: str
    log: int
    line: int
    column: int
    runs: list[Run] = field(default_factory=list)
    words: int = 0
    # Lines that begin with no word that is known: each may be meant as a word.
    unknown: int = 0
    starts: list[int] = field(default_factory=list)

    @property
    def room(self) -> int:
        return 1 << self.log - 3

    def add(self, count: int, line: int, head: str) -> None:
        if count:
            self.runs.append(Run(self.words, count, line, head))
            self.starts.append(self.words)
        self.words += count

    def run_at(self, place: int) -> Optional[Run]:
        """The words among which one is."""
        found = bisect.bisect_right(self.starts, place) - 1
        return self.runs[found] if found >= 0 and place < self.runs[found].place + self.runs[found].count else None


@dataclass(frozen=True)
class Label:
    """A name for a word: its segment's place in the text, the word's place in the segment, and where it stands."""

    name: str
    segment: int
    place: int
    line: int
    column: int


@dataclass(frozen=True)
class Use:
    """A place of the text where a pointer to a name is made."""

    name: str
    addend: int
    line: int
    column: int


@dataclass(frozen=True)
class SourceThread:
    """A thread, with the line where it begins."""

    slot: int
    handler: Optional[int]
    line: int
    column: int


@dataclass
class SourceText:
    """A source: its path, its lines, and what they say."""

    path: str
    lines: list[str]
    segments: list[SourceSegment] = field(default_factory=list)
    labels: dict[str, Label] = field(default_factory=dict)
    uses: list[Use] = field(default_factory=list)
    threads: list[SourceThread] = field(default_factory=list)
    notes: Optional[CNotes] = None

    def line(self, number: int) -> str:
        """A line by its number, from 1; an empty one if there is none."""
        return self.lines[number - 1] if 0 < number <= len(self.lines) else ""

    def segment(self, name: str) -> Optional[SourceSegment]:
        return next((segment for segment in self.segments if segment.name == name), None)

    @property
    def names(self) -> list[str]:
        return [segment.name for segment in self.segments] + list(self.labels)


def _add_thread(text: SourceText, line: Line, number: int) -> None:
    slot, handler = line.operand(wants.SLOT), line.operand(wants.HANDLER)
    if slot and handler and line.head:
        waits = handler.value if handler.kind is TokenKind.NUMBER else None
        text.threads.append(SourceThread(slot.value, waits, number, line.head.column))


def _add_directive(text: SourceText, line: Line, number: int) -> None:
    if line.head is None or line.mismatch:
        return
    if line.head.text == ".segment":
        name, log = line.operands[0][1], line.operands[1][1]
        text.segments.append(SourceSegment(name.text, log.value, number, name.column))
    elif line.head.text == ".thread":
        _add_thread(text, line, number)
    elif line.head.text == ".fill" and text.segments:
        text.segments[-1].add(line.operands[0][1].value, number, ".fill")
    target, addend = line.operand(wants.TARGET), line.operand(wants.ADDEND)
    if target:
        text.uses.append(Use(target.text, addend.value if addend else 0, number, target.column))


def lines_of(data: bytes) -> list[str]:
    """The lines of a text. A byte is a letter here, so that columns are bytes."""
    lines = data.decode("latin-1").split("\n")
    if lines[-1] == "":
        lines.pop()
    return lines


def read_source(path: str, data: bytes) -> SourceText:
    """What a source says, as far as its lines can be read by themselves."""
    text = SourceText(path, lines_of(data))
    for number, written in enumerate(text.lines, 1):
        said = without_letters(written)
        beginning = BEGINNING.match(said)
        label, head = beginning.groups() if beginning else (None, None)
        if label and text.segments and label not in text.labels:
            place = text.segments[-1].words
            text.labels[label] = Label(label, len(text.segments) - 1, place, number, said.index(label) + 1)
        letters = letters_of(said) if head and head.startswith(".ascii") else None
        if head in WORDS and text.segments:
            text.segments[-1].add(1, number, head)
        elif letters is not None and text.segments:
            text.segments[-1].add(len(letters), number, head_of(said))
        elif head and text.segments and head not in DIRECTIVES:
            text.segments[-1].unknown += 1
        if head in DIRECTIVES and head != ".int":
            _add_directive(text, read_line(said), number)
    if any(NOTE in said for said in text.lines):
        from mm.names.clines import CNotes

        text.notes = CNotes(text.lines, path)
    return text
