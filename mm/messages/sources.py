"""The faults of a source, as `mmachine asm` finds them, in words."""

from __future__ import annotations

import re
from typing import Callable, Optional

from mm.messages.diagnostic import Diagnostic
from mm.messages.mistakes import hint_of
from mm.messages.scene import Scene
from mm.machine.isa import OPERATIONS
from mm.names.expressions import nearest
from mm.names.numbers import counted
from mm.outputs.refusal import Refusal
from mm.source import wants
from mm.source.letters import TEXT_DIRECTIVES, without_letters
from mm.source.lines import Line, read_line
from mm.source.tokens import LONG_LINE, Token, TokenKind, cut, readable, token_at, tokens_of
from mm.source.text import SourceSegment, SourceText, read_source
from mm.source.wants import DIRECTIVES, OPERANDS

KINDS = {
    TokenKind.NAME: "the name",
    TokenKind.DIRECTIVE: "the directive",
    TokenKind.NUMBER: "the number",
    TokenKind.SIGN: "the sign",
}
LABEL = 5
LETTERS = re.compile(r"\.?\w*", re.ASCII)
# Hints look at so much of a line.
LONG_HINT = 500
LIMITS = "a source has at most 256 segments, 131072 words, 65535 pointers and 1024 names of other sources; divide it into several"


class Explained:
    """A fault of a line, with all that a message can be made of."""

    def __init__(self, source: SourceText, number: int, column: int) -> None:
        self.source, self.number, self.column = source, number, column
        self.written = source.line(number)
        self.said = without_letters(self.written)
        self.line: Line = read_line(self.said)
        self.token = self._token()
        self.head = self._head()

    def _token(self) -> Optional[Token]:
        return token_at(self.said, self.column)

    @property
    def text(self) -> str:
        """The token at the place, or what a message has room for of it."""
        return cut(self.token.text) if self.token else ""

    def _head(self) -> str:
        if self.line.head:
            return self.line.head.text
        tokens = tokens_of(self.said)
        tokens = tokens[2:] if len(tokens) > 1 and tokens[1].text == ":" else tokens
        return next((token.text for token in tokens if token.text != ".empty"), "")

    @property
    def found(self) -> str:
        """What stands at the place, in words."""
        if self.token is None:
            return "the end of the line"
        return f"{KINDS.get(self.token.kind, '')} `{self.text}`".strip()

    @property
    def want(self) -> Optional[wants.Want]:
        """What may stand at the place, where this reading of the line comes to the same place."""
        mismatch = self.line.mismatch
        return mismatch.want if mismatch and mismatch.column == self.column else None

    def scene(self, fault: int) -> Scene:
        code = self.said[:LONG_LINE].split(";")[0][:LONG_HINT]
        is_number = self.token is not None and self.token.kind is TokenKind.NUMBER
        return Scene(fault, self.column, code, cut(self.head), self.token.text if is_number and self.token else self.text)

    def usage(self) -> Optional[str]:
        """How the statement is written."""
        operation, directive = OPERATIONS.get(self.head), DIRECTIVES.get(self.head)
        if operation:
            return f"usage: `{operation.usage}`, as in `{operation.example}`"
        return f"usage: `{directive.usage}`, as in `{directive.example}`" if directive else None


def _bad_byte(at: Explained) -> str:
    letter = readable(at.said[at.column - 1 :])[:1]
    shown = f"`{letter}`" if letter.isprintable() and not letter.isspace() else f"U+{ord(letter):04X}"
    return f"{shown} cannot stand in a source"


def _syntax(at: Explained) -> str:
    if at.want is None:
        return f"{at.found} cannot stand here"
    if at.want is wants.END:
        return f"expected the end of the line, found {at.found}"
    if at.token is None:
        return f"the line ends too early: expected {at.want.says}"
    return f"expected {at.want.says}, found {at.found}"


def _name(at: Explained) -> str:
    text = at.token.text if at.token else ""
    if len(text) > wants.LONGEST_NAME:
        long = LETTERS.match(at.said, at.column - 1)
        count = long.end() - long.start() if long else len(text)
        return f"`{text[:12]}..` has {count} letters, and a name has at most {wants.LONGEST_NAME}"
    if at.want is not None and at.want.choices:
        return f"expected {at.want.says}, found `{text}`"
    directive = text.rstrip("0123456789")  # A letter in quotes is a number here.
    if directive in TEXT_DIRECTIVES:
        return f"what stands after `{directive}` is not a text"
    return f"there is no {'directive' if text.startswith('.') else 'operation'} `{text}`"


def _range(at: Explained) -> str:
    if at.want is not None:
        return f"`{at.text}` is out of range: {at.want.says}"
    target = at.text
    return f"the pointer to `{target}` leads to the end of its segment or past it"


def _label(at: Explained) -> str:
    return f"`{at.text}` is not a label of this segment"


def _twice(at: Explained) -> str:
    if at.head in (".spare", ".thread", ".reg") and not (at.line.label and at.line.label.column == at.column):
        what = {
            ".spare": "a second `.spare`",
            ".thread": f"a second thread in slot {at.text}",
            ".reg": "this register of the thread is set already",
        }
        return what[at.head]
    name = at.text
    return f"the name `{name}` is there already{_where(at.source, name, at.number)}"


def _where(source: SourceText, name: str, number: int) -> str:
    segment, label = source.segment(name), source.labels.get(name)
    lines = [item.line for item in (segment, label) if item and item.line != number]
    return f", in line {min(lines)}" if lines else ""


def _place(at: Explained) -> str:
    if at.head == ".reg":
        return "`.reg` comes before the first `.thread`"
    return f"{'a label' if at.line.label else 'a word'} comes before the first `.segment`"


def _full(at: Explained) -> str:
    segment = _segment_of_line(at.source, at.number)
    if segment is None:
        return "the segment is full"
    return f"the segment `{segment.name}` is full: 2^{segment.log} bytes have room for {counted(segment.room, 'word')}"


def _limit(at: Explained) -> str:
    return "the source is too large"


MESSAGES: dict[int, Callable[[Explained], str]] = {
    1: _bad_byte,
    2: _syntax,
    3: _name,
    4: _range,
    5: _label,
    6: _twice,
    7: _place,
    8: _full,
    9: _limit,
}


def _segment_of_line(source: SourceText, number: int) -> Optional[SourceSegment]:
    before = [segment for segment in source.segments if segment.line <= number]
    return before[-1] if before else None


def _hint_for_label(at: Explained) -> Optional[str]:
    name = at.text
    segment, label = at.source.segment(name), at.source.labels.get(name)
    own = _segment_of_line(at.source, at.number)
    if segment is not None and segment is own:
        return f"it is this segment itself: put a label before its first word, as `begin:`, and write `{at.head} .. begin`"
    if segment or label:
        if at.head == "lip":
            return f"`lip` only makes pointers into its own segment: a pointer to `{name}` comes from `.reg 5 ptr rw {name}` after the `.thread`, or from a `.ptr` in memory"
        what = f"it is in segment `{at.source.segments[label.segment].name}`" if label else "it is a segment"
        return f"{what}: go to another segment by `jmp` or `jal` through a pointer (`.reg 5 ptr xu {name}`, or `eu` for a gate)"
    if name in wants.REGISTERS:
        return f"`{at.head}` wants a label; a register holds a pointer, and `jmp {name}` goes through it"
    near = nearest(name, list(at.source.labels))
    return f"do you mean `{near}`?" if near else "a label is a name and `:` before a word of the same segment"


def _hint_for_full(at: Explained) -> Optional[str]:
    segment = _segment_of_line(at.source, at.number)
    if segment is None:
        return None
    log = max(3, (segment.words + segment.unknown - 1).bit_length() + 3)
    if max(log, segment.log + 1) > 20:
        return "a segment has at most 2^20 bytes: divide it"
    if segment.unknown or log <= segment.log:
        return f"write a greater number: `.segment {segment.name} {max(log, segment.log + 1)}`"
    return f"it has {counted(segment.words, 'word')} in all: write `.segment {segment.name} {log}`"


def _hint_for_name(at: Explained) -> Optional[str]:
    text = at.text
    if at.want is not None and at.want.choices:
        return None
    if len(text) > wants.LONGEST_NAME:
        return "choose a shorter name"
    known = [name for name in DIRECTIVES] if text.startswith(".") else list(OPERANDS)
    near = nearest(text, known)
    return f"do you mean `{near}`?" if near else "`mm help operations` and `mm help directives` list all"


TWICE_HINTS = {
    ".thread": "a slot has one thread: give this one another slot",
    ".reg": "a register begins with one value: remove one of the lines, or give the register of another thread after its `.thread`",
    ".spare": "write one `.spare` with the sum",
}
OWN_HINTS: dict[int, Callable[[Explained], Optional[str]]] = {
    3: _hint_for_name,
    5: _hint_for_label,
    8: _hint_for_full,
    6: lambda at: TWICE_HINTS.get(at.head, "labels and segments share one set of names: give one of them another"),
    7: lambda at: "registers belong to the thread before them"
    if at.head == ".reg"
    else "begin with a segment, as `.segment main 6`",
    9: lambda at: LIMITS,
    4: lambda at: None if at.want else "an offset is below the segment's length; give the segment a greater one",
}


def explain(source: SourceText, fault: int, number: int, column: int) -> Diagnostic:
    """A fault of a source in words."""
    at = Explained(source, number, column)
    message = MESSAGES[fault](at) if fault in MESSAGES else f"source fault {fault}"
    hint = (hint_of(at.scene(fault)) if fault <= 4 else None) or OWN_HINTS.get(fault, lambda _: None)(at)
    if hint is None and fault <= 4:
        hint = at.usage() or "`mm help sources` shows what a source looks like"
    name = at.token.text if fault == LABEL and at.token else None
    return Diagnostic(source.path, message, number, column, at.written, [readable(hint)] if hint else [], name=name)


def explain_refusal(path: str, data: bytes, refusal: Refusal) -> Diagnostic:
    """The refusal of a source in words."""
    return explain(read_source(path, data), refusal["fault"], refusal["line"], refusal["column"])
