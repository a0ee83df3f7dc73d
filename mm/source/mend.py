"""A source with a fault taken out, so that the next one shows: the text is mended by as little as possible, and asked about again.

The mended text is never run. It is there for `mmachine asm` to find the next fault in it."""

from __future__ import annotations

import re
from typing import Optional

from mm.source.lines import read_line
from mm.source.tokens import LONG_LINE
from mm.source.wants import OPERANDS, SEGMENT_NAME

FRESH = "zz_mended_"
WIDEST = 20
RANGE, LABEL, TWICE, PLACE, FULL, LIMIT = 4, 5, 6, 7, 8, 9
BEGINS_SEGMENT = re.compile(r"[^;]*\.segment\b")
BEFORE = re.compile(r"[ \t\r]*(?:[A-Za-z_][A-Za-z0-9_]*[ \t\r]*:)?[ \t\r]*")
BEGINS_THREAD = re.compile(r"[^;]*\.thread\b")
SETS_REGISTER = re.compile(r"[^;]*\.reg\b")
FORGOTTEN = re.compile(
    rf"[ \t\r]*([A-Za-z_][A-Za-z0-9_]{{0,30}})(?:[ \t\r]+((?:{'|'.join(OPERANDS)})\b.*?))?[ \t\r]*(?:;.*)?"
)
# Directives of other assemblers that make no word.
NO_WORD = re.compile(
    r"\.(text|data|bss|rodata|section|globl?|global|extern|align|p?2align|balign|org|equ|set|type|size|file|end|macro|endm|include|code|stack|org)\b"
)


class Mender:
    """A text whose faults are taken out one by one."""

    def __init__(self, lines: list[str]) -> None:
        self.lines, self.prelude, self.made = list(lines), "", 0
        # Labels that were taken out. That nothing has their names is no fault of the source.
        self.dropped: set[str] = set()

    def data(self) -> bytes:
        """The text as it is now. It has one line before the first."""
        return "\n".join([self.prelude, *self.lines, ""]).encode("latin-1")

    def mend(self, fault: int, number: int, column: int) -> bool:
        """Takes out a fault at a line, from 1. Whether that can be done."""
        if fault == LIMIT or not 0 < number <= len(self.lines):
            return False
        if fault == FULL:
            return self._widen(number)
        if fault == PLACE:
            return self._give_place(number)
        line = read_line(self.lines[number - 1])
        if line.label and (fault == TWICE and column == line.label.column):
            self.dropped.add(line.label.text)
            self._blank(number, column, self.lines[number - 1].index(":", column) + 2)
            return True
        self._mend_statement(number)
        return True

    def _fresh(self) -> str:
        self.made += 1
        return f"{FRESH}{self.made}"

    def _blank(self, number: int, begin: int = 1, end: Optional[int] = None) -> None:
        """Blanks a line from a column up to another."""
        line = self.lines[number - 1]
        stop = len(line) if end is None else end - 1
        self.lines[number - 1] = line[: begin - 1] + " " * (stop - begin + 1) + line[stop:]

    def _mend_statement(self, number: int) -> None:
        """Puts a statement that has no fault into the place of one. A name alone is a label whose `:` was forgotten."""
        said = self.lines[number - 1][:LONG_LINE]
        alone = FORGOTTEN.fullmatch(said)
        if alone and alone[1] not in OPERANDS:
            self.lines[number - 1] = f"{alone[1]}: {alone[2] or ''}"
            return
        line = read_line(said)
        label = f"{line.label.text}: " if line.label else ""
        rest = said.split(":", 1)[1] if line.label else said
        words = rest.split(";")[0].split()
        head = line.head.text if line.head else words[0] if words else ""
        # What comes before a statement stays, so that another fault there has its column.
        before = said[: len(said) - len(rest)] + rest.partition(head)[0]
        kept = before if BEFORE.fullmatch(before) else label
        self.lines[number - 1] = kept + self._statement(number, head, line.operand(SEGMENT_NAME))

    def _statement(self, number: int, head: str, name: Optional[object]) -> str:
        if head == ".segment":
            kept = getattr(name, "text", "")
            taken = any(
                BEGINS_SEGMENT.match(line) and re.search(rf"\.segment[ \t]+{kept}\b", line)
                for at, line in enumerate(self.lines)
                if at != number - 1
            )
            return f".segment {kept if kept and not taken else self._fresh()} {WIDEST}"
        if head == ".thread":
            slot = self._free_slot()
            return f".thread {slot} 0 none xu {FRESH}" if slot is not None else self._drop_registers(number)
        if head in (".reg", ".spare", ".fill") or NO_WORD.match(head):
            return ""
        in_segment = any(BEGINS_SEGMENT.match(line) for line in self.lines[: number - 1]) or bool(self.prelude)
        return "nop" if in_segment and head else ""

    def _free_slot(self) -> Optional[int]:
        taken = {match[1] for line in self.lines for match in [re.match(r"[^;]*\.thread[ \t]+(\d+)", line)] if match}
        return next((slot for slot in range(16) if str(slot) not in taken), None)

    def _drop_registers(self, number: int) -> str:
        """Blanks the registers of a thread that is gone."""
        for at in range(number, len(self.lines)):
            if BEGINS_THREAD.match(self.lines[at]):
                break
            if SETS_REGISTER.match(self.lines[at]):
                self._blank(at + 1)
        return ""

    def _widen(self, number: int) -> bool:
        """Makes the segment of a line as long as can be, so that its other words are no faults."""
        for at in range(number - 2, -1, -1):
            match = re.match(r"(.*\.segment[ \t]+[A-Za-z_][A-Za-z0-9_]*[ \t]+)(\w+)(.*)", self.lines[at])
            if match and match[2] != str(WIDEST):
                self.lines[at] = f"{match[1]}{WIDEST}{match[3]}"
                return True
            if match:
                break
        return False

    def _give_place(self, number: int) -> bool:
        """Begins a segment before the first word, or drops the registers before the first thread."""
        if SETS_REGISTER.match(self.lines[number - 1]):
            self._blank(number)
            self._drop_registers(number)
            return True
        if self.prelude:
            return False
        self.prelude = f".segment {self._fresh()} {WIDEST}"
        return True
