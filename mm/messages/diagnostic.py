"""A message about a place of a file."""

from __future__ import annotations

from typing import Optional

from mm.records import dataclass, field
from mm.shown import visible
from mm.source.tokens import readable
from mm.views.style import Style


# So much of a line is shown.
WIDEST = 200


@dataclass
class Diagnostic:
    """A message: a file, a line and a column (from 1, in bytes) if there are such, the text of the line, and hints below it."""

    path: str
    message: str
    line: Optional[int] = None
    column: Optional[int] = None
    text: Optional[str] = None
    hints: list[str] = field(default_factory=list)
    severity: str = "error"
    # The label that is missing, where one is.
    name: Optional[str] = None

    @property
    def place(self) -> str:
        return ":".join(str(part) for part in (self.path or '""', self.line, self.column) if part is not None)

    def render(self, style: Style) -> list[str]:
        """The lines of the message."""
        colour = style.bad if self.severity == "error" else style.warn
        lines = [f"{style.strong(self.place + ':')} {colour(self.severity + ':')} {self.message}"]
        if self.text is not None and self.line is not None:
            lines += _shown(self.text, self.line, self.column, style)
        return lines + [f"    {style.good('hint:')} {hint}" for hint in self.hints]


def _shown(text: str, number: int, column: Optional[int], style: Style) -> list[str]:
    head = f"{number:>5} | "
    begin = max(0, (column or 1) - 1 - WIDEST // 2) if len(text) > WIDEST else 0
    part = readable(text[begin : begin + WIDEST]).rstrip().replace("\t", " ")
    more, rest = ".. " if begin else "", " .." if len(text) > begin + WIDEST else ""
    lines = [style.soft(head) + visible(f"{more}{part}{rest}")]
    if column is not None:
        before = visible(more + readable(text[begin : column - 1]).replace("\t", " "))
        lines.append(" " * (len(head) - 2) + style.soft("| ") + " " * len(before) + style.good("^"))
    return lines
