"""Lines of a source in blocks, and the branches between them."""

from __future__ import annotations

from typing import Iterable, Optional


class Line:
    """A line of text: an operation, its operands, and the label that it goes to, if it goes to one; where it comes
    from in C, and where variables are."""

    __slots__ = ("op", "operands", "target", "origin", "variables")

    def __init__(self, op: str, operands: str, target: Optional[str], origin: Optional[str],
                 variables: tuple[str, ...] = ()) -> None:
        self.op, self.operands, self.target, self.origin = op, operands, target, origin
        self.variables = variables

    def __str__(self) -> str:
        if self.target is None:
            return f"  {self.op} {self.operands}" if self.operands else f"  {self.op}"
        return f"  {self.op} {self.operands}, {self.target}" if self.operands else f"  {self.op} {self.target}"


def plain_line(line: str) -> Line:
    """A line that goes to no label, of its text."""
    op, _, operands = line.partition(" ")
    return Line(op, operands, None, None)


class TextBlock:
    """A block of text: a label and lines."""

    __slots__ = ("label", "lines", "notes")

    def __init__(self, label: str) -> None:
        self.label = label
        self.lines: list[Line] = []
        # What is said of the function, for the debugger.
        self.notes: list[str] = []


def tidy(blocks: list[TextBlock], addressed: Iterable[str] = ()) -> list[TextBlock]:
    """Takes out branches to branches, and branches to what follows."""
    leads = {}
    for block in blocks:
        if block.lines and block.lines[0].op == "br":
            leads[block.label] = block.lines[0].target
    for number, block in enumerate(blocks[:-1]):
        if not block.lines:
            leads[block.label] = blocks[number + 1].label

    def final(label: str) -> str:
        seen = set()
        while label in leads and label not in seen:
            seen.add(label)
            label = leads[label]  # type: ignore[assignment]
        return label

    for block in blocks:
        for line in block.lines:
            if line.target is not None:
                line.target = final(line.target)
    kept = _reached(blocks, addressed)
    for block, following in zip(kept, [*kept[1:], None]):
        lines = block.lines
        after = following.label if following else None
        if len(lines) >= 2 and lines[-1].op == "br" and lines[-2].op in ("bz", "bnz") and lines[-2].target == after:
            lines[-2].op = "bnz" if lines[-2].op == "bz" else "bz"
            lines[-2].target = lines[-1].target
            lines.pop()
        if lines and lines[-1].op == "br" and lines[-1].target == after:
            lines.pop()
    for block in kept:
        for line in block.lines:
            line.op = line.op.partition(":")[0]
    return kept


def _reached(blocks: list[TextBlock], addressed: Iterable[str]) -> list[TextBlock]:
    """The blocks that something leads to. The first is the function's own."""
    wanted = {line.target for block in blocks for line in block.lines if line.target is not None}
    wanted.update(addressed)
    kept: list[TextBlock] = []
    falls = True
    for block in blocks:
        if falls or block.label in wanted:
            kept.append(block)
            if not block.lines:
                falls = True
            else:
                falls = block.lines[-1].op not in ("br", "jmp", "halt", "br:row")
    return kept
