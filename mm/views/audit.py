"""An audit for people: what each group can read and write, by name, and what joins groups that do not stand apart."""

from __future__ import annotations

from typing import Sequence

from mm.machine.words import bytes_in_words
from mm.names.symbols import Symbols
from mm.outputs.audit import Apart, Audit, Reach
from mm.views.style import Style

NAMES_SHOWN = 6


class AuditView:
    """Writes an audit as lines."""

    def __init__(self, symbols: Symbols, style: Style) -> None:
        self.symbols, self.style = symbols, style

    def segment(self, base: int, log: int) -> str:
        """A segment by its name; a longer one than any name with the names in it."""
        region = self.symbols.region(base)
        if region and (region.base, region.log) == (base, log):
            return region.name
        inside = [other.name for other in self.symbols.regions if base <= other.base and other.end <= base + (1 << log)]
        if inside:
            more = f" and {len(inside) - NAMES_SHOWN} more" if len(inside) > NAMES_SHOWN else ""
            return f"{self.symbols.show(base)} (with {', '.join(inside[:NAMES_SHOWN])}{more})"
        return self.symbols.show(base)

    def reach(self, reach: Reach, slots: Sequence[int]) -> list[str]:
        """What one group can read and write."""
        who = f"slot {slots[0]}" if len(slots) == 1 else f"slots {', '.join(map(str, slots))}"
        head = self.style.strong(f"group {reach.group}") + f" ({who})"
        if reach.privileged:
            return [f"{head}: {self.style.warn('privileged')}, so it can read and write everything"]
        rows = [("read and write" if segment in reach.write else "read", *segment) for segment in reach.touch]
        rows += [("write", *segment) for segment in reach.write if segment not in reach.touch]
        if not rows:
            return [f"{head} can read and write nothing"]
        names = [self.segment(base, log) for _, base, log in rows]
        width = max(map(len, names))
        lines = [
            f"  {what:<14}  {self.style.name(name.ljust(width))}  {bytes_in_words(log):>9}  0x{base:x}"
            for (what, base, log), name in zip(rows, names)
        ]
        return [f"{head} can", *lines]

    def apart(self, apart: Apart, but: str = "") -> str:
        """Whether groups stand apart, and if not, why; and by whom faults are handled all the same."""
        many = "," in apart.groups
        who = f"groups {apart.groups.replace(',', ', ')}" if many else f"group {apart.groups}"
        verb, pronoun = ("stand", "they") if many else ("stands", "it")
        if apart.apart:
            return (
                self.style.good(f"{who} {verb} apart")
                + f": nobody else can write a word that {pronoun} can read, and no fault is handled across{but}"
            )
        does_not = self.style.warn(f"{who} {'do' if many else 'does'} not stand apart")
        if apart.handler is not None:
            return f"{does_not}: slot {apart.handler} and its handler are on two sides"
        word = self.symbols.show(apart.word) if apart.word is not None else "a word"
        return f"{does_not}: group {apart.writer} can write {self.style.name(word)}, which {pronoun} can read"

    def lines(self, audit: Audit, slots: dict[int, list[int]]) -> list[str]:
        by_groups = {apart.groups: apart for apart in audit.aparts}
        lines: list[str] = []
        for reach in audit.reaches:
            lines += self.reach(reach, slots.get(reach.group, []))
            apart = by_groups.pop(str(reach.group), None) if len(audit.aparts) > 1 or len(audit.reaches) == 1 else None
            lines += ["  " + self.apart(apart), ""] if apart else [""]
        return lines[:-1] + [line for apart in by_groups.values() for line in ("", self.apart(apart))]
