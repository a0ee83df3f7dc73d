"""Where a run is to stop: breaks before an instruction; watches, faults and entries after a turn."""

from __future__ import annotations

import re
from enum import Enum
from typing import TYPE_CHECKING, Iterable, Optional

from mm.outputs.trace import Turn
from mm.records import dataclass

if TYPE_CHECKING:
    from mm.debugger.conditions import Condition


class PointKind(Enum):
    """The kinds of points: what they are called, whether the run stops before the turn, and what a trace line of theirs has."""

    BREAK = ("break", True, "fetch")
    WATCH = ("watch", False, "(?:store|loadset)")
    READ = ("rwatch", False, "(?:load|loadset)")
    ACCESS = ("awatch", False, "(?:load|loadset|store)")
    FAULT = ("fault", False, "")
    ENTRY = ("entry", False, "")

    def __init__(self, title: str, before: bool, access: str) -> None:
        self.title, self.before, self.access = title, before, access

    @property
    def has_place(self) -> bool:
        return self not in (PointKind.FAULT, PointKind.ENTRY)


LONGEST_LIST = 64


@dataclass
class Point:
    """A point: its number, its kind, what was typed, where it is, how many bytes it covers, the slot that it is for, and
    what must be so there."""

    number: int
    kind: PointKind
    text: str
    address: int = 0
    length: int = 8
    slot: Optional[int] = None
    once: bool = False
    condition: Optional[Condition] = None
    hits: int = 0
    # Whether the run stops here, and how often it first goes on.
    enabled: bool = True
    ignored: int = 0
    # The lines that are carried out after a stop here.
    commands: tuple[str, ...] = ()

    @property
    def pattern(self) -> str:
        """What a line of a trace has where this point may be meant."""
        if self.kind is PointKind.FAULT:
            return " faulted "
        if self.kind is PointKind.ENTRY:
            return " enter "
        words = [f"{address:014x}" for address in range(self.address, self.address + self.length, 8)]
        place = f"(?:{'|'.join(words)})" if len(words) <= LONGEST_LIST else "[0-9a-f]{14}"
        return f" {self.kind.access} {place}"

    def meets(self, turn: Turn) -> bool:
        """Whether a turn is one that this point waits for."""
        if self.slot is not None and turn.slot != self.slot:
            return False
        if self.kind is PointKind.FAULT:
            return turn.fault is not None
        if self.kind is PointKind.ENTRY:
            return turn.entered is not None
        if self.kind is PointKind.BREAK:
            return turn.fetch is not None and self.address <= turn.fetch < self.address + self.length
        if (
            turn.outcome != "did"
            or turn.address is None
            or not self.address <= turn.address < self.address + self.length
        ):
            return False
        return re.fullmatch(self.kind.access, turn.access or "") is not None

    def __str__(self) -> str:
        return " ".join(
            filter(
                None,
                [
                    self.kind.title,
                    self.text,
                    f"slot {self.slot}" if self.slot is not None else "",
                    "once" if self.once else "",
                    f"if {self.condition.text}" if self.condition else "",
                    "" if self.enabled else "(disabled)",
                    f"(goes on {self.ignored} more times)" if self.ignored else "",
                ],
            )
        )


def pattern_of(points: Iterable[Point]) -> re.Pattern[str]:
    """What a line has that one of the points may meet; one that no line has if there is no point."""
    return re.compile("|".join(point.pattern for point in points) or r"(?!)")
