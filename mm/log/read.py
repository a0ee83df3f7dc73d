"""The lines of a log, as turns with what each of them changed."""

from __future__ import annotations

from typing import Iterable, Iterator, Optional

from mm.log.changes import READERS, Change
from mm.outputs.report import Report, read_report
from mm.outputs.trace import Turn, read_turn
from mm.records import dataclass


@dataclass(frozen=True)
class Step:
    """A cycle that was not idle: its turn, and all that the turn changed, in the order of the log."""

    turn: Turn
    changes: tuple[Change, ...] = ()

    @property
    def item(self) -> int:
        """The item of a schedule that makes this turn."""
        return self.turn.item


class NoLog(Exception):
    """A text that is no log, with the line that is none of its lines."""


class LogReader:
    """A log that is read as it comes: first its steps, then the report after them."""

    def __init__(self, lines: Iterable[str]) -> None:
        self.lines = iter(lines)
        self.report = Report()

    def steps(self) -> Iterator[Step]:
        """The steps in their order. After the last one `report` is there."""
        turn: Optional[Turn] = None
        changes: list[Change] = []
        for line in self.lines:
            head = line[:2]
            if head in ("t ", "m ", "cy"):
                if turn is not None:
                    yield Step(turn, tuple(changes))
                if head == "cy":
                    self.report = read_report([line, *self.lines])
                    return
                turn, changes = read_turn(line), []
            else:
                words = line.split()
                reader = READERS.get(words[0]) if words else None
                if turn is None or reader is None:
                    raise NoLog(line)
                changes.append(reader(words))
        raise NoLog("the report is missing")


def read_log(lines: Iterable[str]) -> tuple[list[Step], Report]:
    """All steps of a log, and its report."""
    reader = LogReader(lines)
    return list(reader.steps()), reader.report
