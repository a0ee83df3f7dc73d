"""How `mm` ends: the statuses of `mmachine`, and one of its own for a program that is not there."""

from __future__ import annotations

from enum import IntEnum
from typing import TYPE_CHECKING, Optional, Sequence

if TYPE_CHECKING:
    from mm.messages.diagnostic import Diagnostic


class Status(IntEnum):
    """An exit status. 0 to 6 are those of `mmachine`."""

    DONE = 0
    USAGE = 1
    REFUSED = 2
    READ_FAULT = 3
    WRITE_FAULT = 4
    NO_MEMORY = 5
    NO_WORDS = 6
    # A fault of `mm` itself.
    OWN_FAULT = 70
    NO_PROGRAM = 127


# A process that a signal ends has the signal's number above this.
SIGNALLED = 128


class Stop(Exception):
    """The end of a command that could not be done: its status, and what is told on the standard error."""

    def __init__(self, status: int, *lines: str) -> None:
        super().__init__(*lines)
        self.status, self.lines = status, lines


class Refused(Stop):
    """Files that are not what they must be, with a message for each place, and how many there are in all: as many if nothing is
    said, and none if there are more and they were not counted."""

    def __init__(self, status: int, diagnostics: Sequence[Diagnostic], total: Optional[int] = 0) -> None:
        super().__init__(status)
        self.diagnostics, self.total = list(diagnostics), total


def usage(*lines: str) -> Stop:
    return Stop(Status.USAGE, *lines)
