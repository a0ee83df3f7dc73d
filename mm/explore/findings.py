"""What is told of findings beside the answer of `mmachine explore`."""

from __future__ import annotations

from typing import Optional

from mm.machine.memory import Memory
from mm.outputs.report import Report, SlotState
from mm.outputs.trace import Turn
from mm.records import dataclass
from mm.views.said import FaultSaid


@dataclass(frozen=True)
class Met:
    """A fault as it is met: the report and the memory right after its turn, the slot in it, what is said of the fault, and the
    number of the handler."""

    report: Report
    memory: Memory
    slot: SlotState
    said: FaultSaid
    handler: Optional[int]


# Faults by slot and number; and what is said of slots in place of their states, by the schedule of the outcome and the number.
Places = dict[tuple[int, int], Met]
Standings = dict[tuple[str, int], str]


@dataclass(frozen=True)
class Write:
    """That a group writes a word: the least schedule, the turn at its end, and the memory after that."""

    group: int
    schedule: str
    turn: Turn
    memory: Memory


@dataclass(frozen=True)
class Written:
    """A word; what each group does that writes it; the groups that only try to, since each such turn is blocked or has a fault; and
    those for which no schedule was looked for, since it is too far."""

    word: int
    writes: list[Write]
    tries: list[int]
    later: list[int]
