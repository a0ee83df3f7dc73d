"""Faults of slots in words, each told from the moment at which it came."""

from __future__ import annotations

from typing import TYPE_CHECKING, Callable, Optional

from mm.formats.image import Image
from mm.machine.causes import Cause
from mm.outputs.report import Report, SlotState
from mm.outputs.trace import Turn
from mm.views.cview import CView
from mm.views.said import FaultSaid
from mm.views.spell import Memory, Speller
from mm.views.why import turn_of, why

if TYPE_CHECKING:
    from mm.log.past import Past

ReportAt = Callable[[int], Report]
BEFORE = "this came before the checkpoint: its run is not looked at here"


def said_of(
    cause: Cause, slot: SlotState, turn: Turn, memory: Memory, speller: Speller, past: Optional[Past] = None
) -> FaultSaid:
    """A fault, with the slot and the memory as they were in its turn. `past` is the run up to it."""
    return FaultSaid(CView(slot, memory, speller, past).fault(cause, turn), why(cause, slot, turn, memory, speller))


def said_at(
    report: Report, number: int, turn: Optional[Turn], image: Image, speller: Speller, past: Optional[Past] = None
) -> Optional[FaultSaid]:
    """The fault of a slot, by the report right after its turn; without the line of the trace by what it must have said."""
    slot = report.slot(number)
    fault = turn.fault if turn else slot.fault if slot else None
    cause = Cause.of_number(fault) if fault else None
    if slot is None or cause is None:
        return None
    memory = Memory.after(image, report)
    return said_of(cause, slot, turn or turn_of(cause, slot, memory), memory, speller, past)


def stopped(report: Report) -> list[int]:
    """The slots that a fault has halted."""
    return [slot.number for slot in report.slots if slot.fault]


def moment_of(report_at: ReportAt, last: int, number: int) -> int:
    """After how many cycles a slot is first halted by its fault, which it stays from then on."""
    first = 0
    while first < last:
        middle = (first + last) // 2
        if number in stopped(report_at(middle)):
            last = middle
        else:
            first = middle + 1
    return first


def said_by_reports(
    report: Report, report_at: ReportAt, last: int, image: Image, speller: Speller
) -> dict[int, FaultSaid]:
    """What is said of each fault of a run of which there is no trace, but the report after any number of its cycles."""
    found = {}
    for number in stopped(report):
        moment = moment_of(report_at, last, number)
        slot = report.slot(number)
        cause = Cause.of_number(slot.fault) if slot and slot.fault else None
        said = said_at(report_at(moment), number, None, image, speller) if moment else None
        if said or cause:
            found[number] = said or FaultSaid(None, [cause.meaning if cause else "", BEFORE])
    return found
