"""Traces: a line for each turn, and the report after them."""

from __future__ import annotations

import re
from itertools import tee
from typing import Iterable, Iterator, Optional, Protocol, TypeVar

from mm.formats.schedule import PORT, Schedule
from mm.machine.words import Word
from mm.outputs.report import Report, read_report
from mm.records import dataclass

TURN = re.compile(
    r"t (\d+) (\d+) (did|blocked|faulted (\d+))(?: fetch ([0-9a-f]{14}))?(?: (load|loadset|store) ([0-9a-f]{14}))?(?: enter (p[0-9a-f]{16}))?"
)
DELIVERY = re.compile(r"m (\d+) (\d+)")


@dataclass(frozen=True)
class Turn:
    """A turn of a slot, or with `delivered` the register to which its port delivered a load."""

    slot: int
    number: int
    outcome: str
    fault: Optional[int] = None
    fetch: Optional[int] = None
    access: Optional[str] = None
    address: Optional[int] = None
    entered: Optional[Word] = None
    delivered: Optional[int] = None

    @property
    def item(self) -> int:
        """The item of a schedule that makes this turn."""
        return self.slot if self.delivered is None else PORT + self.slot

    @property
    def writes(self) -> bool:
        """Whether it wrote a word or set its bit."""
        return self.outcome == "did" and self.access in ("store", "loadset")


def read_turn(line: str) -> Optional[Turn]:
    """What a line of a trace says, or none if it is no such line."""
    match = TURN.match(line)
    if match:
        slot, number, outcome, fault, fetch, access, address, entered = match.groups()
        return Turn(
            int(slot),
            int(number),
            outcome.split()[0],
            int(fault) if fault else None,
            int(fetch, 16) if fetch else None,
            access,
            int(address, 16) if address else None,
            Word.parse(entered) if entered else None,
        )
    match = DELIVERY.match(line)
    return Turn(int(match[1]), 0, "delivered", delivered=int(match[2])) if match else None


def split_trace(text: str) -> tuple[list[str], Report]:
    """The lines of the turns, and the report after them."""
    begin = 0 if text.startswith("cycles ") else text.find("\ncycles ") + 1
    return text[:begin].splitlines(), read_report(text[begin:].splitlines())


def item_of(line: str) -> int:
    """The item of a schedule that makes the turn of a line."""
    word, slot = line.split(None, 2)[:2]
    return int(slot) + (PORT if word == "m" else 0)


def cycles_of(items: Iterable[int], schedule: Optional[Schedule]) -> Iterator[int]:
    """The cycle of each turn, from 1, by its item. In round robin every cycle has a turn. An item of a schedule is idle exactly if it
    does not make the next turn: an idle item changes nothing, so the slot of the next turn can already take it."""
    if schedule is None:
        yield from (cycle for cycle, _ in enumerate(items, 1))
        return
    said = enumerate(schedule.items(), 1)
    for wanted in items:
        cycle = next((cycle for cycle, item in said if item == wanted), None)
        if cycle is None:
            return
        yield cycle


class HasItem(Protocol):
    """Something that an item of a schedule made: a turn, or a step of a log."""

    @property
    def item(self) -> int: ...


Made = TypeVar("Made", bound=HasItem)


def numbered(turns: Iterable[Made], schedule: Optional[Schedule]) -> Iterator[tuple[int, Made]]:
    """Each turn with its cycle."""
    if schedule is None:
        yield from enumerate(turns, 1)
        return
    ours, theirs = tee(turns)
    yield from zip(cycles_of((turn.item for turn in theirs), schedule), ours)
