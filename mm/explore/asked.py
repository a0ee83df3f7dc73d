"""What `mm explore` is asked: how many configurations it looks at, and which faults are meant."""

from __future__ import annotations

from typing import Optional, Sequence

from mm.machine.causes import Cause
from mm.names.numbers import number_of
from mm.status import usage
from mm.words import MOST_STATES

USUAL = 100_000


def states_of(said: Optional[str]) -> int:
    """The value of --states."""
    states = USUAL if said is None else number_of(said)
    if states is None or not 1 <= states <= MOST_STATES:
        raise usage(f"mm: explore: --states is a number from 1 to {MOST_STATES}, not `{said}`")
    return states


def _cause(text: str) -> Cause:
    """A fault by its number or its name."""
    number = number_of(text)
    found = Cause.of_title(text) if number is None else Cause.of_number(number)
    if found is None:
        raise usage(
            f"mm: explore: --meant is a fault by its number or its name, as 11 or Trap, not `{text}`",
            "    `mm help faults` lists them",
        )
    return found


def meant_of(said: Sequence[str]) -> frozenset[int]:
    """The numbers of the faults that are meant. A value may have several, with commas between."""
    return frozenset(_cause(each.strip()).number for text in said for each in text.split(","))
