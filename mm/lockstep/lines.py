"""Lines of logs as they come from simulators, and as people are told of them."""

from __future__ import annotations

import re
from typing import Iterable, Iterator, Optional, Sequence

from mm.machine.causes import Cause

# What no line of a log begins with: a comment or a time of a testbench, and what simulators say of themselves.
SKIPPED = ("#", "-", "%")
# What each line of a log begins with: of a turn, a change, and the report.
HEADS = frozenset("t m ip state r load event taken out page cell cycles group o slot pending counts".split())
# Where a line has the number of a fault.
FAULTS = (
    re.compile(r"t \d+ \d+ faulted (\d+)"),
    re.compile(r"state \d+ faulted (\d+)"),
    re.compile(r"event \d+ \d+ (\d+) "),
    re.compile(r"slot \d+ turns \d+ faulted (\d+)"),
)


def log_lines(lines: Iterable[str], more: Sequence[str] = ()) -> Iterator[str]:
    """The lines of a log without those that a simulator puts between them."""
    fronts = (*SKIPPED, *more)
    return (line for line in lines if not line.startswith(fronts))


def fault_of(line: str) -> Optional[Cause]:
    """The fault whose number a line has."""
    found = next(filter(None, (form.match(line) for form in FAULTS)), None)
    return Cause.of_number(int(found[1])) if found else None


def for_people(line: str) -> str:
    """A line with the name of its fault, and with what the eye does not see."""
    cause, seen = fault_of(line), line.rstrip()
    notes = [cause.title] if cause else []
    if line.partition(" ")[0] not in HEADS and seen:
        notes.append("no line of a log: --skip-lines TEXT skips lines that begin so")
    if seen != line:
        notes.append(f"trailing blank{'s' if len(line) - len(seen) > 1 else ''}")
    return f"{seen}    ({', '.join(notes)})" if notes else line
