"""The answer of `mmachine explore`."""

from __future__ import annotations

import signal
from typing import Iterator

from mm.build import Built
from mm.console import Console
from mm.explore.progress import Progress
from mm.names.numbers import counted
from mm.outputs.exploration import Exploration, read_exploration
from mm.status import SIGNALLED, Refused, Status

# How a search ends for which there is too little memory: `mmachine` says so, or the system ends it.
NO_ROOM = (Status.NO_MEMORY, SIGNALLED + signal.SIGKILL)
# On a terminal a search for many configurations is begun with so many, so that one sees what there is among these.
STAGES = (1_000_000, 10_000_000)


def stages(states: int, shown: bool) -> Iterator[int]:
    """How many configurations are looked at, one number after another if somebody looks on."""
    yield from (stage for stage in STAGES if shown and stage < states)
    yield states


def _within_memory(console: Console, built: Built, states: int, progress: Progress) -> tuple[Exploration, int]:
    """What is found in so many configurations, or, as often as memory runs out, in half as many; and in how many."""
    while True:
        try:
            answer = console.ask(["explore", built.path, str(states)], [built.file])
            return read_exploration(answer.text), states
        except Refused as stop:
            if stop.status not in NO_ROOM or states == 1:
                raise
        progress.clear()
        console.tell(f"mm: note: memory ran out: in place of {states} configurations at most {states // 2} are looked at")
        states //= 2


def explored(console: Console, built: Built, states: int) -> tuple[Exploration, int]:
    """What is found in so many configurations, and in how many it was looked for: in fewer where memory ran out."""
    with Progress(console.err) as progress:
        for stage in stages(states, progress.shown):
            found, kept = _within_memory(console, built, stage, progress)
            if found.all or kept < stage:
                break
            progress.say(f"{counted(found.count, 'configuration')} so far, with {summary(found)}")
    return found, kept


def summary(found: Exploration) -> str:
    return f"{counted(len(found.faults), 'fault')} and {counted(len(found.outcomes), 'outcome')}"
