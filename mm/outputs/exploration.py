"""Explorations: what `explore` finds under every schedule."""

from __future__ import annotations

from typing import Mapping, Optional

from mm.outputs.report import state_of, state_text
from mm.records import dataclass, field


@dataclass
class Reached:
    """What a group touched and wrote: the first address and the number of words of each run."""

    group: int
    touched: list[tuple[int, int]] = field(default_factory=list)
    wrote: list[tuple[int, int]] = field(default_factory=list)


ENDED, STUCK, ENDLESS = "ended", "stuck", "endless"
BUSY, RUNNING = "busy", "running"
# The states of slots that still wait for something where nothing comes any more.
LEFT = (RUNNING, "waiting", "taken")


@dataclass
class Outcome:
    """A way to end or to go on for ever: its kind, how each slot stands, each output, the first schedule, and how many final
    configurations, or sets that are never left, have it."""

    kind: str
    states: dict[int, str] = field(default_factory=dict)
    outputs: dict[int, bytes] = field(default_factory=dict)
    schedule: str = ""
    count: int = 1

    @property
    def ended(self) -> bool:
        """Whether no slot runs any more."""
        return self.kind == ENDED

    @property
    def waiting(self) -> list[int]:
        """The slots that have turns for ever, none of which does anything."""
        return [number for number, state in self.states.items() if state == RUNNING]

    @property
    def left(self) -> list[int]:
        """The slots that wait: for a word, for an event, or for a handler that looks at their fault."""
        return [number for number, state in self.states.items() if state in LEFT]

    @property
    def busy(self) -> list[int]:
        """The slots that change for ever."""
        return [number for number, state in self.states.items() if state == BUSY]

    def told(self, said: Optional[Mapping[int, str]] = None) -> list[str]:
        """The slots and the outputs as lines for people, with what is said of some slots in place of their states."""
        slots = [f"slot {number} {(said or {}).get(number, state)}" for number, state in self.states.items()]
        texts = [
            f'group {group} prints "{data.decode("latin-1").encode("unicode_escape").decode()}"'
            for group, data in self.outputs.items()
            if data
        ]
        return slots + texts


@dataclass
class Exploration:
    """What was found: how many configurations, whether these are all, the groups, the faults and the outcomes."""

    count: int = 0
    all: bool = False
    groups: list[Reached] = field(default_factory=list)
    faults: list[tuple[int, int, str]] = field(default_factory=list)
    outcomes: list[Outcome] = field(default_factory=list)


class Reader:
    """Reads the lines of an exploration one after another."""

    def __init__(self) -> None:
        self.found, self.group, self.fault = Exploration(), 0, (0, 0)

    def take(self, words: list[str]) -> None:
        found, verb = self.found, words[0]
        if verb == "explored":
            found.count, found.all = int(words[1]), words[2] == "all"
        elif verb in ("touched", "wrote"):
            getattr(found.groups[-1], verb).append((int(words[1], 16), int(words[2])))
        elif verb == "fault":
            self.fault = (int(words[1]), int(words[2]))
        elif verb == "outcome":
            found.outcomes.append(Outcome(words[2], count=int(words[1])))
        elif verb == "by":
            self.schedule(" ".join(words[1:]))
        elif not found.outcomes:
            found.groups.append(Reached(int(words[1])))
        else:
            self.end(found.outcomes[-1], words)

    def schedule(self, text: str) -> None:
        if self.found.outcomes:
            self.found.outcomes[-1].schedule = text
        else:
            self.found.faults.append((*self.fault, text))

    def end(self, outcome: Outcome, words: list[str]) -> None:
        """A line of an outcome: a slot, or a group's output."""
        if words[0] == "slot":
            outcome.states[int(words[1])] = BUSY if words[2] == BUSY else state_text(*state_of(words[2:]))
        elif words[0] == "group":
            self.group = int(words[1])
            outcome.outputs[self.group] = b""
        else:
            outcome.outputs[self.group] += bytes.fromhex(words[1])


def read_exploration(text: str) -> Exploration:
    """The exploration that a text spells."""
    reader = Reader()
    for line in text.splitlines():
        reader.take(line.split())
    return reader.found
