"""What `explore` says of an image, found a second time: the configurations by breadth, and the sets of them that are never left, by
components of the graph of moves."""

from __future__ import annotations

from dataclasses import dataclass
from typing import Callable, Iterable, Optional

from mm.explore.breadth import Breadth
from mm.explore.parts import WRITING, Step
from mm.formats.image import Image
from mm.formats.schedule import schedule_of

BUSY = "busy"


@dataclass(frozen=True)
class Outcome:
    """How a set of configurations ends: its kind, how each slot stands, and the output of each group."""

    kind: str
    slots: tuple[str, ...]
    outputs: tuple[bytes, ...]


class Search(Breadth):
    """The configurations of an image's machine, up to a number, and what is met on the moves from them."""

    def __init__(self, image: Image, most: int) -> None:
        super().__init__(image, most)
        # From one configuration to another, by a move; -1 stands for one for which there is no room.
        edges: list[tuple[int, int]] = []
        self.touched: list[set[int]] = [set() for _ in self.machine.groups]
        self.wrote: list[set[int]] = [set() for _ in self.machine.groups]
        # The words that turns of a group really wrote, each with the group.
        self.stored: set[tuple[int, int]] = set()
        self.faults: dict[tuple[int, int], tuple[int, int]] = {}
        for at, item, step, to in self.moves():
            self.note(step, (at, item))
            edges.append((at, -1 if to is None else to))
        self.children: list[list[int]] = [[] for _ in self.found]
        for at, child in edges:
            self.children[at].append(child)

    def note(self, step: Step, by: tuple[int, int]) -> None:
        group = self.machine.of_group[step.place]
        for kind, word in step.accesses:
            self.touched[group].add(word)
            if kind in WRITING:
                self.wrote[group].add(word)
            if step.wrote(word):
                self.stored.add((self.machine.groups[group], word))
        if step.fault:
            self.faults.setdefault((self.machine.numbers[step.place], step.fault), by)

    def at(self, items: Iterable[int]) -> int:
        """The index of the configuration to which items lead."""
        here = self.found[0]
        for item in items:
            if item in self.machine.moves(here):
                here = self.machine.move(here, item)[1]
        return self.known[here]

    def way(self, begin: int, ends: Callable[[int], bool]) -> tuple[int, ...]:
        """A least list of moves from one configuration to some other, for which something holds."""
        came: dict[int, tuple[int, int]] = {begin: (begin, 0)}
        queue = [begin]
        for at in queue:
            if at != begin and ends(at):
                items = []
                while at != begin:
                    at, item = came[at]
                    items.append(item)
                return tuple(reversed(items))
            for item, child in zip(self.machine.moves(self.found[at]), self.children[at]):
                if child not in came:
                    came[child] = (at, item)
                    queue.append(child)
        raise ValueError(f"no way leads on from configuration {begin}")

    def round_of(self, begin: int, index: int) -> tuple[tuple[int, ...], tuple[int, ...]]:
        """Moves after which a slot is another than it was, and moves after which all is as it was."""
        slot = self.found[begin].threads[index]
        away = self.way(begin, lambda at: self.found[at].threads[index] != slot)
        here = self.found[begin]
        for item in away:
            here = self.machine.move(here, item)[1]
        return away, self.way(self.known[here], lambda at: at == begin)

    # Ends.

    def finals(self) -> list[int]:
        return [at for at, children in enumerate(self.children) if all(child == at for child in children)]

    def endless(self) -> list[list[int]]:
        """The sets of more than one configuration that are never left, by their first members."""
        if not self.all:
            return []
        sets = [sorted(part) for part in components(self.children)]
        whole = [part for part in sets if len(part) > 1 and is_closed(part, self.children)]
        return sorted(whole)

    def outcome_of(self, members: list[int], kind: str) -> Outcome:
        first = self.found[members[0]]
        slots = [thread.state for thread in first.threads]
        for index in range(len(slots)):
            if any(self.found[at].threads[index] != first.threads[index] for at in members):
                slots[index] = BUSY
        if any(self.found[at].outputs != first.outputs for at in members):
            raise AssertionError("members of a set that is never left have put out different bytes")
        return Outcome(kind, tuple(slots), first.outputs)

    def outcomes(self) -> list[tuple[Outcome, int, int]]:
        """The outcomes, each with how many ends have it and the first configuration of the first."""
        ends = [([at], "stuck" if self.children[at] else "ended") for at in self.finals()]
        ends += [(members, "endless") for members in self.endless()]
        found: dict[Outcome, tuple[int, int]] = {}
        for members, kind in ends:
            outcome = self.outcome_of(members, kind)
            count, first = found.get(outcome, (0, members[0]))
            found[outcome] = (count + 1, first)
        return [(outcome, count, first) for outcome, (count, first) in found.items()]

    # Text.

    def lines(self) -> list[str]:
        machine = self.machine
        lines = [f"explored {len(self.found)} {'all' if self.all else 'more'}"]
        for index, group in enumerate(machine.groups):
            lines.append(f"group {group}")
            lines += [f"touched {first:014x} {count}" for first, count in runs_of(self.touched[index])]
            lines += [f"wrote {first:014x} {count}" for first, count in runs_of(self.wrote[index])]
        for (slot, cause), (at, item) in sorted(self.faults.items()):
            lines += [f"fault {slot} {cause}", by((*self.schedule(at), item))]
        for outcome, count, first in self.outcomes():
            lines.append(f"outcome {count} {outcome.kind}")
            lines += [f"slot {number} {state}" for number, state in zip(machine.numbers, outcome.slots)]
            for group, output in zip(machine.groups, outcome.outputs):
                lines.append(f"group {group} output {len(output)}")
                lines += [f"o {output[k : k + 32].hex()}" for k in range(0, len(output), 32)]
            lines.append(by(self.schedule(first)))
        return lines


def by(items: tuple[int, ...]) -> str:
    return f"by {schedule_of(items).text.decode()}".rstrip()


def runs_of(words: set[int]) -> list[tuple[int, int]]:
    """The longest runs of words, each with its first and how many."""
    runs: list[list[int]] = []
    for word in sorted(words):
        if runs and runs[-1][0] + 8 * runs[-1][1] == word:
            runs[-1][1] += 1
        else:
            runs.append([word, 1])
    return [(first, count) for first, count in runs]


def is_closed(members: list[int], children: list[list[int]]) -> bool:
    inside = set(members)
    return all(child in inside for at in members for child in children[at])


def finished(children: list[list[int]]) -> list[int]:
    """The nodes of a graph in the order in which a walk by depth leaves them."""
    order: list[int] = []
    seen = [False] * len(children)
    for root in range(len(children)):
        if seen[root]:
            continue
        seen[root] = True
        stack = [(root, iter(children[root]))]
        while stack:
            at, rest = stack[-1]
            child: Optional[int] = next((each for each in rest if not seen[each]), None)
            if child is None:
                order.append(at)
                stack.pop()
            else:
                seen[child] = True
                stack.append((child, iter(children[child])))
    return order


def components(children: list[list[int]]) -> list[list[int]]:
    """The strongly connected components of a graph: two walks, the second against its edges."""
    parents: list[list[int]] = [[] for _ in children]
    for at, each in enumerate(children):
        for child in each:
            parents[child].append(at)
    parts: list[list[int]] = []
    seen = [False] * len(children)
    for root in reversed(finished(children)):
        if seen[root]:
            continue
        seen[root] = True
        part = [root]
        for at in part:
            for parent in parents[at]:
                if not seen[parent]:
                    seen[parent] = True
                    part.append(parent)
        parts.append(part)
    return parts
