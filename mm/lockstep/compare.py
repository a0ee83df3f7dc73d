"""Two logs turn by turn, as they come, up to the first difference."""

from __future__ import annotations

from dataclasses import dataclass, field
from itertools import zip_longest
from typing import Iterable, Iterator, Optional, Sequence

from mm.lockstep.case import Case, schedule_text
from mm.lockstep.programs import Command, Room, Running

HEADS, REPORT, COUNTS = ("t", "m", "cycles"), "cycles ", "counts "


def turns_of(lines: Iterable[str]) -> Iterator[list[str]]:
    """The lines of a log, those of each turn together; those of the report are the last ones."""
    turn: list[str] = []
    for line in lines:
        if turn and not turn[0].startswith(REPORT) and line.split(" ", 1)[0] in HEADS:
            yield turn
            turn = []
        turn.append(line)
    if turn:
        yield turn


def item_of(turn: list[str]) -> Optional[int]:
    """The item of a schedule that makes a turn; none of what is no turn."""
    words = turn[0].split(" ")
    if words[0] not in ("t", "m") or len(words) < 3 or not words[1].isdigit():
        return None
    return int(words[1]) + (128 if words[0] == "m" else 0)


def is_report(turn: Optional[list[str]]) -> bool:
    return turn is not None and turn[0].startswith(REPORT)


@dataclass
class Difference:
    """Where two logs part: how many turns are the same, the last of these, and what each has then; none at its end."""

    same: int
    before: list[str]
    model: Optional[list[str]]
    other: Optional[list[str]]
    model_wrong: list[str] = field(default_factory=list)
    other_wrong: list[str] = field(default_factory=list)


def without(lines: list[str], heads: Sequence[str]) -> list[str]:
    return [line for line in lines if not line.startswith(tuple(heads))]


def _agree(model: Optional[list[str]], other: Optional[list[str]], apart: Sequence[str]) -> bool:
    """Whether what both have next is the same. A program may leave out the report, and the report's line of counts.
    Lines of the report that begin with one of `apart` may differ."""
    if model is None or not is_report(model):
        return model == other
    if other is None:
        return True
    counts = any(line.startswith(COUNTS) for line in other)
    heads = (*apart, *(() if counts else (COUNTS,)))
    return is_report(other) and without(model, heads) == without(other, heads)


def first_difference(
    model: Iterable[str], other: Iterable[str], counted: Optional[list[int]] = None, apart: Sequence[str] = ()
) -> Optional[Difference]:
    """The first difference of two logs. `counted` gets how many turns are the same."""
    before: list[str] = []
    same = 0
    for mine, its in zip_longest(turns_of(model), turns_of(other)):
        if not _agree(mine, its, apart):
            return Difference(same, before, mine, its)
        if not is_report(mine):
            same, before = same + 1, mine
    if counted is not None:
        counted.append(same)
    return None


def _told(found: Optional[Difference], model: Running, other: Running, same: int) -> Optional[Difference]:
    """A difference with how the two programs ended; that one ended badly is a difference too."""
    if found is None and (model.wrong or other.wrong):
        found = Difference(same, [], None, None)
    if found is not None:
        found.model_wrong, found.other_wrong = model.wrong, other.wrong
    return found


class Pair:
    """The model and another program. With `follow` the other one decides the order of turns."""

    def __init__(self, model: Command, other: Command, follow: bool = False) -> None:
        self.model, self.other, self.follow = model, other, follow
        self.turns = 0

    def run(self, case: Case, items: tuple[int, ...], files: Room) -> Optional[Difference]:
        """Runs both on an image and items, and gives the first difference."""
        image = files.file(f"{case.name}.img", case.image)
        schedule = files.file(f"{case.name}.schedule", schedule_text(items).encode("ascii"))
        if self.follow:
            return self._followed(image, len(items), schedule, files)
        with self.model.run(image, len(items), schedule) as model, self.other.run(image, len(items), schedule) as other:
            return self._compare(model, model.lines, other, other.lines)

    def _followed(self, image: str, cycles: int, schedule: str, files: Room) -> Optional[Difference]:
        """The other program first; its turns, as far as they can be read, are the model's schedule."""
        with self.other.run(image, cycles, schedule) as other:
            lines = list(other.lines)
        items = [item for item in map(item_of, turns_of(lines)) if item is not None]
        order = files.file("order.schedule", schedule_text(tuple(items)).encode("ascii"))
        with self.model.run(image, len(items), order) as model:
            return self._compare(model, model.lines, other, lines)

    def _compare(
        self, model: Running, model_lines: Iterable[str], other: Running, other_lines: Iterable[str]
    ) -> Optional[Difference]:
        counted: list[int] = []
        # A program that decides the order has cycles of its own, in which nothing retires.
        apart = (REPORT,) if self.follow else ()
        found = first_difference(model_lines, other_lines, counted, apart)
        same = found.same if found else counted[0]
        self.turns += same
        return _told(found, model, other, same)
