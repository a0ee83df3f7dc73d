"""Which groups write a word, and the least schedule with which each of them does.

The answer of `mmachine explore` has the groups, and no schedule. So the second machine looks at the same configurations in the
same order, up to the turn that writes; and a run under the schedule that it finds shows that the turn is one of `mmachine`."""

from __future__ import annotations

from typing import Iterable

from mm.build import Built
from mm.console import Console
from mm.explore.breadth import Breadth
from mm.explore.findings import Write, Written
from mm.explore.looking import explored
from mm.explore.places import run_under
from mm.explore.progress import Progress
from mm.formats.image import Image
from mm.formats.schedule import schedule_of
from mm.outputs.exploration import Exploration
from mm.views.spell import Memory

# The second machine looks at so many configurations: it takes a minute for them. After so many of these it is told how far it is.
MOST_LOOKED, OFTEN = 200_000, 1000


def writers(found: Exploration, word: int) -> list[int]:
    """The groups that made an access to a word that writes, also in a turn that was blocked or has a fault."""
    return [each.group for each in found.groups if any(first <= word < first + 8 * count for first, count in each.wrote)]


def first_writes(image: Image, word: int, groups: Iterable[int], most: int, progress: Progress) -> dict[int, str]:
    """The least schedules with which groups write a word, as far as they do so in so many configurations."""
    left, found, breadth = set(groups), {}, Breadth(image, most)
    machine = breadth.machine
    for at, item, step, _ in breadth.moves() if left else ():
        if at % OFTEN == 0:
            progress.say(f"looking for a schedule: {at} of {most} configurations")
        group = machine.groups[machine.of_group[step.place]]
        if group in left and step.wrote(word):
            found[group] = schedule_of((*breadth.schedule(at), item)).text.decode()
            left.remove(group)
            if not left:
                break
    return found


def _confirmed(console: Console, built: Built, group: int, schedule: str, word: int) -> Write:
    """The write at the end of a schedule, as `mmachine` has it."""
    report, turn = run_under(console, built, schedule)
    slot = report.slot(turn.slot) if turn else None
    if turn is None or slot is None or (slot.group, turn.writes, turn.address) != (group, True, word):
        raise AssertionError(f"under the schedule {schedule} no turn of group {group} writes 0x{word:x} at the end")
    return Write(group, schedule, turn, Memory.after(built.image, report))


def written(console: Console, built: Built, found: Exploration, word: int) -> Written:
    """Who writes a word, in the configurations that were looked at."""
    groups, far = writers(found, word), found.count > MOST_LOOKED
    near = writers(explored(console, built, MOST_LOOKED)[0], word) if far else groups
    with Progress(console.err) as progress:
        schedules = first_writes(built.image, word, near, min(found.count, MOST_LOOKED), progress)
    writes = [_confirmed(console, built, group, schedules[group], word) for group in groups if group in schedules]
    others = [group for group in groups if group not in schedules]
    return Written(word, writes, [] if far else others, others if far else [])
