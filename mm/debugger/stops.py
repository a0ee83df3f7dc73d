"""The debugger's commands for breaks, watches and displays that are there already."""

from __future__ import annotations

import re
from typing import TYPE_CHECKING, Callable, Iterable

from mm.debugger.conditions import condition_of
from mm.debugger.evaluate import count_of
from mm.debugger.points import Point
from mm.names.numbers import counted

if TYPE_CHECKING:
    from mm.debugger.commands import Debugger

Lines = Iterable[str]
# The names of `run`: it comes to the stop again whose lines it is among.
BEGIN_AGAIN = ("r", "ru", "run")
RANGE = re.compile(r"(\d{1,6})(?:-(\d{1,6}))?")


class Wrong(Exception):
    """A line that cannot be carried out, with the reason."""


def delete(debugger: Debugger, rest: str) -> Lines:
    points = debugger.session.points
    if not rest:
        points.clear()
        yield "no breaks and no watches are left"
        return
    for point in _points_of(debugger, rest):
        points.remove(point)
        yield f"{point.number} is gone"


def commands(debugger: Debugger, rest: str) -> Lines:
    """Takes the lines up to `end`, which are carried out after each stop at some breaks and watches; at the last that was set if
    none is named."""
    points = _points_of(debugger, rest)
    if not rest:
        points = [max(points, key=lambda point: point.number)] if points else []
    if not points:
        raise Wrong("there is no break or watch that lines could be carried out at")
    lines: list[str] = []
    while True:
        line = debugger.read_line()
        word = line.split()[0] if line and line.split() else ""
        if line is None or word == "end":
            break
        if word == "commands":
            raise Wrong("lines of `commands` have no `commands` among them: nothing is changed")
        if word:
            lines.append(line.strip())
    if any(line.split()[0] in BEGIN_AGAIN for line in lines):
        raise Wrong("lines of `commands` have no `run` among them, which comes to the same stop again and again: "
                    "nothing is changed")
    for point in points:
        point.commands = tuple(lines)
        yield f"{point.number}: {point}" + (f", then {counted(len(lines), 'line')}" if lines else ", and no lines")


def alone(name: str) -> Callable[[Debugger, str], Lines]:
    """A word that has its place among the lines of `commands`."""

    def run(debugger: Debugger, rest: str) -> Lines:
        raise Wrong(f"`{name}` stands only in the lines that follow `commands`")

    return run


def _points_of(debugger: Debugger, rest: str) -> list[Point]:
    """The breaks and watches that numbers name, or ranges of them as 1-3; all if none is written."""
    points, found = debugger.session.points, []
    for word in rest.split():
        match = RANGE.fullmatch(word)
        first, last = (int(match[1]), int(match[2] or match[1])) if match else (1, 0)
        named = [point for point in points if first <= point.number <= last]
        if not named:
            raise Wrong(f"there is no break or watch {word}: `info breakpoints` lists them")
        found += [point for point in named if point not in found]
    return found or list(points)


def switch(enabled: bool) -> Callable[[Debugger, str], Lines]:
    def run(debugger: Debugger, rest: str) -> Lines:
        for point in _points_of(debugger, rest):
            point.enabled = enabled
            yield f"{point.number}: {point}"

    return run


def condition(debugger: Debugger, rest: str) -> Lines:
    number, _, text = rest.partition(" ")
    if not number:
        raise Wrong("say of which break, and what must be so: `condition 1 r3 == 32`; `condition 1` takes it away")
    point = _points_of(debugger, number)[0]
    point.condition = condition_of(text, debugger.session) if text.strip() else None
    yield f"{point.number}: {point}"


def ignore(debugger: Debugger, rest: str) -> Lines:
    number, _, count = rest.partition(" ")
    if not number or not count.strip():
        raise Wrong("say which break, and how often the run goes on there: `ignore 1 5`")
    point = _points_of(debugger, number)[0]
    point.ignored = count_of(count.strip(), 0)
    yield f"{point.number}: {point}"


def undisplay(debugger: Debugger, rest: str) -> Lines:
    shown = debugger.displays
    places = [count_of(word) for word in rest.split()] or list(range(1, len(shown) + 1))
    for place in sorted(set(places), reverse=True):
        if place > len(shown):
            raise Wrong(f"there is no display {place}: `info display` lists them")
        yield f"{shown.pop(place - 1)} is shown no more"


def displays(debugger: Debugger, rest: str) -> Lines:
    yield from (f"{place:>3}  {text}" for place, text in enumerate(debugger.displays, 1))
    if not debugger.displays:
        yield "no values are shown at stops"
