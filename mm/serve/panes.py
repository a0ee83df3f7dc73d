"""What the page can ask of a program beside a run: a table of commands."""

from __future__ import annotations

import importlib
from dataclasses import dataclass
from typing import Any, Callable, Optional, Union

from mm.commands.behind import audit_of, behind_doors, names_of, patterns_of
from mm.commands.keeps import answer_of, files_and_segments, threads_of
from mm.explore.looking import explored
from mm.formats.schedule import read_schedule
from mm.names.kept import kept_of
from mm.outputs.audit import read_audit
from mm.outputs.exploration import Exploration
from mm.outputs.trace import numbered, read_turn, split_trace
from mm.pictures import audit as audit_picture
from mm.pictures import image as image_picture
from mm.pictures import keeps as keeps_picture
from mm.pictures import reach as reach_picture
from mm.pictures import trace as trace_picture
from mm.pictures.svg import Picture
from mm.serve.asked import NotAllowed
from mm.serve.console import Desk
from mm.serve.limits import Limits
from mm.serve.words import for_page
from mm.table import BY_NAME
from mm.views.keptwords import listed

Json = Any
# A field of a question: what it is called, and the words to choose from, or `group`, or `name`.
Field = tuple[str, Union[str, tuple[str, ...]]]
FILE = "sources"
# So many configurations are looked at, and so many turns are drawn, at most.
MOST_STATES, MOST_DRAWN = 100_000, 120


@dataclass(frozen=True)
class Pane:
    """A pane: the command that it shows, what it is called, what it says in a line, its picture, and its options that
    have the number of configurations as their value. `fields` are the words that it wants, with an example; `guess`
    gives them where none are said."""

    command: str
    title: str
    says: str
    picture: Optional[Callable[[Desk], Optional[Picture]]] = None
    options: tuple[str, ...] = ()
    guess: Optional[Callable[[Desk], list[str]]] = None
    fields: tuple[Field, ...] = ()
    example: str = ""


def _exploration(desk: Desk) -> Exploration:
    return explored(desk, desk.built, desk.states)[0]


def _audit(desk: Desk) -> Picture:
    audit = read_audit(desk.ask(["grants", desk.built.path], [desk.built.file]).text)
    return audit_picture.draw(audit, desk.built, "What the groups can reach")


def _image(desk: Desk) -> Picture:
    return image_picture.draw(desk.built, "The image")


def _reach(desk: Desk) -> Picture:
    return reach_picture.draw(desk.built, "Who points to what at the start")


def _keeps(desk: Desk) -> Picture:
    _, words = files_and_segments(desk.words)
    kept = kept_of(words, desk.built.symbols)
    found = answer_of(desk, desk.built, kept, threads_of(desk))
    return keeps_picture.draw(found, desk.built, kept, "What the kernel keeps")


def _behind(desk: Desk) -> list[str]:
    """The segments that only doors lead to."""
    behind = behind_doors(desk, desk.built, audit_of(desk, desk.built))
    return patterns_of(desk.built, names_of(desk.built, behind))


def _explored(desk: Desk) -> Optional[Picture]:
    """The turns of the finding that tells most: a fault, or else that nothing can go on, or else the last outcome."""
    found = _exploration(desk)
    stuck = [each.schedule for each in found.outcomes if not each.ended]
    ends = [each.schedule for each in found.outcomes]
    text = next(iter([*(turns for _, _, turns in found.faults), *stuck, *reversed(ends)]), "")
    schedule = read_schedule(text.encode())
    if not 0 < schedule.length <= MOST_DRAWN:
        return None
    path = desk.shop.keep(text.encode(), ".schedule")
    words = ["trace", desk.built.path, str(schedule.length), path]
    lines, report = split_trace(desk.ask(words, [desk.built.file]).text)
    turns = [turn for turn in map(read_turn, lines) if turn]
    return trace_picture.draw(desk.built, list(numbered(turns, schedule)), report, f"Under the schedule {text}")


PANES = (
    Pane("audit", "Audit", "what each group can read and write, whatever its code does", picture=_audit),
    Pane(
        "explore",
        "Every schedule",
        "what can happen under any order of turns, with a schedule for each finding",
        picture=_explored,
        options=("--states",),
    ),
    Pane(
        "keeps",
        "Keeps",
        "whether a kernel keeps segments, whatever code its callers run",
        picture=_keeps,
        options=("--threads",),
        guess=_behind,
        fields=(("segments", "name"),),
        example="gate count asks whether a kernel keeps these two; with no name, those that only doors lead to",
    ),
    Pane(
        "why",
        "Why",
        "by what way a group can touch or write a word",
        fields=(("group", "group"), ("word", "name"), ("kind", ("touch", "write"))),
        example="1, count and write ask how group 1 can write count; touch is to read it",
    ),
    Pane(
        "holders",
        "Holders",
        "who holds a pointer into a range",
        picture=_reach,
        fields=(("range", "name"),),
        example="box asks for all of a segment, or the word of a label, and box,4 for 2^4 bytes from box on",
    ),
    Pane("symbols", "Map", "where segments and labels are", picture=_image),
    Pane("trace", "Trace", "a line for each turn"),
)
BY_COMMAND = {pane.command: pane for pane in PANES}


def schedules(desk: Desk) -> list[Json]:
    """Each schedule that an exploration has found, with what comes of it."""
    found = _exploration(desk)
    ends = [
        ["outcome " if each.ended else f"{each.kind}: outcome ", number, each.schedule, "; ".join(each.told())]
        for number, each in enumerate(found.outcomes, 1)
    ]
    return [["fault ", cause, turns, f"slot {slot}"] for slot, cause, turns in found.faults] + ends


def _missing(desk: Desk, pane: Pane) -> str:
    """Why a question cannot be asked yet."""
    if pane.guess is None:
        return f"Say {listed([label for label, _ in pane.fields])}: choose from what there is."
    names = listed([region.name for region in desk.built.symbols.regions], "or")
    return f"No segment is there to which only doors lead, so say what a kernel should keep: {names}."


def _headed(lines: list[str]) -> Json:
    """An answer that begins with its verdict."""
    return {"head": lines[0], "good": lines[0].startswith("yes"), "lines": lines[1:]} if lines else {"lines": lines}


def _behind_of(desk: Desk) -> Json:
    """The lines of an audit, without those on what only doors lead to: the page has a button for that."""
    lines = desk.lines
    behind = lines[-1].startswith("  mm keeps ") if lines else False
    names = lines[-2].partition("lead to ")[2].partition(";")[0] if behind else ""
    return {"lines": for_page(lines[:-3] if behind else lines), "behind": names}


def shown(desk: Desk, limits: Limits) -> Json:
    """What a pane shows: the lines of its command, its picture, and schedules to run."""
    asked = desk.asked
    pane = BY_COMMAND.get(asked.deed)
    if pane is None:
        raise NotAllowed("there is no such pane", 404)
    words = list(asked.words) or (pane.guess(desk) if pane.guess else []) if pane.fields else []
    if len(words) < len(pane.fields):
        return {"missing": _missing(desk, pane)}
    cycles = ["--cycles", str(min(limits.turns, asked.cycles or limits.turns))] if pane.command == "trace" else []
    desk.states = min(limits.states, MOST_STATES)
    options = [word for option in pane.options for word in (option, str(desk.states))]
    desk.say([pane.command, FILE, *options, *cycles, *words])
    importlib.import_module(BY_NAME[pane.command].home).run(desk)
    picture = pane.picture(desk) if pane.picture else None
    lines = for_page(desk.lines)
    return {
        **(_headed(lines) if pane.command == "keeps" else {"lines": lines}),
        **(_behind_of(desk) if pane.command == "audit" else {}),
        "notes": for_page(desk.notes),
        "words": words,
        "picture": picture.svg() if picture else None,
        "schedules": schedules(desk) if pane.command == "explore" else [],
    }
