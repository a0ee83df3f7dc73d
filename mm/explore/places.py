"""Where what was found comes from: each finding is run again under its schedule."""

from __future__ import annotations

from typing import AbstractSet, Optional

from mm.build import Built
from mm.commands.running import Runner
from mm.console import Console, Order
from mm.explore.findings import Met, Places, Standings
from mm.formats.schedule import MOST
from mm.machine.causes import Cause
from mm.named import NamedFile
from mm.outputs.exploration import Exploration
from mm.outputs.report import Report, SlotState, read_report
from mm.outputs.trace import Turn, read_turn
from mm.records import replace
from mm.views.faults import said_of
from mm.views.report import ReportView
from mm.views.spell import Memory, Speller
from mm.views.style import Style
from mm.views.waiting import what_for
from mm.words import MOST_CYCLES

# So many faults and so many outcomes are told with their places: each is a run of its own.
MOST_PLACES = 50
WAITS = ("ld", "st", "evt")
# Slots whose fault their handler has, or has not looked at yet.
FAULTED = ("waiting", "taken")


def can_run(schedule: str) -> bool:
    """Whether a schedule is not longer than those of a run."""
    return sum(int(item.partition("*")[2] or 1) for item in schedule.split()) <= MOST


def run_under(console: Console, built: Built, schedule: str) -> tuple[Report, Optional[Turn]]:
    """The report of a run under a schedule that was found, and its last turn."""
    file = NamedFile("the schedule", schedule.encode())
    runner = Runner(console, built, Order(file, console.workshop.keep(file.data, ".schedule")))
    answer = console.ask(runner.words("run", MOST_CYCLES), runner.files)
    lines = runner.last_turns(MOST_CYCLES, len(answer.out))
    return read_report(answer.text.splitlines()), read_turn(lines[-1]) if lines else None


def met_in(console: Console, built: Built, found: Exploration, meant: AbstractSet[int]) -> Places:
    """Where each fault is met and why, if it is not meant."""
    places: Places = {}
    speller = Speller(built.symbols)
    for number, fault, schedule in [each for each in found.faults if each[1] not in meant and can_run(each[2])][:MOST_PLACES]:
        (report, turn), cause = run_under(console, built, schedule), Cause.of_number(fault)
        there, slot = report.slot(number), built.image.slot(number)
        if there is None or turn is None or cause is None or (turn.slot, turn.fault) != (number, fault):
            continue
        memory = Memory.after(built.image, report)
        said = said_of(cause, there, turn, memory, speller)
        handler = slot.handler if slot else None
        places[number, fault] = Met(report, memory, replace(there, fault=fault), said, handler)
    return places


def _standing(slot: SlotState, view: ReportView) -> Optional[str]:
    """What is said of a slot in place of its state, if more is to be said: what it waits for, or where it faulted."""
    ip = slot.ip.pointer
    if slot.state in FAULTED:
        return view.state(slot)
    instruction = view.memory.instruction(ip.address) if slot.running and ip else None
    if instruction is None or ip is None:
        return None
    if instruction.name in WAITS:
        return f"{what_for(slot, view.memory, view.speller)}, for ever"
    return f"running at {view.speller.instruction(instruction, ip.address)}, for ever"


def standings(console: Console, built: Built, found: Exploration, style: Style) -> Standings:
    """What each slot waits for that waits for ever, and whether its handler has looked at a slot that has faulted."""
    standings: Standings = {}
    for outcome in [one for one in found.outcomes if one.left and can_run(one.schedule)][:MOST_PLACES]:
        report, _ = run_under(console, built, outcome.schedule)
        view = ReportView(report, Memory.after(built.image, report), Speller(built.symbols), style)
        for slot in report.slots:
            said = _standing(slot, view) if slot.number in outcome.left else None
            if said:
                standings[outcome.schedule, slot.number] = said
    return standings
