"""`mm trace`: what each turn did."""

from __future__ import annotations


from mm.build import Built
from mm.commands.running import FIRST_LOOK
from mm.console import Console, Order
from mm.log.replay import Machine
from mm.log.taken import opened
from mm.machine.causes import Cause
from mm.outputs.report import Report
from mm.outputs.trace import Turn
from mm.records import dataclass, field
from mm.status import Status
from mm.table import CYCLES, JSON
from mm.views.data import FORM, ReportForm, TurnForms
from mm.views.faults import said_of
from mm.views.report import ReportView
from mm.views.spell import Memory, Speller
from mm.views.trace import TraceView
from mm.views.waiting import waiting
from mm.views.said import FaultSaid
from mm.words import cycles_of


@dataclass
class Told:
    """What is told of a run: a row for each turn, the turns, the report, and what is said of faults."""

    rows: list[object] = field(default_factory=list)
    turns: list[Turn] = field(default_factory=list)
    report: Report = field(default_factory=Report)
    faults: dict[int, FaultSaid] = field(default_factory=dict)


def tell(console: Console, built: Built, order: Order, cycles: int) -> Told:
    """Carries out the log of a run, and tells each turn with the memory as it was before it."""
    told, machine, speller = Told(), Machine(built.image), Speller(built.symbols)
    view, forms = TraceView(machine.memory, speller, console.style), TurnForms(machine.memory, speller)
    row = forms.form if console.said.has(JSON) else view.line
    with opened(console, built, order, cycles) as (log, steps):
        for cycle, step in steps:
            turn = step.turn
            told.rows.append(row(cycle, turn))
            told.turns.append(turn)
            machine.carry_out(step)
            slot, cause = machine.slots[turn.slot], Cause.of_number(turn.fault) if turn.fault else None
            if cause and slot.fault:
                told.faults[turn.slot] = said_of(cause, slot.report(), turn, machine.memory, speller)
        told.report = log.report
    return told


def run(console: Console) -> int:
    """Writes the turns of a run and its report. Where the length is not said, as many as the first look of a run has."""
    built, order = console.build(console.words), console.order()
    cycles = cycles_of(console.said.value(CYCLES))
    told = tell(console, built, order, FIRST_LOOK if cycles is None else cycles)
    console.note_order(built, order)
    memory, speller = Memory.after(built.image, told.report), Speller(built.symbols)
    waits = waiting(reversed(told.turns), told.report, built.image.split)
    if console.said.has(JSON):
        report = ReportForm(told.report, memory, built.symbols, waits, told.faults).form()
        console.write_json({"form": FORM, "turns": told.rows, "report": report})
        return Status.DONE
    console.write([TraceView(memory, speller, console.style).head, *map(str, told.rows)])
    view = ReportView(told.report, memory, speller, console.style, waits, told.faults)
    console.write(["", *view.lines(str(order))])
    return Status.DONE
