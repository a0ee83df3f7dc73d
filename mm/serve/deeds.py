"""What the page can ask for: to look at sources for mistakes, to run them, to show a pane, to grade."""

from __future__ import annotations

import gc
import importlib
import json
import os
from typing import Any, Callable

from mm.build import Workshop
from mm.console import Order
from mm.commands.grade import exercises, sheet_of
from mm.commands.running import Runner
from mm.editing.faults import Fault, faults_of, of_clang
from mm.formats.schedule import PORT
from mm.grading.marks import marks
from mm.log.taken import has_more, take_window
from mm.names.numbers import counted
from mm.machine.program import CHECKOUT, Program
from mm.outputs.audit import read_audit
from mm.outputs.report import Report
from mm.serve import panes
from mm.serve.asked import Asked, NotAllowed
from mm.serve.console import Desk
from mm.serve.limits import Limits
from mm.serve.words import for_page
from mm.serve.shelf import without_folders
from mm.status import Refused, Stop
from mm.table import BY_NAME
from mm.view.data import window_form
from mm.view.page import page_of
from mm.views.report import ReportView
from mm.views.spell import Memory, Speller

Json = Any
MOST_LINES = 400


def fault_form(fault: Fault) -> Json:
    """A mistake for the page: in which source, from where to where, and what is said of it."""
    return {
        "file": fault.path,
        "line": fault.line,
        "from": fault.begin,
        "to": fault.end,
        "message": fault.message,
        "hints": list(fault.hints),
    }


def _of_source(program: Program, name: str, data: bytes) -> list[Fault]:
    """The mistakes of a source by itself; none where it has none."""
    workshop = Workshop(program)
    try:
        workshop.assemble(name, data)
    except Refused as refused:
        return list(faults_of(refused, {name: data}))
    finally:
        workshop.close()
    return []


def check(desk: Desk, limits: Limits) -> Json:
    """The mistakes of all sources in assembly, and of their link if they have none."""
    sources = desk.asked.sources
    plain = [source for source in sources if not source.in_c]
    found = [fault for source in plain for fault in _of_source(desk.program, source.name, source.data)]
    if found or not plain or len(plain) < len(sources):
        return {"faults": [fault_form(fault) for fault in found]}
    return {"faults": [], "slots": [slot.number for slot in desk.built.image.slots]}


def order_ends(order: Order, report: Report) -> str:
    """After how many turns a run has ended because its order of turns has no more, and not its threads."""
    going = order.schedule is not None and any(slot.running for slot in report.slots)
    return counted(report.cycles, "turn") if going and not has_more(report, order) else ""


def note_idle(desk: Desk, order: Order, report: Report) -> None:
    """Tells of turns of an order at which nothing was done."""
    if order.schedule is None or order.schedule.length != report.cycles:
        return
    ports = sum(count for item, count in order.schedule.runs if item >= PORT)
    idle = report.cycles - ports - sum(slot.turns for slot in report.slots)
    if idle > 0:
        desk.tell(f"{counted(idle, 'turn')} of the order did nothing: a slot had halted, or there is no such slot")


def run(desk: Desk, limits: Limits) -> Json:
    """A run: its report, and the page that `mm view` makes of it."""
    asked, built, order = desk.asked, desk.built, desk.order()
    cycles = min(asked.cycles, limits.cycles) if asked.cycles is not None else None
    whole = Runner(desk, built, order).run_to_end(limits.cycles if cycles is None and limits.cycles < 1_000_000
        else cycles)
    window = take_window(desk, built, order, cycles, asked.first, limits.turns)
    audit = read_audit(desk.ask(["grants", built.path], [built.file]).text)
    desk.note_order(built, order)
    note_idle(desk, order, whole.report)
    memory, speller = Memory.after(built.image, whole.report), Speller(built.symbols)
    view = ReportView(whole.report, memory, speller, desk.style, whole.waits, whole.faults)
    return {
        "faults": [],
        "report": for_page(view.lines(str(order))),
        "notes": for_page(desk.notes),
        "order_ends": order_ends(order, whole.report),
        "slots": [slot.number for slot in built.image.slots],
        "view": page_of(window_form(built, window, str(order), audit)),
    }


def grade(desk: Desk, limits: Limits) -> Json:
    """What an exercise says of the sources, line by line."""
    name = desk.asked.words[0] if desk.asked.words else ""
    if name not in exercises():
        raise NotAllowed("there is no such exercise", 404)
    sheet = sheet_of(name)
    found = marks(desk, desk.built, sheet)
    return {
        "title": sheet.title or name,
        "marks": [[without_folders(mark.expectation.text), mark.why_not] for mark in found],
        "right": sum(mark.right for mark in found),
    }


# Modules that a request may need, which are read once in the server and not in each process.
NEEDED = ("difflib", "mm.messages.files", "mm.messages.links", "mm.messages.sources", "mm.outputs.refusal",
    "mm.source.mend",
    "mm.views.faults", "mm.views.waiting")


def prepare() -> None:
    """Reads what requests need, and has the garbage collector leave it alone in the processes that are forked."""
    for name in (*NEEDED, *(BY_NAME[pane.command].home for pane in panes.PANES)):
        importlib.import_module(name)
    gc.freeze()


DEEDS: dict[str, Callable[[Desk, Limits], Json]] = {"check": check, "run": run, "grade": grade}


def known(deed: str) -> bool:
    """Whether there is such a thing to ask for."""
    return deed in DEEDS or deed in panes.BY_COMMAND


def _done(desk: Desk, limits: Limits) -> Json:
    """What a deed comes to; a refusal of `mm` as the mistakes that it tells of."""
    try:
        return DEEDS.get(desk.asked.deed, panes.shown)(desk, limits)
    except Refused as refused:
        datas = {source.name: source.data for source in desk.asked.sources}
        faults = [fault_form(fault) for fault in faults_of(refused, datas)]
        return {"faults": faults, "stopped": for_page(refused.lines)}
    except NotAllowed as no:
        return {"refused": str(no)}
    except Stop as stop:
        lines = list(stop.lines)[:MOST_LINES]
        return {"faults": [fault_form(fault) for fault in of_clang(lines)], "stopped": for_page(lines)}


def carry_out(program: Program, asked: Asked, limits: Limits) -> str:
    """The same as JSON, with nothing of this machine in it: folders are taken out, and files in C have their names of
    the page. The folder of the request goes with the request."""
    desk = Desk(program, asked)
    text = json.dumps(_done(desk, limits), separators=(",", ":"))
    for path, name in desk.stored.items():
        text = text.replace(path, name).replace(os.path.basename(path), name)
    for folder in (desk.folder, os.environ.get("TMPDIR", ""), CHECKOUT, os.path.dirname(program.path)):
        text = text.replace(folder + "/", "") if folder else text
    return text
