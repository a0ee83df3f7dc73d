"""A window of a run as compact JSON. Words are texts as reports write them, so that no reader rounds them; addresses are numbers.

A step is `[cycle, slot, turn, outcome, fault, fetch, access, address, entered, changes]`, with -1 for an address that is not there. Outcomes and
accesses are their places in `OUTCOMES` and `ACCESSES`, and a change begins with the place of its kind in `mm.log.changes.KINDS`."""

from __future__ import annotations

import os
from typing import Any, Optional, Sequence

from mm.build import Built
from mm.formats.image import PAGE_BYTES, PAGE_WORDS
from mm.log.changes import (
    ByteOut,
    CellSet,
    Change,
    EventQueued,
    EventTaken,
    IpSet,
    LoadIssued,
    PageSet,
    RegisterSet,
    KINDS,
)
from mm.log.read import Step
from mm.log.replay import Machine, SlotNow
from mm.log.taken import Window
from mm.machine.causes import Cause
from mm.machine.isa import OPERATIONS, Kind
from mm.machine.words import Cell, Permission, Word
from mm.names.symbols import Region, Symbols
from mm.outputs.audit import Audit
from mm.source.tokens import readable
from mm.view.cdata import c_form
from mm.views.audit import AuditView
from mm.views.cview import CView
from mm.views.spell import Speller
from mm.views.style import Style
from mm.views.why import why

FORM = 1
OUTCOMES = ("did", "blocked", "faulted", "delivered")
ACCESSES = (None, "load", "loadset", "store")
Json = Any


def _word(word: Optional[Word]) -> Optional[str]:
    return str(word) if word else None


def change_form(change: Change) -> Json:
    """A change, with the place of its kind before it."""
    kind = KINDS.index(type(change))
    if isinstance(change, IpSet):
        return [kind, change.slot, str(change.ip), int(change.past)]
    if isinstance(change, RegisterSet):
        return [kind, change.slot, change.register, _word(change.word)]
    if isinstance(change, LoadIssued):
        return [kind, change.slot, change.register, str(change.word)]
    if isinstance(change, EventQueued):
        return [kind, change.handler, *event_form(change)]
    if isinstance(change, EventTaken):
        return [kind, change.handler]
    if isinstance(change, ByteOut):
        return [kind, change.group, change.byte]
    if isinstance(change, PageSet):
        return [kind, change.page, int(change.new)]
    if isinstance(change, CellSet):
        return [kind, change.address, str(change.cell.word), int(change.cell.full)]
    return [kind, change.slot, change.state, change.fault or 0]


def event_form(event: EventQueued) -> Json:
    return [event.slot, event.fault, str(event.ip), str(event.address), str(event.data)]


def step_form(cycle: int, step: Step) -> Json:
    """A turn with its changes."""
    turn = step.turn
    return [
        cycle,
        turn.slot,
        turn.number if turn.delivered is None else turn.delivered,
        OUTCOMES.index(turn.outcome),
        turn.fault or 0,
        -1 if turn.fetch is None else turn.fetch,
        ACCESSES.index(turn.access),
        -1 if turn.address is None else turn.address,
        _word(turn.entered),
        [change_form(change) for change in step.changes],
    ]


def slot_form(slot: SlotNow) -> Json:
    return {
        "slot": slot.number,
        "group": slot.group,
        "handler": slot.handler,
        "state": slot.state,
        "fault": slot.fault or 0,
        "ip": str(slot.ip),
        "past": int(slot.past),
        "turns": slot.turns,
        "registers": [_word(word) for word in slot.registers],
        "pending": [[register, str(word)] for register, word in slot.pending],
        "queue": [event_form(event) for event in slot.queue],
    }


def machine_form(machine: Machine) -> Json:
    """A machine at one moment. Of a page only the cells are kept that are not integer 0, full."""
    pages = []
    for number in sorted(machine.pages):
        first = number * PAGE_BYTES
        cells = [(place, machine.cell(first + 8 * place) or Cell()) for place in range(PAGE_WORDS)]
        pages.append([number, [[at, str(cell.word), int(cell.full)] for at, cell in cells if cell != Cell()]])
    return {
        "slots": [slot_form(slot) for _, slot in sorted(machine.slots.items())],
        "outputs": [[group, bytes(data).hex()] for group, data in sorted(machine.outputs.items())],
        "pages": pages,
    }


def tables() -> Json:
    """The tables of operations, permissions and faults, as the page needs them to spell words."""
    return {
        "operations": [
            [each.number, each.name, [list(_kind(kind)) for kind in each.operands]] for each in OPERATIONS.values()
        ],
        "permissions": [[each.code, each.short, each.full] for each in Permission],
        "causes": [[each.number, each.title, each.meaning] for each in Cause],
    }


def _kind(kind: Kind) -> Sequence[Json]:
    """An operand: its field, its shift, how it is written, and its choices."""
    how = "register" if kind.is_register else "choice" if kind.choices else "place" if kind is Kind.PLACE else "number"
    return kind.field, kind.shift, how, list(kind.choices)


def region_form(region: Region, sources: Sequence[Json]) -> Json:
    """A segment: its name and its place, the source that it comes from, and of each word its line."""
    path = region.source.path if region.source else None
    return {
        "name": region.name,
        "base": region.base,
        "log": region.log,
        "words": region.words,
        "source": next((at for at, source in enumerate(sources) if source["path"] == path), None),
        "lines": [region.line_of(region.base + 8 * place) or 0 for place in range(region.words)] if path else [],
    }


def names_form(symbols: Symbols) -> Json:
    """The names of addresses, and the sources."""
    texts = {region.source.path: region.source for region in symbols.regions if region.source}
    sources = [
        {"path": path, "lines": [readable(line) for line in text.lines]} for path, text in sorted(texts.items())
    ]
    regions = [region_form(region, sources) for region in symbols.regions]
    return {
        "c": c_form(symbols, sources),
        "regions": regions,
        "labels": [[address, name] for address, name in zip(symbols.label_places, symbols.label_names)],
        "sources": sources,
    }


def audit_form(audit: Audit, symbols: Symbols) -> Json:
    """An audit as rows of segments, with what each group may there, and the sentences about who stands apart."""
    view = AuditView(symbols, Style())
    segments = sorted({segment for reach in audit.reaches for segment in (*reach.touch, *reach.write)})
    rows = [
        [
            view.segment(*segment),
            *segment,
            [int(segment in reach.touch) + 2 * int(segment in reach.write) for reach in audit.reaches],
        ]
        for segment in segments
    ]
    return {
        "groups": [[reach.group, int(reach.privileged)] for reach in audit.reaches],
        "rows": rows,
        "said": [[int(apart.apart), view.apart(apart)] for apart in audit.aparts],
    }


def reasons(window: Window, symbols: Symbols) -> Json:
    """Of each turn that faulted why, in words, by its place in the window. The window's machine is at its end afterwards."""
    machine, speller = window.machine, Speller(symbols)
    found = {}
    for place, (_, step) in enumerate(window.steps):
        machine.carry_out(step)
        cause = Cause.of_number(step.turn.fault) if step.turn.fault else None
        if cause:
            slot = machine.slots[step.turn.slot].report()
            of_c = CView(slot, machine.memory, speller).fault(cause, step.turn)
            found[place] = [*([of_c] if of_c else []), *why(cause, slot, step.turn, machine.memory, speller)]
    return found


def window_form(built: Built, window: Window, order: str, audit: Optional[Audit] = None, keeps: Json = None) -> Json:
    """All that a page shows of a run. `keeps` is what it shows of a kernel."""
    begin = machine_form(window.machine)
    return {
        "form": FORM,
        "title": ", ".join(os.path.basename(unit.name) for unit in built.units) or os.path.basename(built.name),
        "order": order,
        "first": window.first,
        "last": window.last,
        "cycles": window.report.cycles,
        "goes_on": int(window.goes_on),
        "stuck": int(window.stuck),
        "split": int(built.image.split),
        "tables": tables(),
        "names": names_form(built.symbols),
        "start": begin,
        "steps": [step_form(cycle, step) for cycle, step in window.steps],
        "why": reasons(window, built.symbols),
        "audit": audit_form(audit, built.symbols) if audit else None,
        **({"keeps": keeps} if keeps else {}),
    }
