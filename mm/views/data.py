"""The forms of `--json`, which docs/JSON.md describes. A number of 64 bits is a text in hexadecimal, so that no reader rounds it."""

from __future__ import annotations

from typing import Any, Mapping, Optional, Sequence

from mm.machine.causes import Cause
from mm.machine.words import Cell, Word
from mm.names.symbols import Origin, Symbols
from mm.outputs.audit import Apart, Audit
from mm.outputs.report import Report, SlotState
from mm.outputs.trace import Turn
from mm.views.spell import Memory, Speller
from mm.views.waiting import Waiting, what_for
from mm.views.said import FaultSaid

FORM = 1
Json = dict[str, Any]


def address_form(address: int, symbols: Symbols) -> Json:
    """`{"address": "0x100100", "name": "box"}`, with the name `null` if there is none."""
    return {"address": f"0x{address:x}", "name": symbols.name(address)}


def origin_form(origin: Origin) -> Json:
    """A line of a file. A byte of its name that is no UTF-8 is written as `\\xff`: JSON has texts alone."""
    name = origin.path.encode("utf-8", "surrogateescape").decode("utf-8", "backslashreplace")
    return {"file": name, "line": origin.line}


def word_form(word: Optional[Word], symbols: Symbols) -> Optional[Json]:
    """A word; `null` for a register whose load has not arrived."""
    if word is None:
        return None
    form: Json = {"tagged": word.tagged, "bits": f"0x{word.bits:016x}"}
    pointer = word.pointer
    if pointer is None:
        return {**form, "integer": word.signed} if abs(word.signed) < 1 << 53 else form
    return {
        **form,
        "permission": pointer.permission.short,
        "log": pointer.log,
        **address_form(pointer.address, symbols),
    }


def cell_form(cell: Optional[Cell], symbols: Symbols) -> Optional[Json]:
    return {"word": word_form(cell.word, symbols), "full": cell.full} if cell else None


class ReportForm:
    """The form of a report."""

    def __init__(
        self,
        report: Report,
        memory: Memory,
        symbols: Symbols,
        waits: Mapping[int, Waiting],
        faults: Mapping[int, FaultSaid],
    ) -> None:
        self.report, self.memory, self.symbols, self.waits, self.faults = report, memory, symbols, waits, faults
        self.speller = Speller(symbols)

    def slot(self, slot: SlotState) -> Json:
        ip = slot.ip.pointer
        form: Json = {
            "slot": slot.number,
            "group": slot.group,
            "turns": slot.turns,
            "state": slot.state,
            "past": slot.past,
            "ip": word_form(slot.ip, self.symbols),
            "registers": {
                f"r{number}": word_form(word, self.symbols) for number, word in sorted(slot.registers.items())
            },
            "pending": [
                {"register": f"r{number}", "word": word_form(word, self.symbols)} for number, word in slot.pending
            ],
            "fault": self.fault(slot),
            "waits": self.wait(slot),
            "source": None,
            "instruction": None,
        }
        origin = self.symbols.origin(ip.address) if ip else None
        if origin:
            form["source"] = origin_form(origin)
        instruction = self.memory.instruction(ip.address) if ip else None
        if instruction and ip:
            form["instruction"] = self.speller.instruction(instruction, ip.address)
        return form

    def fault(self, slot: SlotState) -> Optional[Json]:
        cause = Cause.of_number(slot.fault) if slot.fault else None
        if cause is None:
            return None
        said = self.faults.get(slot.number)
        return {"number": cause.number, "name": cause.title, "why": said.why if said else [cause.meaning]}

    def wait(self, slot: SlotState) -> Optional[Json]:
        wait = self.waits.get(slot.number)
        return (
            {"turns": wait.turns, "for_ever": wait.stuck, "what": what_for(slot, self.memory, self.speller)}
            if wait
            else None
        )

    def cell(self, address: int, cell: Cell) -> Json:
        before = self.memory.image.cell(address)
        return {
            **address_form(address, self.symbols),
            **(cell_form(cell, self.symbols) or {}),
            "before": cell_form(before, self.symbols),
        }

    def form(self) -> Json:
        return {
            "form": FORM,
            "cycles": self.report.cycles,
            "groups": [
                {"group": group, "output": {"hex": data.hex(), "text": data.decode("latin-1")}}
                for group, data in self.report.outputs.items()
            ],
            "slots": [self.slot(slot) for slot in self.report.slots],
            "pages": [{"page": f"0x{page:x}", "change": "new" if new else "gone"} for page, new in self.report.pages],
            "cells": [self.cell(address, cell) for address, cell in sorted(self.report.cells.items())],
            "counts": self.report.counts,
        }


class TurnForms:
    """The forms of turns, each with the memory as it was before it. What was spelled once is kept: loops do the same again and again."""

    def __init__(self, memory: Memory, speller: Speller) -> None:
        self.memory, self.speller = memory, speller
        self.addresses: dict[int, Json] = {}
        self.texts: dict[tuple[int, Optional[int], bool], str] = {}

    def address(self, address: int) -> Json:
        found = self.addresses.get(address)
        if found is None:
            found = self.addresses[address] = address_form(address, self.speller.symbols)
        return found

    def text(self, address: int) -> str:
        """The instruction at an address, or what is there."""
        cell = self.memory.cell(address)
        key = (address, cell.word.bits, cell.word.tagged) if cell else (address, None, False)
        found = self.texts.get(key)
        if found is None:
            found = self.texts[key] = self.speller.at(self.memory, address)
        return found

    def form(self, cycle: int, turn: Turn) -> Json:
        """A turn, or with `delivered` a load that came by a port."""
        if turn.delivered is not None:
            return {"cycle": cycle, "slot": turn.slot, "outcome": "delivered", "register": f"r{turn.delivered}"}
        fetch, address = turn.fetch, turn.address
        return {
            "cycle": cycle,
            "slot": turn.slot,
            "turn": turn.number,
            "outcome": turn.outcome,
            "fault": turn.fault,
            "fetch": None if fetch is None else self.address(fetch),
            "instruction": None if fetch is None else self.text(fetch),
            "access": None if address is None else {"kind": turn.access, **self.address(address)},
            "enters": word_form(turn.entered, self.speller.symbols) if turn.entered else None,
        }


def symbols_form(symbols: Symbols) -> Json:
    """The map of a link."""
    rows = []
    for symbol in symbols.symbols:
        origin = origin_form(symbol.origin) if symbol.origin else None
        rows.append(
            {
                "name": symbol.name,
                "kind": "segment" if symbol.segment else "label",
                "address": f"0x{symbol.address:x}",
                "length": symbol.length,
                "source": origin,
            }
        )
    return {"form": FORM, "symbols": rows}


def apart_form(apart: Apart, symbols: Symbols) -> Json:
    """Whether groups stand apart, and if not, why."""
    form: Json = {
        "groups": [int(group) for group in apart.groups.split(",")],
        "apart": apart.apart,
        "writer": apart.writer,
        "word": None,
        "handler": apart.handler,
    }
    if apart.word is not None:
        form["word"] = address_form(apart.word, symbols)
    return form


def segments_form(segments: Sequence[tuple[int, int]], symbols: Symbols) -> list[Json]:
    """Segments by their bases and the logarithms of their lengths."""
    return [{**address_form(base, symbols), "log": log} for base, log in segments]


def audit_form(audit: Audit, symbols: Symbols) -> Json:
    """An audit: what each group can reach, and which stand apart."""
    groups = [
        {
            "group": reach.group,
            "privileged": reach.privileged,
            "touch": segments_form(reach.touch, symbols),
            "write": segments_form(reach.write, symbols),
        }
        for reach in audit.reaches
    ]
    return {"form": FORM, "groups": groups, "apart": [apart_form(apart, symbols) for apart in audit.aparts]}
