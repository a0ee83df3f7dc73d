"""The form of `mm explore --json`, which docs/JSON.md describes."""

from __future__ import annotations

from typing import AbstractSet, Optional, Sequence

from mm.explore.findings import Met, Places, Standings, Write, Written
from mm.machine.causes import Cause
from mm.machine.memory import Memory
from mm.names.symbols import Symbols
from mm.outputs.exploration import BUSY, Exploration, Outcome, Reached
from mm.outputs.report import state_of
from mm.views.data import FORM, Json, address_form, origin_form
from mm.views.spell import Speller


class ExploredForm:
    """The form of what was found in at most so many configurations."""

    def __init__(
        self,
        symbols: Symbols,
        states: int,
        found: Exploration,
        places: Places,
        standings: Standings,
        meant: AbstractSet[int],
        written: Optional[Written],
    ) -> None:
        self.symbols, self.states, self.found = symbols, states, found
        self.places, self.standings, self.meant, self.written = places, standings, meant, written

    def form(self) -> Json:
        found = self.found
        return {
            "form": FORM,
            "states": self.states,
            "configurations": found.count,
            "all": found.all,
            "groups": [self.reached(reached) for reached in found.groups],
            "faults": [self.fault(*fault) for fault in found.faults],
            "outcomes": [self.outcome(outcome) for outcome in found.outcomes],
            "wrote": None if self.written is None else self.wrote(self.written),
        }

    def runs(self, runs: Sequence[tuple[int, int]]) -> list[Json]:
        return [{**address_form(address, self.symbols), "words": count} for address, count in runs]

    def reached(self, reached: Reached) -> Json:
        return {"group": reached.group, "touched": self.runs(reached.touched), "wrote": self.runs(reached.wrote)}

    def fault(self, slot: int, number: int, schedule: str) -> Json:
        met, cause = self.places.get((slot, number)), Cause.of_number(number)
        form: Json = {
            "slot": slot,
            "number": number,
            "fault": cause.title if cause else None,
            "meant": number in self.meant,
            "why": met.said.why if met else [cause.meaning] if cause else [],
            "handler": met.handler if met else None,
            "schedule": schedule,
        }
        return {**form, **self.place(met)}

    def place(self, met: Optional[Met]) -> Json:
        """Where a fault is met."""
        ip = met.slot.ip.pointer if met else None
        return self.at(ip.address if ip else None, met.memory if met else None)

    def at(self, address: Optional[int], memory: Optional[Memory]) -> Json:
        """A place in the code, with its instruction and its line."""
        if address is None or memory is None:
            return {"address": None, "name": None, "instruction": None, "source": None}
        origin, instruction = self.symbols.origin(address), memory.instruction(address)
        return {
            **address_form(address, self.symbols),
            "instruction": Speller(self.symbols).instruction(instruction, address) if instruction else None,
            "source": origin_form(origin) if origin and memory.is_images(address) else None,
        }

    def outcome(self, outcome: Outcome) -> Json:
        return {
            "outcome": outcome.kind,
            "count": outcome.count,
            "slots": [self.slot(outcome, number, state) for number, state in outcome.states.items()],
            "groups": [
                {"group": group, "output": {"hex": data.hex(), "text": data.decode("latin-1")}}
                for group, data in outcome.outputs.items()
            ],
            "schedule": outcome.schedule,
        }

    def slot(self, outcome: Outcome, number: int, text: str) -> Json:
        """How a slot stands, and what is said of it if it waits."""
        state, fault = (BUSY, None) if text == BUSY else state_of(text.split())
        return {"slot": number, "state": state, "fault": fault, "waits": self.standings.get((outcome.schedule, number))}

    def wrote(self, written: Written) -> Json:
        return {
            **address_form(written.word, self.symbols),
            "writes": [self.write(write) for write in written.writes],
            "tries": written.tries,
            "later": written.later,
        }

    def write(self, write: Write) -> Json:
        turn = write.turn
        return {"group": write.group, "slot": turn.slot, "schedule": write.schedule, **self.at(turn.fetch, write.memory)}
