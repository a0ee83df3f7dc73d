"""The form of `mm keeps --json`, which docs/JSON.md describes."""

from __future__ import annotations

from typing import Any, Optional, Sequence

from mm.formats.image import Image
from mm.machine.memory import Memory
from mm.machine.words import Pointer, Word
from mm.names.kept import Segment
from mm.names.symbols import Symbols
from mm.outputs.keeps import Confined, Form, Kept, Leak, Party, Run
from mm.views.data import FORM, Json, address_form, apart_form, origin_form, segments_form, word_form
from mm.views.keptwords import KeptWords, holders
from mm.views.leaks import LeakView, Place, key_of, places_of
from mm.views.style import Style


class KeptForm:
    """The form of an answer of `keeps`."""

    def __init__(self, image: Image, symbols: Symbols, kept: Sequence[Segment], threads: int, found: Kept) -> None:
        self.image, self.symbols, self.kept, self.threads, self.found = image, symbols, kept, threads, found
        self.words, self.memory = KeptWords(symbols), Memory(image)
        self.view = LeakView(image, symbols, found, Style())

    def form(self) -> Json:
        found, places = self.found, places_of(self.found.leaks)
        return {
            "form": FORM,
            "answer": found.verdict,
            "threads": self.threads,
            "kept": segments_form(self.kept, self.symbols),
            "doors": [self.party(party) for party in found.doors],
            "slots": [self.party(party) for party in found.parties if party.slot is not None],
            "code": self.runs(found.code),
            "cells": [{**address_form(address, self.symbols), **self.of(form)} for address, form in found.cells],
            "leaks": [self.leak(leak, places[key_of(leak)]) for leak in found.leaks],
            "groups": [self.group(group) for group in found.groups],
        }

    def runs(self, runs: Sequence[Run]) -> list[Json]:
        return [{**address_form(address, self.symbols), "words": count} for address, count in runs]

    def party(self, party: Party) -> Json:
        form: Json = {"slot": party.slot} if party.door is None else {"door": self.pointer(party.door)}
        if party.door is not None:
            door = party.door
            form["groups"] = self.found.groups_with(door) if self.found.groups else None
            form["held"] = [name for name, _ in holders(self.image, lambda held: held == door, self.symbols)]
        return {**form, "reads": self.runs(party.reads), "writes": self.runs(party.writes)}

    def pointer(self, pointer: Pointer) -> Optional[Json]:
        return word_form(Word(pointer.bits, True), self.symbols)

    def of(self, form: Optional[Form]) -> Json:
        """A form: its kind, what belongs to it, and the same in words."""
        if form is None:
            return {"kind": None}
        found: dict[str, Any] = {"kind": form.kind, "said": self.words.form(form)}
        if form.word is not None:
            found["word"] = word_form(form.word, self.symbols)
        if form.permission is not None:
            found["permission"] = form.permission.short
        if form.kind == "in":
            found["segment"] = segments_form([(form.base, form.log)], self.symbols)[0]
        return found

    def leak(self, leak: Leak, place: Place) -> Json:
        """A leak: where it is, what gets out, and what the author does about it."""
        said, mend = self.view.told(place)
        form: Json = {
            "leak": leak.kind,
            "slot": leak.slot,
            "register": None if leak.register is None else f"r{leak.register}",
            "form": None if leak.form is None else self.of(leak.form),
            "said": said,
            "mend": mend,
            "notes": list(self.view.notes(place)) if leak.kind == "fault" else [],
            "address": None,
            "name": None,
            "source": None,
            "instruction": None,
        }
        if leak.address is not None:
            form.update(address_form(leak.address, self.symbols))
            origin, instruction = self.symbols.origin(leak.address), self.memory.instruction(leak.address)
            form["source"] = origin_form(origin) if origin else None
            if instruction is not None and leak.kind != "cell":
                form["instruction"] = self.words.speller.instruction(instruction, leak.address)
        return form

    def group(self, group: Confined) -> Json:
        return {
            "group": group.reach.group,
            "doors": [self.pointer(door) for door in group.doors],
            "slots": group.slots,
            "touch": segments_form(group.reach.touch, self.symbols),
            "write": segments_form(group.reach.write, self.symbols),
            "apart": apart_form(group.apart, self.symbols) if group.apart else None,
        }
