"""The facts of run, solo, continue and trace."""

from __future__ import annotations

import re
from typing import Any, Mapping, Optional

from mm.tests.truth.facts import Asking
from mm.tests.truth.names import PLACE, Names
from mm.tests.truth.told import ADDRESS, ZERO, Image, Report, State, Turn, address_in

SLOT_KEYS = {"slot", "group", "turns", "state", "ip", "past", "registers", "pending", "fault", "waits", "instruction", "source"}
KINDS = {"load": "loads", "loadset": "loads and sets the bit of", "store": "stores to"}
TRIED = {"load": "tries to load", "loadset": "tries to load and to set the bit of", "store": "tries to store to"}
ACCESSED = "|".join(sorted([*KINDS.values(), *TRIED.values()], key=len, reverse=True))
BEGINNINGS = {"running": ("running", "waiting"), "waiting": ("has faulted",), "taken": ("has faulted",), "halted": ("halted",), "faulted": ("stopped",)}
CELLS_SHOWN = 64


class Case:
    """A program that is asked about: its image, its names, and what `mmachine dis` calls its words."""

    def __init__(self, asking: Asking, image: Image, names: Names, source: Optional[str], said: Mapping[str, str]) -> None:
        self.asking, self.image, self.names, self.source, self.said = asking, image, names, source, said
        self.check = asking.facts.check

    def address(self, kind: str, form: Any, address: int) -> None:
        """A form of an address: the number, and a name that means it."""
        self.check(f"{kind} address", form["address"] == f"0x{address:x}", (form, hex(address)))
        if form["name"] is None:
            self.check(f"{kind} no name", not self.names.has(address), (form, hex(address)))
        else:
            self.check(f"{kind} name", self.names.address(form["name"]) == address, (form, hex(address)))

    def word(self, kind: str, form: Any, word: Optional[str]) -> None:
        if word is None or form is None:
            self.check(f"{kind} null", word is None and form is None, (form, word))
            return
        self.check(f"{kind} bits", (form["tagged"], form["bits"]) == (word[0] == "p", "0x" + word[1:]), (form, word))
        bits = int(word[1:], 16)
        if word[0] == "p":
            self.check(f"{kind} pointer", (form["log"], form["permission"]) == (bits >> 54 & 63, CODES[bits >> 60]), (form, word))
            self.address(kind, form, bits & ADDRESS)
        else:
            signed = bits - (bits >> 63 << 64)
            wanted = signed if abs(signed) < 1 << 53 else None
            self.check(f"{kind} integer", form.get("integer") == wanted, (form, word))

    # A report

    def report(self, kind: str, form: Any, report: Report, state: State, turns: Optional[list[Turn]] = None) -> None:
        """The report of --json."""
        check = self.check
        check(f"{kind} cycles", form["cycles"] == report.cycles, form["cycles"])
        outputs = [(each["group"], each["output"]["hex"], each["output"]["text"]) for each in form["groups"]]
        wanted = [(group, text, bytes.fromhex(text).decode("latin-1")) for group, text in report.outputs.items()]
        check(f"{kind} output", outputs == wanted, (outputs, wanted))
        check(f"{kind} pages", [(int(each["page"], 16), each["change"]) for each in form["pages"]] == report.pages, form["pages"])
        check(f"{kind} counts", form["counts"] == report.counts, form["counts"])
        check(f"{kind} cells", [int(each["address"], 16) for each in form["cells"]] == sorted(report.cells), form["cells"])
        for each in form["cells"]:
            self.cell(f"{kind} cell", each, report)
        check(f"{kind} slots", [each["slot"] for each in form["slots"]] == list(report.slots), form["slots"])
        for each in form["slots"]:
            self.slot(kind, each, report.slots[each["slot"]], state)
            if turns is not None and report.slots[each["slot"]]["fault"]:
                self.why(f"{kind} why", each["fault"]["why"], [turn for turn in turns if turn.slot == each["slot"] and not turn.delivers][-1])

    def cell(self, kind: str, form: Any, report: Report) -> None:
        address = int(form["address"], 16)
        word, full = report.cells[address]
        self.address(kind, form, address)
        self.word(kind, form["word"], word)
        self.check(f"{kind} full", form["full"] == full, form)
        before = self.image.cells.get(address)
        if before is None:
            self.check(f"{kind} before", form["before"] is None, form)
        else:
            self.word(f"{kind} before", form["before"]["word"], before[0])
            self.check(f"{kind} before full", form["before"]["full"] == before[1], form)

    def slot(self, kind: str, form: Any, slot: Mapping[str, Any], state: State) -> None:
        check = self.check
        check(f"{kind} slot keys", set(form) == SLOT_KEYS, form)
        same = all(form[key] == slot[key] for key in ("group", "turns", "state", "past"))
        check(f"{kind} slot", same, (form, slot))
        self.word(f"{kind} ip", form["ip"], slot["ip"])
        check(f"{kind} registers", list(form["registers"]) == [f"r{k}" for k in sorted(slot["words"])], (form, slot))
        for k, word in slot["words"].items():
            self.word(f"{kind} register", form["registers"].get(f"r{k}"), word)
        pending = [(each["register"], each["word"]["bits"]) for each in form["pending"]]
        check(f"{kind} pending", pending == [(f"r{k}", "0x" + word[1:]) for k, word in slot["pending"]], (form, slot))
        check(f"{kind} fault", (form["fault"] or {}).get("number") == slot["fault"], (form, slot))
        address = address_in(slot["ip"])
        cell = state.cell(address)
        said = self.said.get(cell[0], ".int") if cell else ".int"
        if form["instruction"] is None:
            check(f"{kind} no instruction", said.startswith(".int"), (form, cell))
        else:
            right = not said.startswith(".int") and self.names.is_instruction(form["instruction"], said, address)
            check(f"{kind} instruction", right, (form["instruction"], said, cell))
        line = self.names.lines.get(address & ~7) if self.source else None
        check(f"{kind} source", (form["source"] or {}).get("line") == line, (form["source"], line))

    def why(self, kind: str, lines: list[str], turn: Turn) -> None:
        """The sentences of a fault, against what its turn fetched and accessed."""
        text, fault = "\n".join(lines), turn.fault
        place = re.search(rf"no page is mapped at {PLACE}", text)
        wanted = turn.access[1] if turn.access else turn.fetch
        if fault == 5:
            self.check(f"{kind} no page", place and wanted is not None and self.names.address(place[1]) == wanted, (text, turn.line))
        else:
            self.check(f"{kind} other", place is None, (text, turn.line))
        if fault == 4:
            past = re.match(rf"{PLACE} is (\d) bytes past a word", text)
            fetched = "the thread is there" not in text
            self.check(f"{kind} align", past and fetched == (turn.fetch is not None), (text, turn.line))
        ended = "ran past the end of its segment" in text
        if ended or fault == 3:
            self.check(f"{kind} past", not ended or (fault == 3 and turn.fetch is None), (text, turn.line))
        stands = re.search(rf"the word at {PLACE} is not an instruction: (.*)", text)
        if fault == 7 and stands:
            right = turn.cell is not None and self.names.is_word(stands[2], turn.cell[0])
            self.check(f"{kind} illegal", right and self.names.address(stands[1]) == turn.fetch, (text, turn.line, turn.cell))

    # The report as a text

    def text(self, kind: str, out: str, report: Report, state: State) -> None:
        lines, check = out.splitlines(), self.check
        first = re.match(r"(\d+) cycles?, ", lines[0])
        check(f"{kind} cycles", first and int(first[1]) == report.cycles, lines[0])
        self.outputs(kind, out, report)
        pages = re.search(r"^pages\n((?:  .*\n)*)", out, re.M)
        told = re.findall(r"^  0x([0-9a-f]+)  (mapped|removed) by the run$", pages[1] if pages else "", re.M)
        changes = [(int(address, 16) >> 12, {"mapped": "new", "removed": "gone"}[how]) for address, how in told]
        check(f"{kind} pages", changes == report.pages, (pages and pages[0], report.pages))
        shown = re.search(r"^memory that has changed\n((?:  .*\n)*)", out, re.M)
        rows = [row for row in (shown[1] if shown else "").splitlines() if not row.startswith("  .. and ")]
        wanted = sorted(report.cells)[:CELLS_SHOWN]
        check(f"{kind} cells", [self.names.address(row.split()[0]) for row in rows] == wanted, (rows, wanted))
        for row, address in zip(rows, wanted):
            self.changed(f"{kind} cell", row, address, report)
        blocks = re.split(r"^  slot (?=\d+  )", out, flags=re.M)[1:]
        check(f"{kind} slots", [int(block.split()[0]) for block in blocks] == list(report.slots), out)
        for block, (number, slot) in zip(blocks, report.slots.items()):
            self.block(kind, block, number, slot, state)

    def outputs(self, kind: str, out: str, report: Report) -> None:
        for group, data in report.outputs.items():
            said = re.search(rf'^group {group}  (?:no output|output "(.*?)"(?: \.\. (\d+) more bytes?)?  \((\d+) bytes?: ([0-9a-f ]*)( \.\. \d+ more)?\))$', out, re.M)
            text = (said[1] or "").encode().decode("unicode_escape").encode("latin-1").hex() if said else None
            digits = (said[4] or "").replace(" ", "") if said else ""
            whole = said is not None and text is not None and len(text) // 2 + int(said[2] or 0) == len(data) // 2
            right = whole and data.startswith(text) and data.startswith(digits) and (bool(said[5]) or digits == data)
            self.check(f"{kind} output", right, (said and said[0], data))

    def changed(self, kind: str, row: str, address: int, report: Report) -> None:
        (word, full), before = report.cells[address], self.image.cells.get(address, (ZERO, True))
        said = re.match(r"  \S+ +(.*?)(, full|, empty)? \(it was (.*?)(, empty)?\)$", row)
        self.check(kind, said and self.names.is_word(said[1], word) and (said[2] != ", full" or full) and (full or said[2] == ", empty"), (row, word, full))
        if said and said[3] in ("full", "empty"):
            self.check(f"{kind} was", before == (word, said[3] == "full"), (row, before))
        elif said:
            self.check(f"{kind} was", self.names.is_word(said[3], before[0]) and (said[4] is None) == before[1], (row, before))

    def block(self, kind: str, block: str, number: int, slot: Mapping[str, Any], state: State) -> None:
        """The lines of a slot."""
        rows, check = block.splitlines(), self.check
        head = re.match(r"\d+  (.*)  \((\d+) turns?\)$", rows[0])
        said = head[1] if head else ""
        check(f"{kind} turns", head and int(head[2]) == slot["turns"], rows[0])
        check(f"{kind} state", said.startswith(BEGINNINGS[slot["state"]]), (said, slot))
        check(f"{kind} past", (", past the end of its segment" in said) <= slot["past"], (said, slot))
        place, address = re.search(rf" at {PLACE}(?: by|,|$)", said), address_in(slot["ip"])
        if place and not said.startswith("waiting"):
            check(f"{kind} place", self.names.address(place[1]) == address, (said, slot))
        check(f"{kind} fault", not slot["fault"] or f"fault {slot['fault']} " in said, (said, slot))
        words = {int(row[0]): row[1] for row in re.findall(r"^    r(\d+) {1,4}((?!is )\S.*)$", "\n".join(rows[1:]), re.M)}
        for k, word in slot["words"].items():
            right = words.get(k, "").startswith("empty") if word is None else self.names.is_word(words.get(k, ""), word)
            check(f"{kind} register", right, (k, words.get(k), word))
        there = re.match(r"    (?:0x[0-9a-f]+|(\S+?):(\d+)): (.*)$", rows[1]) if len(rows) > 1 and not slot["past"] else None
        if there and there[1]:
            check(f"{kind} line", int(there[2]) == self.names.lines.get(address & ~7), (rows[1], hex(address)))
            check(f"{kind} line unchanged", state.cell(address) == self.image.cells.get(address & ~7), (rows[1], state.cell(address)))
        elif there:
            word, _, after = there[3].partition("  (after the last line of ")
            check(f"{kind} there", self.names.is_there(word, state.cell(address), self.said, address), (rows[1], state.cell(address)))
            base, log, _ = self.names.segments.get(after.removesuffix(": a word that holds 0 is `halt`)"), (0, 0, 0))
            stops = slot["state"] == "halted" and state.cell(address) == ("i" + 16 * "0", True)
            ends = stops and base <= address < base + (1 << log) and address not in self.names.lines
            check(f"{kind} after the last line", not after or ends, (rows[1], state.cell(address), slot["state"]))

    # A trace

    def trace(self, form: Any, turns: list[Turn]) -> None:
        self.check("trace turns", len(form) == len(turns), (len(form), len(turns)))
        for each, turn in zip(form, turns):
            if turn.delivers:
                wanted: Any = {"cycle": turn.cycle, "slot": turn.slot, "outcome": "delivered", "register": f"r{turn.turn}"}
                self.check("trace delivery", each == wanted, (each, turn.line))
                continue
            same = (turn.cycle, turn.slot, turn.turn, turn.outcome[0], turn.fault)
            self.check("trace turn", (each["cycle"], each["slot"], each["turn"], each["outcome"], each["fault"]) == same, (each, turn.line))
            self.check("trace fetched", (each["fetch"] is None) == (turn.fetch is None) == (each["instruction"] is None), (each, turn.line))
            if turn.fetch is not None:
                self.address("trace fetch", each["fetch"], turn.fetch)
                right = self.names.is_there(each["instruction"], turn.cell, self.said, turn.fetch)
                self.check("trace instruction", right, (each["instruction"], turn.cell, turn.line))
            self.check("trace access", (each["access"] or {}).get("kind") == (turn.access or (None,))[0], (each, turn.line))
            if turn.access:
                self.address("trace access", each["access"], turn.access[1])
            self.word("trace enters", each["enters"], turn.enters)

    def trace_text(self, out: str, turns: list[Turn]) -> None:
        rows = out.split("\n\n")[0].splitlines()[1:]
        self.check("trace rows", len(rows) == len(turns), (len(rows), len(turns)))
        for row, turn in zip(rows, turns):
            self.row(row, turn)

    def row(self, row: str, turn: Turn) -> None:
        check = self.check
        if turn.delivers:
            said = re.match(r" *(\d+)  slot (\d+) +a load arrives in r(\d+)$", row)
            check("row delivery", said and tuple(map(int, said.groups())) == (turn.cycle, turn.slot, turn.turn), (row, turn.line))
            return
        said = re.match(r" *(\d+)  slot (\d+) +(\d+)  (\S+) +(.*)$", row)
        check("row turn", said and tuple(map(int, said.groups()[:3])) == (turn.cycle, turn.slot, turn.turn), (row, turn.line))
        if said is None:
            return
        what = re.split(r"  +", said[5], maxsplit=1)
        did = what[1] if len(what) > 1 else ""
        if turn.fetch is None:
            check("row no fetch", said[4] == "?" and what[0] == "(nothing was fetched)", (row, turn.line))
        else:
            check("row place", self.names.address(said[4]) == turn.fetch, (row, turn.line))
            text = what[0].replace(" (changed by the run)", "")
            check("row instruction", self.names.is_there(text, turn.cell, self.said, turn.fetch), (row, turn.cell, turn.line))
            is_other = turn.cell != self.image.cells.get(turn.fetch)
            check("row changed", ("(changed by the run)" in what[0]) == is_other, (row, turn.cell, turn.line))
        fault = re.search(r"fault (\d+) ", did + " ")
        check("row fault", (int(fault[1]) if fault else None) == turn.fault, (row, turn.line))
        check("row blocked", did.startswith("waits") == (turn.outcome == ["blocked"]), (row, turn.line))
        access = re.search(rf"(?:^|; )({ACCESSED}) {PLACE}", did)
        wanted = turn.access if turn.outcome != ["blocked"] else None
        found = access and (access[1], self.names.address(access[2]))
        kinds = TRIED if turn.fault else KINDS
        check("row access", found == (wanted and (kinds[wanted[0]], wanted[1])), (row, turn.line))
        enters = re.search(r"(?:^|; )enters (\S+ 2\^\d+ \S+)$", did)
        right = self.names.is_word(enters[1], turn.enters) if enters and turn.enters else not enters and not turn.enters
        check("row enters", right, (row, turn.line))
        if turn.access and turn.outcome == ["blocked"]:
            waits = re.match(rf"waits for {PLACE}", did)
            check("row waits", waits and self.names.address(waits[1]) == turn.access[1], (row, turn.line))


CODES = {1: "ro", 2: "rw", 3: "xu", 4: "xp", 5: "eu", 6: "ep", 7: "key"}
