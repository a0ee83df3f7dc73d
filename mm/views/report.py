"""A report for people: names for addresses, pointers spelled out, output as text, faults and waiting in words."""

from __future__ import annotations

from typing import TYPE_CHECKING, Mapping, Optional

from mm.machine.memory import BLANK
from mm.machine.words import Cell
from mm.names.numbers import counted
from mm.outputs.report import Report, SlotState
from mm.views.spell import Memory, Speller, bytes_as_text, fitting
from mm.views.style import Style
from mm.views.said import FaultSaid
from mm.words import MOST_CYCLES

if TYPE_CHECKING:
    from mm.names.clines import CLine
    from mm.views.waiting import Waiting

# How much of an output is shown, in bytes and in letters, and how many cells. `--plain` writes all of an output.
BYTES_SHOWN, LETTERS_SHOWN = 64, 1000
CELLS_SHOWN = 64


def stuck_verdict(waiting: int, arriving: bool) -> str:
    """The word for a state in which each slot that runs waits for ever. Loads may still arrive by ports."""
    what = "no slot can go on any more" if arriving else "nothing can change any more"
    deadlock = " (a deadlock)" if waiting > 1 else ""
    more = "; loads that have not arrived can still come by a port" if arriving else ""
    return f"{what}: each slot that runs waits{deadlock}{more}"


class ReportView:
    """Writes a report as lines. `faults` has what was said of the fault of a slot when it came."""

    def __init__(
        self,
        report: Report,
        memory: Memory,
        speller: Speller,
        style: Style,
        waits: Optional[Mapping[int, Waiting]] = None,
        faults: Optional[Mapping[int, FaultSaid]] = None,
        of_net: bool = False,
    ) -> None:
        self.report, self.memory, self.speller, self.style = report, memory, speller, style
        self.waits, self.faults, self.of_net = waits or {}, faults or {}, of_net

    def lines(self, order: str) -> list[str]:
        """The whole report. `order` says in what order slots took turns."""
        lines = [f"{counted(self.report.cycles, 'cycle')}, {order}"]
        for group in self.report.groups:
            lines += ["", self.group(group)]
            for slot in self.report.slots:
                if slot.group == group:
                    lines += self.slot(slot)
        lines += self.pages() + self.cells() + self.verdict()
        return lines + self.counts()

    def group(self, group: int) -> str:
        data = self.report.outputs[group]
        head = self.style.strong(f"group {group}")
        if not data:
            return f"{head}  no output"
        shown, most = data[:BYTES_SHOWN], fitting(data, LETTERS_SHOWN)
        more = f" .. {len(data) - BYTES_SHOWN} more" if len(data) > BYTES_SHOWN else ""
        text = bytes_as_text(data[:most]) + (f" .. {counted(len(data) - most, 'more byte')}" if len(data) > most else "")
        return f"{head}  output {text}  ({counted(len(data), 'byte')}: {shown.hex(' ')}{more})"

    def slot(self, slot: SlotState) -> list[str]:
        """The state of a slot, the line where it stands, and its registers."""
        lines = [f"  {self.style.strong(f'slot {slot.number}')}  {self.state(slot)}  ({counted(slot.turns, 'turn')})"]
        lines += [f"    {line}" for line in self.place(slot)]
        if slot.fault and slot.number in self.faults:
            lines += [
                f"    {self.style.bad(line) if at == 0 else line}"
                for at, line in enumerate(self.faults[slot.number].why)
            ]
        for number, word in sorted(slot.registers.items()):
            lines.append(f"    {f'r{number}':<4} {self.speller.register(word)}")
        return lines + [
            f"    a load of r{number} has not arrived: {self.speller.word(word)}" for number, word in slot.pending
        ]

    def state(self, slot: SlotState) -> str:
        """`halted at cons+48`, `stopped by fault 3 Bounds at ..`."""
        ip = slot.ip.pointer
        where = f"at {self.style.name(self.speller.symbols.show(ip.address))}" if ip else ""
        if slot.fault:
            return f"{self.style.bad('stopped')} {where} by {self.fault(slot)}"
        if slot.number in self.waits:
            from mm.views.waiting import what_for

            wait = self.waits[slot.number]
            lasts = "for ever" if wait.stuck else f"its last {counted(wait.turns, 'turn')}"
            return f"{self.style.warn(what_for(slot, self.memory, self.speller))}, {lasts}"
        words = {
            "waiting": ("has faulted", ", and its handler has not looked yet"),
            "taken": ("has faulted", ", and its handler has it"),
        }
        before, after = words.get(slot.state, (slot.state, ""))
        return f"{before} {where}{', past the end of its segment' if slot.past else ''}{after}"

    def fault(self, slot: SlotState) -> str:
        """The fault by which a slot was stopped, with its number, or as C has it."""
        from mm.machine.causes import Cause

        cause = Cause.of_number(slot.fault or 0)
        said = self.faults.get(slot.number)
        if said and said.of_c:
            return said.of_c
        return f"fault {slot.fault} {cause.title}: {cause.meaning}" if cause else f"fault {slot.fault}"

    def place(self, slot: SlotState) -> list[str]:
        """The instruction at which a slot stands, with the line that it comes from."""
        ip = slot.ip.pointer
        if ip is None or slot.past:
            return []
        origin = self.speller.symbols.origin(ip.address)
        line = self.line_of_c(slot, ip.address)
        of_c = [f"{self.style.soft(str(line) + ':')} {line.text}"] if line else []
        if origin and self.memory.is_images(ip.address):
            return [*of_c, f"{self.style.soft(str(origin) + ':')} {origin.code}"]
        there = self.style.soft(f"0x{ip.address:x}: ") + self.speller.at(self.memory, ip.address)
        return [there + (self.after_the_end(ip.address) if slot.state == "halted" else "")]

    def after_the_end(self, address: int) -> str:
        """What is told of a halt at a word that no line of the source made."""
        region = self.speller.symbols.region(address)
        blank = self.memory.is_images(address) and self.memory.cell(address) == BLANK
        if region is None or region.source is None or not blank or address < region.base + 8 * region.words:
            return ""
        return f"  (after the last line of {region.name}: a word that holds 0 is `halt`)"

    def line_of_c(self, slot: SlotState, address: int) -> Optional[CLine]:
        """The line of C where a slot stands, if its source was made from C."""
        if self.speller.symbols.c_notes(address) is None:
            return None
        from mm.views.cview import CView

        return CView(slot, self.memory, self.speller).line()

    def pages(self) -> list[str]:
        if not self.report.pages:
            return []
        return ["", "pages"] + [
            f"  0x{page << 12:x}  {'mapped' if new else 'removed'} by the run" for page, new in self.report.pages
        ]

    def cells(self) -> list[str]:
        """Cells that differ from the image's, with what they were."""
        cells = sorted(self.report.cells.items())
        if not cells:
            return []
        names = [self.speller.symbols.show(address) for address, _ in cells[:CELLS_SHOWN]]
        width = max(len(name) for name in names)
        lines = ["", "memory that has changed"]
        for name, (address, cell) in zip(names, cells):
            lines.append(f"  {self.style.name(name.ljust(width))}  {self.change(address, cell)}")
        rest = len(cells) - CELLS_SHOWN
        return lines + (
            [f"  .. and {counted(rest, 'word')} more (`mmachine run` and --json list all)"] if rest > 0 else []
        )

    def change(self, address: int, cell: Cell) -> str:
        before = self.memory.image.cell(address) or Cell()
        bit = "" if cell.full == before.full and cell.full else f", {'full' if cell.full else 'empty'}"
        if cell.word == before.word:
            return f"{self.speller.word(cell.word)}{bit} (it was {'full' if before.full else 'empty'})"
        return f"{self.speller.word(cell.word)}{bit} (it was {self.speller.word(before.word)}{'' if before.full else ', empty'})"

    def verdict(self) -> list[str]:
        """A word for a run that can come no further, or that was cut off."""
        stuck = [slot for slot, wait in self.waits.items() if wait.stuck]
        arriving = any(slot.pending for slot in self.report.slots)
        going = [slot.number for slot in self.report.slots if slot.running]
        if not stuck and self.report.cycles == MOST_CYCLES and going:
            most = f"a net has at most {MOST_CYCLES} events" if self.of_net else (
                f"a run has at most {MOST_CYCLES} cycles: `mm save` and `mm continue` make a longer one of two"
            )
            return ["", self.style.warn(most)]
        if not stuck:
            return []
        return ["", self.style.warn(stuck_verdict(len(stuck), arriving))]

    def counts(self) -> list[str]:
        counts = self.report.counts
        if not counts:
            return []
        return [
            "",
            self.style.soft(
                "cache: " + ", ".join(f"{name.replace('_', ' ')} {value}" for name, value in counts.items())
            ),
        ]
