"""Reports: what `run`, `trace`, `solo` and `continue` end with, and `net` writes for each node."""

from __future__ import annotations

from typing import Iterable, Optional

from mm.machine.words import Cell, Word
from mm.records import dataclass, field


@dataclass
class SlotState:
    """A slot at the end of a run. A register that is empty has no word."""

    number: int
    group: int
    turns: int
    state: str
    fault: Optional[int]
    ip: Word
    past: bool
    registers: dict[int, Optional[Word]] = field(default_factory=dict)
    pending: list[tuple[int, Word]] = field(default_factory=list)

    @property
    def running(self) -> bool:
        return self.state == "running"

    def register(self, number: int) -> Optional[Word]:
        return self.registers.get(number, Word(0))


@dataclass
class Report:
    """A state, against its image."""

    cycles: int = 0
    outputs: dict[int, bytes] = field(default_factory=dict)
    slots: list[SlotState] = field(default_factory=list)
    pages: list[tuple[int, bool]] = field(default_factory=list)
    cells: dict[int, Cell] = field(default_factory=dict)
    counts: dict[str, int] = field(default_factory=dict)

    def slot(self, number: int) -> Optional[SlotState]:
        return next((slot for slot in self.slots if slot.number == number), None)

    @property
    def groups(self) -> list[int]:
        return list(self.outputs)


def state_of(words: list[str]) -> tuple[str, Optional[int]]:
    """The state that words begin with, and the number of the fault that halted the slot, where one did."""
    return words[0], int(words[1]) if words[0] == "faulted" else None


def state_text(state: str, fault: Optional[int]) -> str:
    """A state as a report has it."""
    return state if fault is None else f"{state} {fault}"


def read_slot(words: list[str], group: int) -> SlotState:
    """A line `slot S turns T STATE ip WORD`, with the fault of a slot that has faulted and the mark of one that is past."""
    at = words.index("ip")
    state, fault = state_of(words[4:at])
    return SlotState(
        int(words[1]), group, int(words[3]), state, fault, Word.parse(words[at + 1]), words[-1] == "past"
    )


def read_register(slot: SlotState, words: list[str]) -> None:
    """A line `r K WORD`, `r K empty` or `pending K WORD`."""
    if words[0] == "pending":
        slot.pending.append((int(words[1]), Word.parse(words[2])))
    else:
        slot.registers[int(words[1])] = None if words[2] == "empty" else Word.parse(words[2])


def _take(report: Report, words: list[str], group: int) -> int:
    """Takes one line; the group to which the next lines belong."""
    key = words[0]
    if key == "cycles":
        report.cycles = int(words[1])
    elif key == "group":
        group = int(words[1])
        report.outputs[group] = b""
    elif key == "o":
        report.outputs[group] += bytes.fromhex(words[1])
    elif key == "slot":
        report.slots.append(read_slot(words, group))
    elif key in ("r", "pending"):
        read_register(report.slots[-1], words)
    elif key == "page":
        report.pages.append((int(words[1], 16), words[2] == "new"))
    elif key == "cell":
        report.cells[int(words[1], 16)] = Cell(Word.parse(words[2]), words[3] == "full")
    elif key == "counts":
        report.counts = {name: int(value) for name, value in zip(words[1::2], words[2::2])}
    return group


def read_report(lines: Iterable[str]) -> Report:
    """The report that lines spell."""
    report, group = Report(), 0
    for line in lines:
        words = line.split()
        if words:
            group = _take(report, words, group)
    return report
