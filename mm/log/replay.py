"""The machine after any turn, rebuilt from its image and the changes of a log. It reads no instruction."""

from __future__ import annotations

from collections import deque
from typing import Callable, Optional

from mm.formats.image import Image, Slot
from mm.log.changes import (
    ByteOut,
    CellSet,
    EventQueued,
    EventTaken,
    IpSet,
    LoadIssued,
    PageSet,
    RegisterSet,
    StateSet,
)
from mm.log.read import Step
from mm.machine.memory import Memory
from mm.machine.words import ZERO, Cell, Word
from mm.outputs.report import Report, SlotState
from mm.records import dataclass, field


@dataclass
class SlotNow:
    """A slot at one moment. A register that is empty has no word."""

    number: int
    group: int
    handler: Optional[int]
    state: str
    ip: Word
    registers: list[Optional[Word]]
    fault: Optional[int] = None
    past: bool = False
    turns: int = 0
    pending: list[tuple[int, Word]] = field(default_factory=list)
    queue: deque[EventQueued] = field(default_factory=deque)

    @classmethod
    def of(cls, slot: Slot) -> SlotNow:
        state = "halted" if slot.halted else "running"
        return cls(slot.number, slot.group, slot.handler, state, Word(slot.ip.bits, True), list(slot.registers))

    def report(self) -> SlotState:
        """The slot as a report has it: registers that are not integer 0."""
        words = {number: word for number, word in enumerate(self.registers) if word != ZERO}
        return SlotState(
            self.number,
            self.group,
            self.turns,
            self.state,
            self.fault,
            self.ip,
            self.past,
            words,
            list(self.pending),
        )


class Machine:
    """A machine at one moment: its slots, its outputs and its memory."""

    def __init__(self, image: Image) -> None:
        self.image = image
        self.slots = {slot.number: SlotNow.of(slot) for slot in image.slots}
        self.outputs = {group: bytearray() for group in image.groups}
        self.memory = Memory(image)
        self.steps = 0

    def carry_out(self, step: Step) -> None:
        """Makes the changes of a turn."""
        self.steps += 1
        if step.turn.delivered is None:
            self.slots[step.turn.slot].turns = step.turn.number
        for change in step.changes:
            CARRIERS[type(change)](self, change)

    def cell(self, address: int) -> Optional[Cell]:
        """The cell at an address, or none if there is no page."""
        return self.memory.cell(address)

    @property
    def pages(self) -> set[int]:
        """The numbers of the pages that are mapped."""
        return self.memory.pages

    def report(self, cycles: int) -> Report:
        """The report of this moment, but for the counts of the cache."""
        there = set(self.image.pages)
        return Report(
            cycles,
            {group: bytes(data) for group, data in self.outputs.items()},
            [slot.report() for slot in sorted(self.slots.values(), key=lambda slot: (slot.group, slot.number))],
            [(page, page in self.pages) for page in sorted(self.pages ^ there)],
            self.memory.changed(),
        )

    def _ip(self, change: IpSet) -> None:
        slot = self.slots[change.slot]
        slot.ip, slot.past = change.ip, change.past

    def _state(self, change: StateSet) -> None:
        slot = self.slots[change.slot]
        slot.state, slot.fault = change.state, change.fault

    def _register(self, change: RegisterSet) -> None:
        slot = self.slots[change.slot]
        if slot.registers[change.register] is None and change.word is not None:
            slot.pending = [entry for entry in slot.pending if entry[0] != change.register]
        slot.registers[change.register] = change.word

    def _load(self, change: LoadIssued) -> None:
        self.slots[change.slot].pending.append((change.register, change.word))

    def _event(self, change: EventQueued) -> None:
        self.slots[change.handler].queue.append(change)

    def _taken(self, change: EventTaken) -> None:
        self.slots[change.handler].queue.popleft()

    def _out(self, change: ByteOut) -> None:
        self.outputs[change.group].append(change.byte)

    def _page(self, change: PageSet) -> None:
        self.memory.set_page(change.page, change.new)

    def _cell(self, change: CellSet) -> None:
        self.memory.set_cell(change.address, change.cell)


CARRIERS: dict[type, Callable[..., None]] = {
    IpSet: Machine._ip,
    StateSet: Machine._state,
    RegisterSet: Machine._register,
    LoadIssued: Machine._load,
    EventQueued: Machine._event,
    EventTaken: Machine._taken,
    ByteOut: Machine._out,
    PageSet: Machine._page,
    CellSet: Machine._cell,
}
