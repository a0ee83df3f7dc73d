"""The machine a second time, after docs/MACHINE.md and docs/INSTRUCTIONS.md: its configurations and their moves."""

from __future__ import annotations

from typing import Optional

from mm.explore.parts import BLANK, HALTED, RUNNING, TAG, Cell, Configuration, Step, Thread, word_of
from mm.explore.turn import Turn
from mm.formats.image import Image
from mm.formats.schedule import PORT
from mm.machine.isa import Instruction, decode


class Machine:
    """The machine of an image: what never changes of it."""

    def __init__(self, image: Image) -> None:
        self.image, self.split = image, image.split
        self.numbers = [slot.number for slot in image.slots]
        self.groups = image.groups
        self.of_group = [self.groups.index(slot.group) for slot in image.slots]
        self.handlers = [None if s.handler is None else self.numbers.index(s.handler) for s in image.slots]
        # The cells and the instructions that were asked for so far.
        self.cells: dict[int, Cell] = {}
        self.instructions: dict[int, Optional[Instruction]] = {}

    def cell(self, word: int) -> Cell:
        """The cell of a word in the image; a blank one where the image has no page."""
        found = self.cells.get(word)
        if found is None:
            cell = self.image.cell(word)
            found = self.cells[word] = (cell.word.bits | TAG * cell.word.tagged, cell.full) if cell else BLANK
        return found

    def instruction(self, bits: int) -> Optional[Instruction]:
        """The instruction that an integer spells, if it spells one."""
        if bits not in self.instructions:
            self.instructions[bits] = decode(bits)
        return self.instructions[bits]

    def start(self) -> Configuration:
        threads = tuple(
            Thread(
                tuple(word.bits | TAG * word.tagged for word in slot.registers),
                word_of(slot.ip),
                False,
                HALTED if slot.halted else RUNNING,
                frozenset(),
                (),
            )
            for slot in self.image.slots
        )
        queues, outputs = ((),) * len(threads), (b"",) * len(self.groups)
        return Configuration(threads, queues, outputs, frozenset(self.image.pages), frozenset())

    def moves(self, here: Configuration) -> list[int]:
        """The items that do something: running slots, and in a split machine ports of slots with a pending load."""
        running = [n for n, thread in zip(self.numbers, here.threads) if thread.state == RUNNING]
        ports = [PORT + n for n, thread in zip(self.numbers, here.threads) if self.split and thread.pending]
        return running + ports

    def move(self, here: Configuration, item: int) -> tuple[Step, Configuration]:
        """Makes a move."""
        index = self.numbers.index(item % PORT)
        turn = Turn(self, here, index)
        if item >= PORT:
            turn.deliver(index)
            return Step(index, 0, (), True), turn.configuration()
        fault = turn.make()
        return Step(index, fault, tuple(turn.accesses), turn.done), turn.configuration()
