"""Unit vectors: operands of one operation, with the fault or the result that the model's turn gives.

Each slot of an image has operands of its own and takes one turn; the log says what came of it."""

from __future__ import annotations

import os
from dataclasses import dataclass
from typing import Iterator, Optional

from mm.formats.image import PAGE_BYTES, Image, Slot, image_bytes, page_of
from mm.lockstep.dice import Dice
from mm.lockstep.programs import room
from mm.lockstep.world import EDGES
from mm.log.changes import RegisterSet
from mm.log.read import read_log
from mm.machine.isa import OPERATIONS, Instruction, Operation, encode
from mm.machine.program import Program
from mm.machine.words import ADDRESS_LIMIT, WORD_MASK, ZERO, Cell, Permission, Pointer, Word

CODE, SLOTS, RESULT = 0x100000, 64, 3
# What an operation of a unit has: it writes rd, and names no other slot, no page and no word of memory.
FORMS = (("rd", "ra", "rb"), ("rd", "ra"), ("rd", "ra", "imm"))
OUTSIDE = ("jal", "rreg", "map", "unmap")
LENGTHS = (0, 2, 3, 4, 12, 31, 53, 54)
ADDRESSES = (0, 1, 7, 8, 0x120000, 0x120FF8, 0x120FFF, ADDRESS_LIMIT - 8, ADDRESS_LIMIT - 1)


def fields_of(operation: Operation) -> tuple[str, ...]:
    return tuple(kind.field for kind in operation.operands)


def units() -> list[str]:
    """The operations that have vectors."""
    return [name for name, one in OPERATIONS.items() if fields_of(one) in FORMS and name not in OUTSIDE]


@dataclass(frozen=True)
class Vector:
    """Operands, and the number of the fault, 0 for none, or the result. A number in the instruction stands as B."""

    a: Word
    b: Word
    fault: int
    result: Word

    @property
    def line(self) -> str:
        """Four places of `$readmemh`: words with their tags, and the fault."""
        words = [f"{word.tagged:x}{word.bits:016x}" for word in (self.a, self.b, self.result)]
        return f"{words[0]} {words[1]} {self.fault:x} {words[2]}"


class Operands:
    """Operands at edges, and some that are any: mostly a pointer where the operation wants one."""

    def __init__(self, operation: Operation, seed: int) -> None:
        self.operation, self.dice = operation, Dice(f"vectors {operation.name} {seed}")
        self.on_pointers = operation.number >> 4 == 2

    def pointer(self) -> Pointer:
        dice = self.dice
        address = dice.one(ADDRESSES) if dice.chance(70) else dice.bits(54)
        return Pointer(dice.one(tuple(Permission)), dice.one(LENGTHS), address)

    def number(self) -> int:
        dice = self.dice
        if dice.chance(25):
            return dice.below(64)
        return (dice.one(EDGES) if dice.chance(70) else dice.bits(64)) & WORD_MASK

    def word(self, pointers: int) -> Word:
        dice = self.dice
        if dice.chance(pointers):
            return Word(self.pointer().bits, True)
        return Word(self.pointer().bits) if dice.chance(10) else Word(self.number())

    def pair(self) -> tuple[Word, Word]:
        """A, and B or the number, which has 32 bits with a sign."""
        plain = self.operation.name == "setptr" or not self.on_pointers
        a, b = self.word(30 if plain else 90), self.word(15)
        if "imm" in fields_of(self.operation):
            low = b.bits & 0xFFFFFFFF
            b = Word((low - (1 << 32) if low >> 31 else low) & WORD_MASK)
        return a, b if len(self.operation.operands) == 3 else ZERO


def _instruction(operation: Operation, b: Word) -> Word:
    """The instruction on r1 and r2, or with a number; its result goes to r3."""
    number = b.bits & 0xFFFFFFFF
    signed = number - (1 << 32) if number >> 31 else number
    values = {"rd": RESULT, "ra": 1, "rb": 2, "imm": signed}
    return Word(encode(Instruction(operation, tuple(values[field] for field in fields_of(operation)))))


def _image(operation: Operation, pairs: list[tuple[Word, Word]]) -> bytes:
    """An image in which slot k has the k-th pair. Code is privileged, so that `setptr` is tested too."""
    cells = {place: Cell(_instruction(operation, b)) for place, (_, b) in enumerate(pairs)}
    slots = [
        Slot(
            number,
            number,
            None,
            False,
            Pointer(Permission.XP, 12, CODE + 8 * number),
            (ZERO, a, b, *[ZERO] * 13),
        )
        for number, (a, b) in enumerate(pairs)
    ]
    page = page_of(CODE // PAGE_BYTES, cells)
    return image_bytes(Image(2, 1, False, tuple(slots), {page.number: page}))


def _some(program: Program, operation: Operation, pairs: list[tuple[Word, Word]], place: str) -> Iterator[Vector]:
    """The vectors of as many pairs as an image has slots."""
    image, schedule = os.path.join(place, "image"), os.path.join(place, "schedule")
    with open(image, "wb") as file:
        file.write(_image(operation, pairs))
    with open(schedule, "w", encoding="ascii") as file:
        file.write(" ".join(map(str, range(len(pairs)))))
    steps, _ = read_log(program.run(["log", image, str(len(pairs)), schedule]).text.splitlines())
    for (a, b), step in zip(pairs, steps):
        made: Optional[Word] = next((it.word for it in step.changes if isinstance(it, RegisterSet)), ZERO)
        yield Vector(a, b, step.turn.fault or 0, made or ZERO)


def vectors(program: Program, name: str, count: int, seed: int = 1) -> Iterator[Vector]:
    """So many vectors of an operation, by the model."""
    operation = OPERATIONS[name]
    operands = Operands(operation, seed)
    with room() as files:
        for first in range(0, count, SLOTS):
            pairs = [operands.pair() for _ in range(min(SLOTS, count - first))]
            yield from _some(program, operation, pairs, files.path)
