"""Random images whose pointers make webs: slots of several groups, handlers, gates, cells with pointers to one another, and in some of them privileged code."""

from __future__ import annotations


from mm.formats.image import PAGE_BYTES, Image, Slot, image_bytes, page_of
from mm.lockstep.dice import Dice
from mm.machine.words import WORD_BYTES, Cell, Permission, Pointer, Word
from mm.records import dataclass

FIRST_PAGE, PAGES = 0x100, 2
REGISTERS = 16
PRIVILEGED = [(Permission.XP, 3), (Permission.EP, 4)]


@dataclass(frozen=True)
class Segment:
    """A segment of the web."""

    base: int
    log: int

    @property
    def words(self) -> int:
        return (1 << self.log) // WORD_BYTES


class Web:
    """Makes the image of a number under a seed."""

    def __init__(self, seed: int, number: int) -> None:
        self.dice = dice = Dice(f"why {seed} {number}")
        self.privileged, self.handled = dice.chance(20), dice.chance(40)
        self.permissions = [(Permission.RW, dice.one([2, 10, 40])), (Permission.RO, 30), (Permission.XU, 20),
            (Permission.EU, 25), (Permission.KEY, 4), *(PRIVILEGED if self.privileged else [])]
        self.segments = [self.segment() for _ in range(dice.between(3, 14))]
        self.numbers = dice.some(range(16), dice.between(1, 7))
        self.groups = dice.some(range(16), dice.between(1, 5))

    def segment(self) -> Segment:
        """Segments may lie in one another."""
        log = self.dice.weighed([(3, 8), (self.dice.between(4, 7), 8), (self.dice.between(8, 12), 1)])
        place = self.dice.below((PAGES * PAGE_BYTES) >> log)
        return Segment(FIRST_PAGE * PAGE_BYTES + (place << log), log)

    def into(self, permission: Permission) -> Pointer:
        """A pointer to a segment: mostly to a whole word, and with the segment's length."""
        segment = self.dice.one(self.segments)
        address = segment.base + WORD_BYTES * self.dice.below(segment.words)
        if self.dice.chance(6):
            address += self.dice.below(WORD_BYTES)
        return Pointer(permission, self.dice.below(3) if self.dice.chance(4) else segment.log, address)

    def word(self, pointers: int) -> Word:
        """A word, of which so many of a hundred are pointers; of the others some have the bits of one."""
        if self.dice.chance(pointers):
            return Word(self.into(self.dice.weighed(self.permissions)).bits, True)
        return Word(self.into(Permission.RW).bits if self.dice.chance(10) else self.dice.below(9))

    def slot(self, number: int) -> Slot:
        others = [other for other in self.numbers if other != number]
        handler = self.dice.one(others) if others and self.handled and self.dice.chance(40) else None
        privileged = self.privileged and self.dice.chance(20)
        words = [Word(0)] * REGISTERS
        for register in self.dice.some(range(REGISTERS), self.dice.below(4)):
            words[register] = self.word(85)
        ip = self.into(Permission.XP if privileged else Permission.XU)
        return Slot(number, self.dice.one(self.groups), handler, self.dice.chance(5), ip, tuple(words))

    def make(self) -> bytes:
        dense = self.dice.one([15, 40, 80])
        cells: dict[int, dict[int, Cell]] = {FIRST_PAGE + page: {} for page in range(PAGES)}
        for segment in self.segments:
            for place in range(segment.words):
                address = segment.base + WORD_BYTES * place
                word = self.word(dense if segment.log < 8 else 2)
                cells[address // PAGE_BYTES][address % PAGE_BYTES // WORD_BYTES] = Cell(word, self.dice.chance(80))
        pages = {page: page_of(page, found) for page, found in cells.items() if self.dice.chance(95)}
        slots = tuple(self.slot(number) for number in self.numbers)
        version = self.dice.between(1, 2)
        return image_bytes(Image(version, max(1, len(pages)), version == 2 and self.dice.chance(50), slots, pages))
