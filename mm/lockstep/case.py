"""Cases by number: an image and a schedule, made from a seed and the number alone."""

from __future__ import annotations

from dataclasses import dataclass
from typing import AbstractSet

from mm.formats.image import PAGE_BYTES, Image, Slot, image_bytes, page_of
from mm.formats.schedule import PORT, Schedule
from mm.lockstep.code import ALL, Coder
from mm.lockstep.dice import Dice
from mm.lockstep.world import CODE, DATA, GATE, LOADING, TABLE, Area, World
from mm.machine.words import Cell, Permission, Pointer, Word

# How long the schedules of usual cases are, and how many bytes a group may put out.
ITEMS = (200, 600)
FLOOD_WORDS = 64
OUTPUTS = {1: 4096, 2: 65536}
# Of how many cases one puts out as many bytes as a group of version 1 may, and of those of version 2 one all of theirs.
FLOOD_OF, ALL_OF = 60, 20


@dataclass(frozen=True)
class Case:
    """An image, and the items of its schedule."""

    name: str
    image: bytes
    items: tuple[int, ...]


def schedule_text(items: tuple[int, ...]) -> str:
    """Items as a schedule has them, equal ones together."""
    runs: list[list[int]] = []
    for item in items:
        if runs and runs[-1][0] == item:
            runs[-1][1] += 1
        else:
            runs.append([item, 1])
    return " ".join(str(item) if count == 1 else f"{item}*{count}" for item, count in runs) + "\n"


def items_of(schedule: Schedule) -> tuple[int, ...]:
    return tuple(schedule.items())


class Maker:
    """Makes the case of a number."""

    def __init__(self, seed: int, number: int, names: AbstractSet[str], plain: bool) -> None:
        self.name = f"{seed}-{number}"
        self.dice = dice = Dice(f"lockstep {seed} {number}")
        self.version = 1 if dice.chance(38) else 2
        self.split = self.version == 2 and dice.chance(72) and not plain
        self.floods = dice.below(FLOOD_OF) == 0
        self.world = World(dice)
        self.coder = Coder(self.world, names)
        most = 16 if self.version == 1 else 64
        counts = [(1, 3), (2, 14), (3, 22), (4, 22), (5, 14), (8, 8), (dice.between(2, most), 4), (most, 1)]
        count = dice.weighed(counts)
        self.numbers = self.world.slots = dice.some(range(most), count)
        self.groups = [dice.below(most) for _ in range(dice.between(1, 4))]
        self.kernels = dice.some(self.numbers, 0 if count == 1 else 1 if count < 5 else dice.between(1, 3))
        # Code in which a slot can begin: a worker's or a kernel's. Only one that is privileged can map pages.
        self.workers: list[Area] = []
        self.privileged: dict[Area, bool] = {}

    def lay(self) -> None:
        """Lays out data, code and gates: first the areas, and then what is in them: pointers to one another."""
        dice, world, coder = self.dice, self.world, self.coder
        floods = [world.place(CODE, 9)] if self.floods else []
        workers = [world.place(CODE, dice.between(6, 9)) for _ in range(dice.between(1, 4))]
        kernels = [world.place(CODE, dice.between(7, 8)) for _ in self.kernels[:2]]
        gates = [world.place(GATE, dice.between(6, 7)) for _ in range(dice.between(1, 2))]
        data = [world.place(DATA, dice.between(3, 7)) for _ in range(dice.between(1, 3))]
        tables = [world.place(TABLE, 6) for _ in range(dice.between(1, 2))]
        self.workers = floods + workers
        self.privileged = {area: dice.chance(45) for area in kernels}
        for area, privileged in self.privileged.items():
            world.put(area, coder.fitting(coder.kernel(area.words, privileged)), 4)
        for areas, make in ((workers, coder.worker), (gates, coder.gate), (floods, coder.flood)):
            for area in areas:
                world.put(area, coder.fitting(make(area.words)), 4)
        for area in data:
            world.put(area, world.words(area.words, 12), 18)
        for area in tables:
            world.put(area, world.words(area.words, 92), 3)

    def registers(self) -> tuple[Word, ...]:
        """Registers with their uses, and a few with anything."""
        dice, world = self.dice, self.world
        words = [Word(world.number()) for _ in range(16)]
        words[4] = Word(dice.below(10))
        enters = dice.weighed([(Permission.EU, 6), (Permission.EP, 2), (Permission.XU, 2)])
        pointers = {5: world.into(enters, world.of_kind(GATE)), 6: world.into(Permission.XU, world.of_kind(CODE))}
        for register in (8, 9, 10):
            pointers[register] = world.into(dice.weighed(LOADING), world.of_kind(DATA, TABLE))
        pointers[11] = world.pointer()
        table, data = world.of_kind(TABLE), world.of_kind(DATA)
        pointers[14] = Pointer(Permission.RW, table.log, table.base)
        pointers[15] = Pointer(Permission.RW, data.log, data.base)
        for register, pointer in pointers.items():
            words[register] = Word(pointer.bits, True)
        words[12], words[13] = Word(dice.one(self.numbers)), Word(world.page_number())
        return tuple(world.word() if dice.chance(4) else word for word in words)

    def begin(self, number: int) -> Pointer:
        """Where a slot begins: at the front of code mostly; seldom elsewhere, also where there is none."""
        dice, kernel = self.dice, number in self.kernels
        area = dice.one(list(self.privileged) if kernel else self.workers)
        permission = Permission.XP if self.privileged.get(area, dice.chance(35)) else Permission.XU
        if self.floods and number == self.flooder:
            area = self.workers[0]
        elif dice.chance(3):
            return self.world.into(permission, self.world.of_kind(CODE, GATE, DATA))
        place = 0 if kernel or dice.chance(75) else dice.below(area.words)
        return Pointer(permission, area.log, area.word(place))

    @property
    def flooder(self) -> int:
        """The slot that puts out bytes, where one does: not one that handles faults, if there is another."""
        return next((number for number in self.numbers if number not in self.kernels), self.numbers[0])

    def handler(self, number: int) -> int | None:
        if "evt" not in self.coder.names:
            return None
        others = [kernel for kernel in self.kernels if kernel != number]
        if others and self.dice.chance(30 if number in self.kernels else 84):
            return self.dice.one(others)
        rest = [other for other in self.numbers if other != number]
        return self.dice.one(rest) if rest and self.dice.chance(6) else None

    def slots(self) -> tuple[Slot, ...]:
        return tuple(
            Slot(
                number,
                self.dice.one(self.groups),
                self.handler(number),
                self.dice.chance(3) and number != self.flooder,
                self.begin(number),
                self.registers(),
            )
            for number in self.numbers
        )

    def item(self) -> int:
        """An item: a slot's, in a split machine often a port's, and seldom one of neither."""
        dice = self.dice
        if dice.chance(22 if self.split else 2):
            return PORT + dice.one(self.numbers)
        if dice.chance(4):
            return dice.below(256)
        workers = [number for number in self.numbers if number not in self.kernels] or self.numbers
        return dice.one(self.kernels if self.kernels and dice.chance(min(55, 20 + 6 * len(workers))) else workers)

    def items(self) -> tuple[int, ...]:
        """A schedule: rounds over all slots, and runs of equal items."""
        dice = self.dice
        items: list[int] = []
        if self.floods:
            limit = OUTPUTS[2 if self.version == 2 and dice.below(ALL_OF) == 0 else 1]
            items += [self.flooder] * (limit + limit // (FLOOD_WORDS - 1) + dice.below(40))
        length = len(items) + dice.between(*ITEMS)
        while len(items) < length:
            times = dice.weighed([(1, 6), (2, 4), (dice.between(3, 9), 3)])
            items += self.numbers if dice.chance(15) else [self.item()] * times
        return tuple(items[:length])

    def make(self) -> Case:
        self.lay()
        slots, world = self.slots(), self.world
        cells: dict[int, dict[int, Cell]] = {page: {} for page in world.pages}
        for address, cell in world.cells.items():
            cells[address // PAGE_BYTES][address % PAGE_BYTES // 8] = cell
        pages = {page: page_of(page, found) for page, found in cells.items()}
        image = Image(self.version, world.frames, self.split, slots, pages)
        return Case(self.name, image_bytes(image), self.items())


def case_of(seed: int, number: int, names: AbstractSet[str] = ALL, plain: bool = False) -> Case:
    """The case of a number under a seed. Its code has no operations but the named ones; its data may spell others."""
    return Maker(seed, number, names, plain).make()
