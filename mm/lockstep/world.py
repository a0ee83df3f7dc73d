"""The memory of a random image: its pages, the areas in them that code and pointers speak of, numbers and pointers."""

from __future__ import annotations

from dataclasses import dataclass

from mm.formats.image import PAGE_BYTES
from mm.lockstep.dice import Dice
from mm.machine.words import ADDRESS_BITS, ADDRESS_LIMIT, LONGEST, WORD_MASK, Cell, Permission, Pointer, Word

LAST_PAGE = ADDRESS_LIMIT // PAGE_BYTES - 1
CODE, GATE, DATA, TABLE = "code", "gate", "data", "table"
# Where the pages of an image begin: usual places, and both ends of the address space.
FIRST_PAGES = [(0x100, 10), (0x101, 3), (0x0, 2), (0x1, 1), (LAST_PAGE - 7, 2), (0x3FFF8, 1), (1 << 40, 1)]
EDGES = [
    *(0, 1, 2, 3, 7, 8, 9, 12, 16, 31, 32, 53, 54, 55, 62, 63, 64, 65, 127, 128, 255, 256, 511, 512, 4095, 4096),
    *(1 << power for power in (31, 32, 41, 42, 43, 53, 54, 62, 63)),
    *((1 << power) - 1 for power in (31, 32, 42, 54, 63)),
    *(WORD_MASK - step for step in (0, 1, 7, 8, 15, 4095)),
]
PERMISSIONS = [
    (Permission.RW, 34),
    (Permission.RO, 12),
    (Permission.XU, 14),
    (Permission.XP, 6),
    (Permission.EU, 14),
    (Permission.EP, 8),
    (Permission.KEY, 6),
]
LOADING = [(Permission.RW, 12), (Permission.RO, 3), (Permission.XU, 1), (Permission.XP, 1)]


@dataclass(frozen=True)
class Area:
    """A segment that the image is made of: what it is for, and where it is."""

    kind: str
    base: int
    log: int

    @property
    def words(self) -> int:
        return 1 << self.log - 3

    def word(self, place: int) -> int:
        """The address of a word."""
        return self.base + 8 * place


class World:
    """Pages, areas and cells, and what numbers and pointers to them look like."""

    def __init__(self, dice: Dice) -> None:
        self.dice = dice
        first = dice.weighed(FIRST_PAGES)
        self.pages = [first + k for k in range(dice.between(1, 4)) if first + k <= LAST_PAGE]
        self.hole = (self.pages[-1] + 1) % (LAST_PAGE + 1)
        if dice.chance(25):
            self.pages.append(dice.one([page for page in (0, LAST_PAGE, 0x4000) if page not in self.pages]))
            self.pages.sort()
        self.frames = len(self.pages) + dice.one([0, 0, 1, 1, 2, 5])
        self.free = {page: 0 for page in self.pages}
        self.areas: list[Area] = []
        self.cells: dict[int, Cell] = {}
        self.slots: list[int] = []

    def place(self, kind: str, log: int) -> Area:
        """A new area. Some areas, and those that find no room, are the end of a page, and may share it."""
        page, size = self.dice.one(self.pages), 1 << log
        at = (self.free[page] + size - 1) // size * size
        if at + size > PAGE_BYTES or self.dice.chance(15):
            at = PAGE_BYTES - size
        else:
            self.free[page] = at + size
        area = Area(kind, page * PAGE_BYTES + at, log)
        self.areas.append(area)
        return area

    def of_kind(self, *kinds: str) -> Area:
        """One of the areas of some kinds; any area if there are none."""
        return self.dice.one([area for area in self.areas if area.kind in kinds] or self.areas)

    def number(self) -> int:
        """A number: small, at an edge, a slot's, a page's, the bits of a pointer, or any."""
        dice = self.dice
        kind = dice.weighed([("small", 34), ("edge", 34), ("slot", 6), ("page", 8), ("bits", 8), ("any", 10)])
        if kind == "small":
            return dice.below(17)
        if kind == "edge":
            return dice.one(EDGES)
        if kind == "slot":
            return dice.one(self.slots) if self.slots else 0
        if kind == "page":
            return self.page_number()
        return self.pointer().bits if kind == "bits" else dice.bits(64)

    def page_number(self) -> int:
        near = [*self.pages, self.hole, self.hole + 1, 0x200]
        return self.dice.one(near) if self.dice.chance(95) else self.dice.one([LAST_PAGE, LAST_PAGE + 1, 1 << 60])

    def pointer(self) -> Pointer:
        """A pointer of any permission."""
        permission = self.dice.weighed(PERMISSIONS)
        runs = permission.executes or permission.enters
        kinds = (CODE, GATE) if runs == self.dice.chance(88) else (DATA, TABLE)
        return self.into(permission, self.of_kind(*kinds))

    def into(self, permission: Permission, area: Area) -> Pointer:
        """A pointer to an area: mostly to a whole word in a segment that is the area."""
        dice = self.dice
        place = dice.weighed([(0, 10), (area.words - 1, 3), (dice.below(area.words), 8)])
        address = area.word(place)
        if dice.chance(7):
            address += dice.between(1, 7)
        elif dice.chance(3):
            address = self.hole * PAGE_BYTES + 8 * dice.below(512)
        log = area.log
        if dice.chance(18):
            log = dice.weighed([(dice.below(4), 5), (dice.between(3, area.log), 6), (dice.between(9, 16), 8)])
        elif dice.chance(4):
            log = dice.one([LONGEST, 53, 40, 17])
        return Pointer(permission, log, address % (1 << ADDRESS_BITS))

    def word(self) -> Word:
        """A word of any kind."""
        return self.words(1, 35)[0]

    def put(self, area: Area, words: list[Word], empty: int) -> None:
        """Lays words into an area; so many of a hundred cells are empty."""
        for place, word in enumerate(words[: area.words]):
            self.cells[area.word(place)] = Cell(word, not self.dice.chance(empty))

    def words(self, count: int, pointers: int) -> list[Word]:
        """Words of which so many of a hundred are pointers."""
        return [
            Word(self.pointer().bits, True) if self.dice.chance(pointers) else Word(self.number()) for _ in range(count)
        ]
