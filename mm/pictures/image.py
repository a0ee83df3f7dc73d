"""What stands in the memory of an image: cells by segment, with code, pointers, integers and empty words."""

from __future__ import annotations

from typing import Iterator

from mm.build import Built
from mm.machine.isa import decode
from mm.machine.words import ZERO, Cell, bytes_in_words
from mm.names.symbols import Region
from mm.pictures.parts import Codes, Mark, legend
from mm.pictures.svg import MARGIN, WIDTH, Picture
from mm.views.spell import Speller

ACROSS, HIGH, MOST_WORDS = 16, 24, 128
WIDE = (WIDTH - 2 * MARGIN) / ACROSS
# The kinds of words, and what the legend calls them.
KINDS = (("code", "code"), ("pointer", "a pointer"), ("integer", "an integer"), ("", "0"))


def draw_cell(picture: Picture, what: str, x: float, y: float, tint: str = "tint-0", full: bool = True,
    width: float = WIDE) -> None:
    """A word: code is filled, a pointer has a diamond, another integer a dot; an empty word is dashed."""
    picture.rect(x + 0.75, y, width - 1.5, HIGH - 3, tint if what == "code" else "field", rx=2)
    middle, level = x + width / 2, y + HIGH / 2 - 1.5
    if what == "pointer":
        picture.polygon([(middle, level - 8), (middle + 7, level), (middle, level + 8), (middle - 7, level)], "ink")
    elif what == "integer":
        picture.shape("circle", None, cx=middle, cy=level, r=4.5, fill="ink")
    if not full:
        picture.rect(x + 1.5, y + 0.75, width - 3, HIGH - 4.5, "none", rx=2, stroke="ink", stroke_dasharray="3 2",
            stroke_width=1.5)


def shown(region: Region) -> int:
    """How many words of a segment are drawn."""
    return min(1 << region.log - 3, MOST_WORDS)


class ImagePicture:
    """The picture of one image."""

    def __init__(self, built: Built, title: str) -> None:
        self.built, self.picture = built, Picture(title)
        self.codes, self.speller = Codes(built.image, built.symbols), Speller(built.symbols)

    def what(self, address: int, cell: Cell) -> str:
        """What a word is. In code each instruction is code, a halt too; after the last word of a source there is nothing."""
        if cell.word.tagged:
            return "pointer"
        region = self.built.symbols.region(address)
        made = region is None or address < region.base + 8 * region.words
        if self.codes.at(address) and made and decode(cell.word.bits):
            return "code"
        return "" if cell.word == ZERO else "integer"

    def slots(self) -> None:
        """Each slot with its pointers."""
        for slot in self.built.image.slots:
            handler = "" if slot.handler is None else f", handler {slot.handler}"
            self.picture.text(MARGIN, self.picture.down + 14, f"slot {slot.number}, group {slot.group}{handler}", 14,
                bold=True)
            self.picture.down += 20
            held = [("ip", self.speller.pointer(slot.ip))]
            held += [(f"r{at}", self.speller.word(word)) for at, word in enumerate(slot.registers) if word.pointer]
            for name, text in held:
                self.picture.text(MARGIN + 10, self.picture.down + 13, f"{name:<4}{text}", 13)
                self.picture.down += 18
            self.picture.down += 4

    def region(self, region: Region) -> None:
        """A segment with its words in rows."""
        picture, code = self.picture, self.codes.at(region.base)
        picture.text(MARGIN, picture.down + 14, region.name, 14, bold=True)
        kind = (", a gate" if code.gate else ", privileged code" if code.privileged else ", code") if code else ""
        picture.text(WIDTH - MARGIN, picture.down + 14, f"{bytes_in_words(region.log)} at 0x{region.base:x}{kind}",
            13, "soft", "end")
        picture.down += 20
        for at, what, full in self.words(region):
            x, y = MARGIN + at % ACROSS * WIDE, picture.down + at // ACROSS * HIGH
            draw_cell(picture, what, x, y, code.tint if code else "tint-0", full)
        picture.down += (shown(region) + ACROSS - 1) // ACROSS * HIGH + 6

    def words(self, region: Region) -> Iterator[tuple[int, str, bool]]:
        """The words of a segment that are drawn: which one of it each is, its kind, and whether it is full."""
        for at in range(shown(region)):
            cell = self.built.image.cell(region.base + 8 * at)
            if cell:
                yield at, self.what(region.base + 8 * at, cell), cell.full

    @staticmethod
    def mark(kind: str) -> Mark:
        return lambda picture, x, y: draw_cell(picture, kind, x, y - 2, width=22)

    def marks(self) -> Iterator[tuple[Mark, str]]:
        """What the legend has: the kinds that are drawn, and an empty word if there is one."""
        drawn = {(what, full) for region in self.built.symbols.regions for _, what, full in self.words(region)}
        for kind, title in KINDS:
            if (kind, True) in drawn or (kind, False) in drawn:
                yield self.mark(kind), title
        if any(not full for _, full in drawn):
            yield lambda picture, x, y: draw_cell(picture, "", x, y - 2, full=False, width=22), "empty"

    def draw(self) -> Picture:
        self.slots()
        legend(self.picture, self.marks())
        for region in self.built.symbols.regions:
            self.region(region)
        return self.picture


def draw(built: Built, title: str) -> Picture:
    return ImagePicture(built, title).draw()
