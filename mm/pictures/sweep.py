"""What a sweep takes away: who holds a pointer into a range before it, and what is there in its place afterwards."""

from __future__ import annotations

from typing import Sequence

from mm.build import Built
from mm.formats.image import Image
from mm.machine.words import Word
from mm.pictures.svg import MARGIN, WIDTH, Picture
from mm.views.spell import Speller

ROW = 40


def holder(words: Sequence[str], built: Built) -> str:
    """Who a line of holders names."""
    if words[0] == "cell":
        return f"word {built.symbols.show(int(words[1], 16))}"
    slot = built.image.slot(int(words[1]))
    region = built.symbols.region(slot.ip.base) if slot else None
    place = "ip" if words[0] == "ip" else f"r{words[2]}"
    return f"{region.name if region else f'slot {words[1]}'}: {place}"


def held(words: Sequence[str], image: Image) -> Word:
    """What is in the place that a line names."""
    if words[0] == "cell":
        cell = image.cell(int(words[1], 16))
        return cell.word if cell else Word(0)
    slot = image.slot(int(words[1]))
    return slot.registers[int(words[2])] if slot else Word(0)


def draw(built: Built, lines: Sequence[str], swept: Image, base: int, title: str) -> Picture:
    picture, speller = Picture(title), Speller(built.symbols)
    rows = [line.split() for line in lines]
    name = built.symbols.show(base)
    for when, image in (("Before", built.image), ("After", swept)):
        picture.down += 4
        picture.text(MARGIN, picture.down + 14, f"{when} the sweep of {name}", 14, bold=True)
        top = picture.down + 24
        middle = top + len(rows) * ROW / 2 - 4
        for at, words in enumerate(rows):
            y, word = top + at * ROW, held(words, image)
            kept = word.pointer is not None
            picture.box(MARGIN, y, 112, ROW - 10, [holder(words, built)], "tint-0" if kept else "field", 13)
            text = speller.word(word)
            picture.text(MARGIN + 122, y + ROW / 2, text, 13, "ink" if kept else "soft")
            if kept:
                picture.arrow(MARGIN + 266, y + ROW / 2 - 5, WIDTH - MARGIN - 96,
                    middle + (at - len(rows) / 2 + 0.5) * 12)
        picture.box(WIDTH - MARGIN - 90, middle - 34, 90, 68,
            [name, "nobody's" if when == "After" else ""][: 2 if when == "After" else 1], "tint-2", 14)
        picture.down = top + len(rows) * ROW
    picture.down += 2
    picture.paragraph("There is integer 0 where the pointers were, and the range can be given out anew. Its words stay as they are.")
    return picture
