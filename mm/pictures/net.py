"""The nodes of a net, and the links between their words."""

from __future__ import annotations

from typing import Sequence

from mm.build import Built
from mm.pictures.svg import MARGIN, WIDTH, Picture

ROW, HEAD = 40, 46
Link = tuple[int, int, int, int]


def draw(nodes: Sequence[tuple[str, Built]], links: Sequence[Link], title: str) -> Picture:
    """Nodes beside each other, two in a row; a link is an arrow from a word to a word."""
    picture = Picture(title)
    picture.paragraph("Each node is a machine with a memory of its own. A link takes the 64 bits of a full word and puts them, as an integer, into an empty one.", 13, "soft")
    top, wide = picture.down + 8, 160
    ends: dict[tuple[int, int], tuple[float, float]] = {}
    low: float = top
    for at, (name, built) in enumerate(nodes):
        words = sorted({(link[2 * side + 1]) for link in links for side in (0, 1) if link[2 * side] == at})
        x, y = (MARGIN if at % 2 == 0 else WIDTH - MARGIN - wide), top + at // 2 * 190
        high = HEAD + len(words) * ROW + 8
        picture.rect(x, y, wide, high, "field", rx=8, stroke="soft", stroke_width=1.5)
        picture.text(x + wide / 2, y + 20, f"node {at}", 14, "ink", "middle", True)
        picture.text(x + wide / 2, y + 37, name, 13, "soft", "middle")
        for row, address in enumerate(words):
            cell = (x + 20, y + HEAD + row * ROW)
            picture.box(cell[0], cell[1], wide - 40, ROW - 8, [built.symbols.show(address)], f"tint-{at % 8}", 14)
            ends[at, address] = (x + (wide - 20 if at % 2 == 0 else 20), cell[1] + (ROW - 8) / 2)
        low = max(low, y + high)
    for number, (one, begin, other, end) in enumerate(links):
        (from_x, from_y), (to_x, to_y) = ends[one, begin], ends[other, end]
        picture.arrow(from_x, from_y, to_x, to_y)
        part = 0.3
        picture.text(from_x + (to_x - from_x) * part, from_y + (to_y - from_y) * part - 8, f"link {number}", 13, "accent", "middle", True)
    picture.down = low + 8
    picture.paragraph("What a link carries may be lost, repeated or early. No pointer crosses: it arrives as a number.")
    return picture
