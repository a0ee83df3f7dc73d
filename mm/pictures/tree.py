"""Segments as a tree of powers of two: eight letters, and the segments that hold them."""

from __future__ import annotations

from mm.pictures.svg import MARGIN, WIDTH, Picture

LETTERS, BASE = "ABCDEFGH", 0x100080
HIGH, APART = 34, 52


def draw() -> Picture:
    picture = Picture("A tree of powers of two")
    picture.paragraph("Each segment has a length of a power of two, and begins at a multiple of it: so it is one half of the next longer one.", 13, "soft")
    top, whole = picture.down + 8, WIDTH - 2 * MARGIN
    marked = {(6, 0), (5, 1), (4, 2), (3, 5)}
    for row, log in enumerate((6, 5, 4, 3)):
        count = 1 << row
        wide = whole / count
        for at in range(count):
            x, y = MARGIN + at * wide, top + row * APART
            fill = "tint-2" if (log, at) in marked else "field"
            if row:
                picture.line(MARGIN + (at // 2 + 0.5) * 2 * wide, y - APART + HIGH, x + wide / 2, y, "ink"
                    if (log, at) in marked else "rule", stroke_width=2 if (log, at) in marked else 1.25)
            text = LETTERS[at] if log == 3 else f"2^{log}"
            picture.box(x + 2, y, wide - 4, HIGH, [text], fill, 14 if log == 3 else 13)
    picture.down = top + 3 * APART + HIGH + 4
    for at in (0, 4):
        picture.text(MARGIN + 4 + at * whole / 8, picture.down + 13, f"0x{BASE + 8 * at:x}", 13, "soft")
    picture.down += 22
    picture.paragraph("subseg goes down from the whole to the letter F, a half at a time. 2^4 bytes round it are E and F.")
    picture.paragraph("D and E stand side by side, but in different halves of the whole: no shorter segment has both.")
    return picture
