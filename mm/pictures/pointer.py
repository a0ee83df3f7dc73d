"""The 64 bits of a pointer taken apart: digits, fields, and the place in its segment."""

from __future__ import annotations

from mm.machine.words import Pointer, Word, bytes_in_words
from mm.names.symbols import Symbols
from mm.pictures.svg import MARGIN, WIDTH, Picture

FIELDS = (("permission", 4, "tint-1"), ("length", 6, "tint-2"), ("address", 54, "tint-0"))


def field_of(bit: int) -> str:
    """The colour of a bit, counted from the left."""
    return FIELDS[0][2] if bit < 4 else FIELDS[1][2] if bit < 10 else FIELDS[2][2]


def draw_digits(picture: Picture, bits: int) -> None:
    """The 16 hexadecimal digits; the third is part of two fields."""
    wide, top = (WIDTH - 2 * MARGIN) / 16, picture.down
    for at, digit in enumerate(f"{bits:016x}"):
        x = MARGIN + at * wide
        for half in (0, 1):
            picture.rect(x + half * wide / 2, top, wide / 2 + 0.3, 32, field_of(4 * at + 2 * half))
        picture.text(x + wide / 2, top + 22, digit, 18, "on-tint", "middle", True)
    for at in range(1, 16):
        picture.line(MARGIN + at * wide, top, MARGIN + at * wide, top + 32, "ground")
    picture.down = top + 32


def draw_first_bits(picture: Picture, bits: int) -> float:
    """The first three digits bit by bit, below lines from the digits. Answers how far down they go."""
    digits, wide, top = (WIDTH - 2 * MARGIN) / 16, 22.0, picture.down + 30
    left = MARGIN
    for at in (0, 1, 2, 3):
        picture.line(MARGIN + at * digits, picture.down, left + at * 4 * wide, top, "soft", stroke_width=1)
    for at in range(12):
        x = left + at * wide
        picture.rect(x, top, wide, 30, field_of(at), stroke="ground", stroke_width=1)
        picture.text(x + wide / 2, top + 20, str(bits >> 63 - at & 1), 16, "on-tint", "middle")
    return top + 30


def draw_segment(picture: Picture, pointer: Pointer, symbols: Symbols) -> None:
    """The segment as a bar, with the address in it."""
    left, right, top = MARGIN, WIDTH - MARGIN, picture.down + 22
    at = left + (pointer.address - pointer.base) / (1 << pointer.log) * (right - left)
    picture.rect(left, top, right - left, 20, "field", stroke="soft", stroke_width=1.5, rx=4)
    picture.rect(left, top, max(2, at - left), 20, "tint-0", rx=4)
    picture.rect(at - 2, top - 6, 4, 32, "ink")
    said = f"0x{pointer.address:x}"
    middle = min(max(at, left + 40), right - 40)
    picture.text(middle, top - 10, said, 13, "ink", "middle", True)
    picture.text(left, top + 38, f"0x{pointer.base:x}", 13, "soft")
    picture.text(right, top + 38, f"0x{pointer.end - 1:x}", 13, "soft", "end")
    region = symbols.region(pointer.base)
    name = region.name if region and (region.base, region.log) == (pointer.base, pointer.log) else "its segment"
    picture.text(WIDTH / 2, top + 38, f"{name}, {bytes_in_words(pointer.log)}", 13, "ink", "middle")
    picture.down = top + 46


def draw(word: Word, symbols: Symbols) -> Picture:
    pointer = word.pointer
    if pointer is None:
        raise ValueError("this is not a pointer")
    picture = Picture("The 64 bits of a pointer")
    picture.paragraph("The same bits without the tag are a number that nobody can use as a pointer.", 13, "soft")
    picture.down += 4
    draw_digits(picture, word.bits)
    picture.down = draw_first_bits(picture, word.bits) + 6
    low = pointer.address - pointer.base
    rows = (
        ("tint-1", f"permission {pointer.permission.code}: {pointer.permission.short}, {pointer.permission.full}"),
        ("tint-2", f"length {pointer.log}: a segment of 2^{pointer.log} = {bytes_in_words(pointer.log)}"),
        ("tint-0", f"address 0x{pointer.address:x}: {symbols.show(pointer.address)}"),
    )
    for colour, said in rows:
        picture.rect(MARGIN, picture.down + 3, 14, 14, colour, rx=3, stroke="soft")
        picture.text(MARGIN + 22, picture.down + 15, said, 14)
        picture.down += 23
    picture.paragraph(
        f"Its last {pointer.log} bits, {low:0{max(1, pointer.log)}b}, are the place in the segment: {low} bytes on. All bits before them"
        " say which segment.",
        13,
        "soft",
    )
    draw_segment(picture, pointer, symbols)
    return picture
