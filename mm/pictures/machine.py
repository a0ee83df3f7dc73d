"""The whole machine in one picture: slots in groups, words that both reach, a gate, a handler, the frames and the
cache."""

from __future__ import annotations

from mm.pictures.svg import Picture

WIDE, HIGH = 132, 74
LEFT, RIGHT = 24, 324

TAKE_TURNS = (
    "Up to 64 slots, each with one thread, take turns in the order of a schedule. Groups are sets of threads that belong"
    " together, and each has an output."
)
ARROWS = (
    "An arrow from a slot into memory is a pointer in one of its registers. Nobody reaches a word without one: slot 2"
    " gets at the account only through the gate's code. Slot 1 is the handler of slot 0: it hears of that slot's faults."
)
CACHE = ["cache and translation buffer", "only its counts show in a report"]
FRAMES = ["frames: 256 in version 1, 4096 in version 2", "each holds a page of 512 words"]


def _slots(picture: Picture, top: float) -> None:
    """Three slots: two of one group, of which one is the other's handler, and one of another group."""
    for at, (x, tint, lines) in enumerate((
        (18, "tint-0", ["slot 0", "r0 .. r15", "ip"]), (174, "tint-0", ["slot 1", "r0 .. r15", "ip"]),
        (330, "tint-1", ["slot 2", "r0 .. r15", "ip"]),
    )):  # fmt: skip
        picture.box(x, top, WIDE, HIGH, lines, tint, 14)
        picture.text(x + WIDE / 2, top - 8, "group 0" if at < 2 else "group 1", 13, "soft", "middle")
    picture.arrow(150, top + 22, 174, top + 22)


def _memory(picture: Picture, top: float) -> None:
    """Segments, with pointers to them and from one to another."""
    picture.rect(18, top, 444, 138, "field", rx=6, stroke="soft", stroke_width=1.25)
    picture.text(240, top + 126, "memory: segments of 2^L bytes, words with a tag", 13, "ink", "middle")
    for x, wide, lines, tint in (
        (30, 84, ["data", "rw of 0"], "tint-0"), (132, 84, ["shared", "rw of both"], "tint-2"),
        (234, 100, ["gate", "its code"], "tint-3"), (364, 86, ["account", "the gate's"], "tint-3"),
    ):  # fmt: skip
        picture.box(x, top + 40, wide, 54, lines, tint)
    picture.arrow(334, top + 67, 364, top + 67)


def draw() -> Picture:
    picture = Picture("The whole machine")
    picture.paragraph(TAKE_TURNS, 13, "soft")
    top = picture.down + 28
    _slots(picture, top)
    low = top + HIGH + 52
    _memory(picture, low)
    for x, to_x in ((72, 72), (240, 168), (344, 192)):
        picture.arrow(x, top + HIGH, to_x, low + 40)
    picture.arrow(400, top + HIGH, 300, low + 40, stroke="accent")
    picture.text(386, top + HIGH + 34, "enter (eu)", 13, "accent", bold=True)
    below = low + 138 + 40
    picture.arrow(240, low + 138, 240, below)
    picture.box(18, below, 444, 48, CACHE, "field", 14)
    picture.arrow(240, below + 48, 240, below + 84)
    picture.box(18, below + 84, 444, 48, FRAMES, "field", 14)
    picture.down = below + 84 + 48 + 16
    picture.paragraph(ARROWS, 13)
    return picture
