"""The states of a slot that has a handler."""

from __future__ import annotations

from mm.pictures.svg import Picture

WIDE, HIGH = 128, 52
LEFT, RIGHT = 24, 328


def draw() -> Picture:
    picture = Picture("A slot that has a handler")
    picture.paragraph("Its faults do not end it: they become events in the queue of its handler, which decides what becomes of it.", 13, "soft")
    top = picture.down + 30
    low = top + 150
    middle_left, middle_right = LEFT + WIDE / 2, RIGHT + WIDE / 2
    picture.box(LEFT, top, WIDE, HIGH, ["running", "takes turns"], "tint-0", 14)
    picture.box(RIGHT, top, WIDE, HIGH, ["waiting", "in the queue"], "tint-2", 14)
    picture.box(RIGHT, low, WIDE, HIGH, ["taken", "the handler's"], "tint-1", 14)
    picture.box(LEFT, low, WIDE, HIGH, ["halted", "for ever"], "field", 14)
    picture.arrow(LEFT + WIDE, top + HIGH / 2, RIGHT, top + HIGH / 2)
    picture.text((LEFT + WIDE + RIGHT) / 2, top + HIGH / 2 - 24, "a fault:", 13, "ink", "middle", True)
    picture.text((LEFT + WIDE + RIGHT) / 2, top + HIGH / 2 - 8, "event queued", 13, "ink", "middle")
    picture.arrow(middle_right, top + HIGH, middle_right, low)
    picture.text(middle_right - 10, (top + HIGH + low) / 2 - 4, "evt by", 13, "ink", "end", True)
    picture.text(middle_right - 10, (top + HIGH + low) / 2 + 12, "the handler", 13, "ink", "end")
    picture.arrow(RIGHT, low + 8, LEFT + WIDE, top + HIGH - 6)
    picture.text(LEFT + WIDE - 14, top + HIGH + 44, "resume", 13, "ink", "start", True)
    picture.text(LEFT + WIDE - 14, top + HIGH + 60, "retry, skip", 13, "ink", "start")
    picture.arrow(RIGHT, low + HIGH - 14, LEFT + WIDE, low + HIGH - 14)
    picture.text((LEFT + WIDE + RIGHT) / 2, low + HIGH + 6, "resume kill", 13, "ink", "middle", True)
    picture.arrow(middle_left, top + HIGH, middle_left, low)
    picture.text(middle_left + 8, (top + HIGH + low) / 2 + 26, "halt", 13, "ink", "start", True)
    picture.down = low + HIGH + 18
    picture.paragraph("While it is taken, the handler reads and writes its registers with rreg and wreg. retry: the same instruction again. skip: the next one. kill: the end.", 13)
    return picture
