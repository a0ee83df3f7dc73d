"""Which permission may become which, from the table of permissions."""

from __future__ import annotations

from mm.machine.words import BY_SHORT, Permission
from mm.pictures.svg import Picture

PLACES = {"xp": (130, 0), "rw": (350, 0), "xu": (130, 1), "ep": (20, 2), "eu": (148, 2), "ro": (290, 2),
    "key": (290, 3)}
WIDE, HIGH, APART = 112, 52, 92
DOES = {"ro": "load", "rw": "load, store", "xu": "load, run", "xp": "load, run", "eu": "enter", "ep": "enter",
    "key": "nothing"}
FILLS = {"xp": "tint-1", "xu": "tint-1", "ep": "tint-2", "eu": "tint-2", "rw": "tint-0", "ro": "tint-0", "key": "field"}


def steps() -> list[tuple[Permission, Permission]]:
    """What a permission becomes at once: all others it becomes by way of these."""
    found = []
    for permission in Permission:
        later = {after for one in permission.may_become for after in one.may_become}
        found += [(permission, one) for one in permission.may_become if one not in later]
    return found


def place(permission: Permission, top: float) -> tuple[float, float]:
    x, row = PLACES[permission.short]
    return min(x, 480 - 18 - WIDE), top + row * APART


def draw() -> Picture:
    picture = Picture("Which permission may become which")
    picture.paragraph("restrict takes rights away and gives none. A pointer may go along the arrows, as far as they lead.", 13, "soft")
    top = picture.down + 8
    for one, other in steps():
        (x, y), (to_x, to_y) = place(one, top), place(other, top)
        if other.short == "ep":
            elbow = to_x + WIDE / 2
            picture.path(f"M{x},{y + HIGH / 2} H{elbow} V{to_y - 6}")
            picture.head(elbow, to_y, 1.5708)
            continue
        across = x + WIDE / 2 + (12 if to_x > x else -12 if to_x < x else 0) * 2
        picture.arrow(across, y + HIGH, to_x + WIDE / 2 + (-14 if to_x > x else 14 if to_x < x else 0), to_y)
    for short, permission in BY_SHORT.items():
        x, y = place(permission, top)
        picture.box(x, y, WIDE, HIGH, [short, DOES[short]], FILLS[short], 14)
    picture.down = top + 3 * APART + HIGH + 8
    picture.paragraph("xp runs privileged, xu does not. xp and rw come from the image alone, or by setptr in privileged code. From eu, ep and key nothing leads on.", 13, "soft")
    return picture
