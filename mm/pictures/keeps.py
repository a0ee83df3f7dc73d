"""What a kernel keeps, as a box that only doors lead into: arrows from the groups that have them, what is read and written behind each,
and the leaks as arrows that lead out."""

from __future__ import annotations

import textwrap
from typing import Sequence

from mm.build import Built
from mm.machine.words import Pointer
from mm.names.kept import Segment
from mm.outputs.audit import Audit
from mm.outputs.keeps import Kept, Party
from mm.pictures.audit import draw_panel, marks
from mm.pictures.svg import ADVANCE, MARGIN, TINTS, WIDTH, Picture
from mm.views.keeps import KeepsView
from mm.views.keptwords import KeptWords
from mm.views.leaks import LeakView, Place, places_of
from mm.views.style import Style

# The left edge of the box, the height of a line, and the side of a mark of a group.
EDGE, LINE, MARK, SIZE = 158, 18, 30, 13
INSIDE = EDGE + 12
MOST_LEAKS = 12


WIDE = WIDTH - MARGIN - INSIDE - 8
ROOM = int(WIDE / (SIZE * ADVANCE))


def cut(text: str) -> str:
    """As much of a text as a line of the box has room for."""
    return text if len(text) <= ROOM else text[: ROOM - 2] + ".."


def wrapped(first: str, names: Sequence[str]) -> list[str]:
    """Names after a word, with commas between, in lines of the box."""
    lines = [first]
    for at, name in enumerate(names):
        text = name + ("," if at + 1 < len(names) else "")
        if len(lines[-1]) + 1 + len(text) <= ROOM:
            lines[-1] += f" {text}"
        else:
            lines.append(cut(f"  {text}"))
    return lines


class KeepsPicture:
    """The picture of one answer."""

    def __init__(self, found: Kept, built: Built, kept: Sequence[Segment], title: str) -> None:
        self.found, self.built, self.picture = found, built, Picture(title)
        self.view = KeepsView(built.image, built.symbols, kept, Style())
        self.leaks = LeakView(built.image, built.symbols, found, Style())
        self.words = KeptWords(built.symbols)

    def draw(self) -> Picture:
        if self.found.verdict in ("yes", "no"):
            self.box()
            self.outside()
        else:
            said = next(iter(self.view.lines(self.found, 0)))
            self.picture.paragraph(f"{said.partition(': ')[2]}.")
        return self.picture

    def box(self) -> None:
        """The box with all that leads into it and out of it."""
        picture = self.picture
        said = "Each arrow into the box is a door, beside the groups that can have it. Below it is what the kernel's code reads and writes from there."
        picture.paragraph(said, SIZE, "soft")
        top, at = picture.down + 4, len(picture.parts)
        picture.down = top + 8
        self.say(wrapped("kept:", [self.words.segment(*segment) for segment in self.view.kept]), bold=True)
        for party in self.found.parties:
            self.party(party)
        for place in list(places_of(self.found.leaks).values())[:MOST_LEAKS]:
            self.leak(place)
        height = picture.down - top + 4
        picture.rect(EDGE, top, WIDTH - MARGIN - EDGE, height, "field", rx=8, stroke="ink", stroke_width=2)
        # The box lies below what is in it.
        picture.parts.insert(at, picture.parts.pop())
        picture.down += 14
        self.verdict()

    def say(self, lines: Sequence[str], bold: bool = False) -> None:
        """Lines in the box, of which the first may be bold."""
        for at, line in enumerate(lines):
            self.picture.text(INSIDE, self.picture.down + SIZE, line, SIZE, bold=bold and at == 0)
            self.picture.down += LINE

    def party(self, party: Party) -> None:
        """A door with its arrow, or a slot of the kernel; and what is read and written from there."""
        picture = self.picture
        picture.down += 8
        level = picture.down + LINE / 2
        if party.door is None:
            name = f"slot {party.slot}, the kernel's own"
        else:
            name = self.built.symbols.show(party.door.address)
            self.groups(self.with_door(party.door), level)
            picture.arrow(EDGE - 40, level, EDGE + 8, level)
        self.say([cut(name)], bold=True)
        for what, runs in (("reads", party.reads), ("writes", party.writes)):
            if runs:
                self.say(wrapped(what, self.words.runs(runs)))

    def with_door(self, door: Pointer) -> list[int]:
        """The groups that can have a door, if the answer tells; else those that have it in a register at the beginning."""
        slots = self.built.image.slots
        at_first = {slot.group for slot in slots if any(word.pointer == door for word in slot.registers)}
        return self.found.groups_with(door) if self.found.groups else sorted(at_first)

    def groups(self, groups: Sequence[int], level: float) -> None:
        """Groups that have a door, as marks before its arrow."""
        shown = list(groups)[:3]
        x = EDGE - 44 - len(shown) * (MARK + 2) - (14 if len(groups) > 3 else 0)
        for group in shown:
            self.picture.rect(x, level - 10, MARK, 20, f"tint-{group % TINTS}", rx=4)
            self.picture.text(x + MARK / 2, level + 5, f"g{group}", SIZE, "on-tint", "middle", True)
            x += MARK + 2
        if len(groups) > 3:
            self.picture.text(x, level + 5, "..", SIZE)

    def leak(self, place: Place) -> None:
        """A leak: where it is, and what gets out by an arrow."""
        picture = self.picture
        picture.down += 8
        level = picture.down + LINE / 2
        picture.arrow(EDGE + 8, level, EDGE - 34, level, stroke_width=3)
        picture.text(EDGE - 40, level + 5, "leak", SIZE, "ink", "end", True)
        head = self.leaks.head(place)
        self.say(textwrap.wrap(head[-1] if head else self.leaks.told(place)[0], ROOM), bold=True)
        for name, text in self.leaks.rows(place):
            self.say(textwrap.wrap(f"{name} {text}", ROOM, subsequent_indent="  "))

    def verdict(self) -> None:
        """The answer in a sentence."""
        found = self.found
        more = len(places_of(found.leaks)) - MOST_LEAKS
        if more > 0:
            self.picture.paragraph(f"There are {more} more places with leaks.")
        if found.verdict == "yes":
            self.picture.paragraph("Whatever code its callers run: nobody else uses these words, or gets a pointer into them but to a door.")
        else:
            self.picture.paragraph("What a bold arrow carries out may get to a caller. Perhaps no program gets there.")

    def outside(self) -> None:
        """What the groups can reach that is not kept, if the answer tells and there is something."""
        audit = Audit([group.reach for group in self.found.groups])
        if any(reach.touch for reach in audit.reaches):
            self.picture.paragraph("Outside of the box, whatever code the groups run:", SIZE, "soft")
            marks(self.picture)
            self.picture.down = draw_panel(self.picture, audit, self.built, MARGIN, WIDTH - MARGIN) + 8


def draw(found: Kept, built: Built, kept: Sequence[Segment], title: str) -> Picture:
    return KeepsPicture(found, built, kept, title).draw()
