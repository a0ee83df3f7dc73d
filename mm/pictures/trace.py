"""The turns of a run: a lane for each slot, a box for each turn, tinted by the segment in which it ran."""

from __future__ import annotations

from typing import Sequence

from mm.build import Built
from mm.machine.causes import Cause
from mm.outputs.report import Report
from mm.outputs.trace import Turn
from mm.pictures.parts import Code, Codes, Mark, code_marks, draw_code, legend
from mm.pictures.svg import MARGIN, WIDTH, Picture

BEFORE, LANE, LEAST, MOST_TURNS, MOST_TOLD = 68, 44, 15.0, 400, 10
LETTERS = {"load": "l", "loadset": "b", "store": "s"}


def draw_turn(picture: Picture, turn: Turn, code: Code | None, x: float, y: float, width: float) -> None:
    """The box of a turn; outcomes differ in form, and not in colour alone."""
    height = LANE - 20
    if turn.outcome == "faulted":
        picture.rect(x, y, width, height, "bad", rx=2)
        picture.line(x + 3, y + 6, x + width - 3, y + height - 6, "on-bad", stroke_width=2)
        picture.line(x + 3, y + height - 6, x + width - 3, y + 6, "on-bad", stroke_width=2)
    elif turn.outcome == "blocked":
        picture.rect(x + 0.75, y + 0.75, width - 1.5, height - 1.5, "none", rx=2, stroke="ink",
            stroke_dasharray="3 2", stroke_width=1.5)
        picture.rect(x, y + height - 4, width, 4, code.tint if code else "field")
    elif turn.outcome == "delivered":
        points = [(x + width / 2, y), (x + width, y + height / 2), (x + width / 2, y + height), (x, y + height / 2)]
        picture.polygon(points, "ink")
    else:
        draw_code(picture, code, x, y, width, height)
    if turn.access and turn.outcome != "faulted":
        fill = "ink" if turn.outcome == "blocked" else "on-tint"
        picture.text(x + width / 2, y + height / 2 + 6, LETTERS[turn.access], 13, fill, "middle", True)
    if turn.entered:
        picture.polygon([(x + width / 2 - 6, y - 10), (x + width / 2 + 6, y - 10), (x + width / 2, y - 1)], "ink")
    if turn.fault:
        picture.text(x + width / 2, y - 3, str(turn.fault), 13, "ink", "middle", True)


class Trace:
    """The lanes of the slots, over which bands of turns are drawn."""

    def __init__(self, built: Built, turns: Sequence[tuple[int, Turn]], report: Report, title: str) -> None:
        self.built, self.turns, self.report = built, list(turns)[:MOST_TURNS], report
        self.picture = Picture(title)
        self.codes = Codes(built.image, built.symbols)
        self.slots = [slot.number for slot in report.slots]
        room = WIDTH - 2 * MARGIN - BEFORE
        bands = max(1, -(-len(self.turns) * LEAST // room))
        self.each = max(1, int(-(-len(self.turns) // bands)))
        self.width = min(24.0, room / self.each)

    @staticmethod
    def turn_mark(turn: Turn, code: Code) -> Mark:
        return lambda picture, x, y: draw_turn(picture, turn, code, x, y - 4, 17)

    @staticmethod
    def access_mark(access: str) -> Mark:
        return lambda picture, x, y: picture.text(x + 9, y + 13, LETTERS[access], 13, "ink", "middle", True)

    def marks(self) -> list[tuple[Mark, str]]:
        used = [code for code in self.codes.all
            if any(code.base <= (turn.fetch or 0) < code.end for _, turn in self.turns)]
        items = code_marks(used)
        examples = {"blocked": "waits, tries again", "faulted": "a fault, by its number", "delivered": "a load arrives"}
        for outcome, text in examples.items():
            if any(turn.outcome == outcome for _, turn in self.turns):
                shown = Turn(0, 0, outcome)
                items.append((self.turn_mark(shown, used[0]), text))
        if any(turn.entered for _, turn in self.turns):
            items.append((lambda picture, x,
                y: picture.polygon([(x + 3, y + 4), (x + 15, y + 4), (x + 9, y + 13)], "ink"), "enters a gate"))
        letters = {"load": "load", "loadset": "load that sets the bit", "store": "store"}
        for access, text in letters.items():
            if any(turn.access == access for _, turn in self.turns):
                items.append((self.access_mark(access), text))
        return items

    def band(self, turns: Sequence[tuple[int, Turn]]) -> None:
        picture, left, top = self.picture, MARGIN + BEFORE, self.picture.down
        for at, slot in enumerate(self.slots):
            y = top + at * LANE
            picture.line(MARGIN, y + LANE, left + len(turns) * self.width, y + LANE)
            picture.text(MARGIN, y + LANE / 2 + 10, f"slot {slot}", 14, bold=True)
        free: float = left
        for at, (cycle, turn) in enumerate(turns):
            x = left + at * self.width
            code = self.codes.at(turn.fetch) if turn.fetch is not None else None
            draw_turn(picture, turn, code, x + 1, top + self.slots.index(turn.slot) * LANE + 16, self.width - 2)
            if cycle % 5 == 0 and x + self.width / 2 >= free:
                free = x + self.width / 2 + 30
                picture.line(x + self.width / 2, top + len(self.slots) * LANE, x + self.width / 2,
                    top + len(self.slots) * LANE + 4, "soft")
                picture.text(x + self.width / 2, top + len(self.slots) * LANE + 18, str(cycle), 13, "soft", "middle")
        picture.down = top + len(self.slots) * LANE + 26

    def told(self) -> None:
        """Entries and faults in words."""
        show, said = self.built.symbols.show, []
        for cycle, turn in self.turns:
            cause = Cause.of_number(turn.fault) if turn.fault else None
            if turn.entered and turn.entered.pointer:
                said.append(f"{cycle}: slot {turn.slot} enters at {show(turn.entered.pointer.address)}")
            if cause:
                said.append(f"{cycle}: slot {turn.slot} faults at {show(turn.fetch) if turn.fetch is not None else '?'}, {cause.number} {cause.title}")
        for line in said[:MOST_TOLD]:
            self.picture.paragraph(line)
        if len(said) > MOST_TOLD:
            self.picture.paragraph(f"and {len(said) - MOST_TOLD} more", 13, "soft")

    def draw(self) -> Picture:
        legend(self.picture, self.marks())
        for first in range(0, max(1, len(self.turns)), self.each):
            self.band(self.turns[first : first + self.each])
        self.picture.down += 2
        self.told()
        if self.report.cycles and len(self.turns) == MOST_TURNS:
            self.picture.paragraph(f"The first {MOST_TURNS} turns are drawn.", 13, "soft")
        return self.picture


def draw(built: Built, turns: Sequence[tuple[int, Turn]], report: Report, title: str) -> Picture:
    return Trace(built, turns, report, title).draw()
