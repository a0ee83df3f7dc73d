"""A call of a gate: the caller's jump, the turns behind the door, and the way back, with the registers that play a part."""

from __future__ import annotations

from typing import Callable, Sequence

from mm.build import Built
from mm.machine.words import Word
from mm.outputs.report import Report, SlotState
from mm.outputs.trace import Turn
from mm.pictures.parts import Codes
from mm.pictures.svg import MARGIN, Picture
from mm.views.spell import Memory, Speller

ROW, INDENT = 30, 34
At = Callable[[int], Report]


def call_of(turns: Sequence[Turn]) -> list[tuple[int, Turn]]:
    """The turns of the first call, with their cycles: from the jump through an enter pointer to the first turn after the way back."""
    begin = next(at for at, turn in enumerate(turns) if turn.entered)
    entered = turns[begin].entered
    slot, base, found = turns[begin].slot, entered.pointer if entered else None, []
    for at in range(begin, len(turns)):
        turn = turns[at]
        if turn.slot != slot or turn.fetch is None:
            continue
        found.append((at + 1, turn))
        if at > begin and base and not base.base <= turn.fetch < base.end:
            break
    return found


class GateCall:
    """The picture of one call."""

    def __init__(self, built: Built, turns: Sequence[Turn], at: At) -> None:
        self.built, self.at = built, at
        self.codes, self.speller = Codes(built.image, built.symbols), Speller(built.symbols)
        self.calls = call_of(turns)
        self.slot = self.calls[0][1].slot

    def state(self, cycle: int) -> SlotState:
        found = self.at(cycle).slot(self.slot)
        assert found
        return found

    def changed(self, cycle: int, turn: Turn) -> str:
        """The register that a turn sets, with its word afterwards."""
        instruction = Memory(self.built.image).instruction(turn.fetch or 0)
        if instruction is None or not instruction.has("rd"):
            return ""
        number = instruction.value("rd")
        return f"r{number} = {self.speller.word(self.state(cycle).register(number) or Word(0))}"

    def row(self, picture: Picture, cycle: int, turn: Turn, inside: bool) -> None:
        x, y = MARGIN + (INDENT if inside else 0), picture.down
        code = self.codes.at(turn.fetch or 0)
        wide = 222 - (INDENT if inside else 0)
        text = self.speller.at(Memory(self.built.image), turn.fetch or 0).replace(", any, keep", "")
        picture.rect(x, y + 2, wide, ROW - 4, code.tint if code else "field", rx=4)
        if inside:
            picture.rect(x, y + 4, wide, 2.5, "on-tint")
        picture.text(x + 8, y + ROW / 2 + (8 if inside else 5), text, 14, "on-tint", bold=True)
        said = self.changed(cycle, turn) or (f"stores to {self.built.symbols.show(turn.address)}"
            if turn.access == "store" and turn.address else "")
        picture.text(MARGIN + 232, y + ROW / 2 + 5, said, 13)
        picture.down += ROW

    def draw(self) -> Picture:
        picture = Picture("A call of a gate")
        first, last = self.calls[0], self.calls[-1]
        gate = self.codes.at(self.calls[1][1].fetch or 0)
        caller = self.codes.at(first[1].fetch or 0)
        names = (caller.name if caller else "the caller", gate.name if gate else "the gate")
        enter = self.speller.word(first[1].entered or Word(0))
        picture.paragraph(f"Slot {self.slot} runs in {names[0]}, and has {enter}: it can jump to the door, and nothing else.", 13, "soft")
        picture.down += 4
        for cycle, turn in self.calls:
            inside = turn is not first[1] and turn is not last[1]
            if turn is self.calls[1][1]:
                self.turn_in(picture, f"through the door: now it runs in {names[1]}", 1)
            if turn is last[1]:
                self.turn_in(picture, f"back to {names[0]} by r6", -1)
            self.row(picture, cycle, turn, inside)
        picture.down += 6
        picture.paragraph("Only behind the door is there a way to the count. The gate clears r7 before it goes back: the machine does not.", 13)
        return picture

    def turn_in(self, picture: Picture, said: str, way: int) -> None:
        """An arrow from one side to the other."""
        x, y = MARGIN + INDENT / 2, picture.down
        if way > 0:
            picture.path(f"M{x},{y} V{y + 11} H{x + INDENT / 2 + 4}")
            picture.head(x + INDENT / 2 + 10, y + 11, 0)
            picture.text(x + INDENT / 2 + 18, y + 16, said, 13, "accent")
        else:
            picture.path(f"M{MARGIN + INDENT + 12},{y} V{y + 11} H{x + 6}")
            picture.path(f"M{x},{y + 11} V{y + 14}")
            picture.head(x, y + 22, 1.5708)
            picture.line(x, y + 11, x + 8, y + 11, "ink")
            picture.text(MARGIN + INDENT + 20, y + 16, said, 13, "accent")
        picture.down += 22


def draw(built: Built, turns: Sequence[Turn], at: At) -> Picture:
    return GateCall(built, turns, at).draw()
