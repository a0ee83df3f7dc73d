"""A derivation as a graph: a box for each pointer that a group is granted, tinted by its group, and arrows from the pointers that it follows from."""

from __future__ import annotations

from mm.build import Built
from mm.names.symbols import Symbols
from mm.pictures.svg import MARGIN, TINTS, WIDTH, Picture
from mm.views.derivation import DerivationView
from mm.views.style import Style
from mm.why.ask import Asked
from mm.why.lines import Line

HIGH, APART, TRACK, PORT = 46, 66, 13, 9
SIZE, LETTER = 13, 8.0


class Arrow:
    """An arrow from a line to one that names it, and the track that it takes on the left of the boxes."""

    def __init__(self, begin: int, end: int, port: int) -> None:
        self.begin, self.end, self.port = begin, end, port
        self.track = 0

    def meets(self, other: Arrow) -> bool:
        """Both are beside some same gap of two boxes. Arrows from the same box share their way."""
        return self.begin != other.begin and self.begin < other.end and other.begin < self.end


def arrows_of(lines: list[Line]) -> list[Arrow]:
    """The arrows of a derivation, each with the innermost track that is free."""
    arrows = [
        Arrow(begin, line.number, port) for line in lines for port, begin in enumerate(sorted(set(line.names), reverse=True))
    ]
    placed: list[Arrow] = []
    for arrow in sorted(arrows, key=lambda one: (one.end - one.begin, one.begin)):
        taken = {other.track for other in placed if arrow.meets(other)}
        arrow.track = next(track for track in range(len(arrows) + 1) if track not in taken)
        placed.append(arrow)
    return placed


class Derivation:
    """A derivation while it is drawn."""

    def __init__(self, lines: list[Line], symbols: Symbols) -> None:
        self.lines, self.arrows = lines, arrows_of(lines)
        self.view = DerivationView(lines, symbols, Style())
        self.tracks = 1 + max((arrow.track for arrow in self.arrows), default=0)
        self.left = MARGIN + (self.tracks + 1) * TRACK + 6
        groups = sorted({line.group for line in lines})
        self.tints = {group: f"tint-{at % TINTS}" for at, group in enumerate(groups)}

    def row(self, number: int) -> float:
        """How far below the first box the box of a line is."""
        return (number - 1) * APART

    def box(self, picture: Picture, line: Line, top: float) -> None:
        wide, y = WIDTH - MARGIN - self.left, top + self.row(line.number)
        last = line.number == len(self.lines)
        picture.rect(self.left, y, wide, HIGH, self.tints[line.group], rx=6, stroke="ink" if last else "soft",
            stroke_width=2.5 if last else 1.25)
        picture.text(self.left + 10, y + 19, cut(f"{line.number}  {self.view.pointer(line)}", wide - 100), 14, "on-tint", bold=True)
        picture.text(WIDTH - MARGIN - 10, y + 19, f"group {line.group}", SIZE, "on-tint", "end")
        picture.text(self.left + 10, y + 37, cut(short(self.view, line), wide - 20), SIZE, "on-tint")

    def arrow(self, picture: Picture, arrow: Arrow, top: float) -> None:
        across = self.left - (arrow.track + 1.5) * TRACK
        begin = top + self.row(arrow.begin) + HIGH - 8
        end = top + self.row(arrow.end) + 8 + arrow.port * PORT
        bend = min(8.0, (end - begin) / 2)
        picture.path(
            f"M{self.left:.1f} {begin:.1f}H{across + bend:.1f}Q{across:.1f} {begin:.1f} {across:.1f} {begin + bend:.1f}"
            f"V{end - bend:.1f}Q{across:.1f} {end:.1f} {across + bend:.1f} {end:.1f}H{self.left - 8:.1f}"
        )
        picture.head(self.left - 1, end, 0)


def cut(text: str, wide: float) -> str:
    """As much of a text as there is room for."""
    room = int(wide / LETTER)
    return text if len(text) <= room else text[: room - 2] + ".."


def short(view: DerivationView, line: Line) -> str:
    """The rule of a line, in few words."""
    if line.rule == "passed":
        address, source, store, load = line.numbers
        return f"{source}, stored at {view.place(address)} by {store}, loaded by {load}"
    if line.rule == "served":
        slot, source = line.numbers
        return f"{source}, by slot {slot} and its handler"
    return view.reason(line)


def draw(lines: list[Line], ask: Asked, built: Built, title: str) -> Picture:
    """The derivation of what was asked; no lines where it is not granted."""
    picture = Picture(title)
    if not lines:
        word = built.symbols.show(ask.address)
        picture.paragraph(f"It cannot: no pointer that does is granted to group {ask.group}, and {word} stays out of its reach.")
        return picture
    picture.paragraph(
        "Each box is a pointer that a group is granted. Arrows come from the pointers that it follows from.", SIZE, "soft")
    top, derivation = picture.down + 6, Derivation(lines, built.symbols)
    for arrow in derivation.arrows:
        derivation.arrow(picture, arrow, top)
    for line in lines:
        derivation.box(picture, line, top)
    picture.down = top + derivation.row(len(lines)) + HIGH + 8
    return picture
