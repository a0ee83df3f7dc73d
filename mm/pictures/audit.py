"""What the groups of an image can reach, by the names of segments; of two images beside each other."""

from __future__ import annotations

from typing import Sequence

from mm.build import Built
from mm.outputs.audit import Audit, Reach
from mm.pictures.parts import legend
from mm.pictures.svg import MARGIN, WIDTH, Picture, width_of
from mm.views.audit import AuditView
from mm.views.style import Style

ROW, MOST_ROWS = 28, 60


def rows_of(audit: Audit, built: Built) -> list[tuple[str, tuple[int, int]]]:
    """The segments that some group can touch, ascending, with their names."""
    view = AuditView(built.symbols, Style())
    segments = sorted({segment for reach in audit.reaches for segment in (*reach.touch, *reach.write)})
    return [(view.segment(*segment).split(" (")[0], segment) for segment in segments]


def may(reach: Reach, segment: tuple[int, int]) -> str:
    """What a group may in a segment."""
    base, log = segment

    def inside(there: Sequence[tuple[int, int]]) -> bool:
        return any(at <= base and base + (1 << log) <= at + (1 << length) for at, length in there)

    return "write" if inside(reach.write) else "touch" if inside(reach.touch) else ""


def draw_cell(picture: Picture, what: str, x: float, y: float, width: float) -> None:
    if what == "write":
        picture.rect(x + 2, y + 3, width - 4, ROW - 6, "accent", rx=4)
        picture.text(x + width / 2, y + ROW / 2 + 5, "w", 14, "ground", "middle", True)
    elif what:
        picture.rect(x + 2.75, y + 3.75, width - 5.5, ROW - 7.5, "none", rx=4, stroke="accent", stroke_width=1.5)
        picture.text(x + width / 2, y + ROW / 2 + 5, "r", 14, "ink", "middle")


def draw_panel(picture: Picture, audit: Audit, built: Built, left: float, right: float) -> float:
    """One audit between two borders. Answers how far down it goes."""
    rows, down = rows_of(audit, built)[:MOST_ROWS], picture.down
    names = max(width_of(name, 13) for name, _ in rows) + 8
    width = min(54.0, (right - left - names) / max(1, len(audit.reaches)))
    for at, reach in enumerate(audit.reaches):
        picture.text(left + names + (at + 0.5) * width, down + 14, f"g{reach.group}", 13, "ink", "middle", True)
    down += 20
    for name, segment in rows:
        said = [may(reach, segment) for reach in audit.reaches]
        if "write" in said and sum(map(bool, said)) > 1:
            picture.rect(left - 4, down + 1, names + len(audit.reaches) * width + 8, ROW - 2, "mark", rx=4)
        picture.text(left, down + ROW / 2 + 5, name, 13)
        for at, what in enumerate(said):
            draw_cell(picture, what, left + names + at * width, down, width)
        down += ROW
    return down


def marks(picture: Picture) -> None:
    legend(
        picture,
        [
            (lambda one, x, y: draw_cell(one, "touch", x - 3, y - 5, 26), "can be read"),
            (lambda one, x, y: draw_cell(one, "write", x - 3, y - 5, 26), "and written"),
            (lambda one, x, y: one.rect(x, y + 1, 18, 15, "mark", rx=4), "one writes, another reads"),
        ],
    )


def draw(audit: Audit, built: Built, title: str) -> Picture:
    picture = Picture(title)
    marks(picture)
    picture.down = draw_panel(picture, audit, built, MARGIN, WIDTH - MARGIN) + 8
    view = AuditView(built.symbols, Style())
    for apart in audit.aparts:
        picture.paragraph(view.apart(apart)[0].upper() + view.apart(apart)[1:] + ".")
    return picture


def draw_two(audits: Sequence[tuple[Audit, Built, str]], title: str) -> Picture:
    """Two audits beside each other."""
    picture = Picture(title)
    marks(picture)
    downs, middle = [], WIDTH / 2
    picture.down += 22
    for (audit, built, name), (left, right) in zip(audits, ((MARGIN, middle - 10), (middle + 14, WIDTH - MARGIN))):
        picture.text(left, picture.down - 6, name, 14, bold=True)
        downs.append(draw_panel(picture, audit, built, left, right))
    picture.line(middle, picture.down - 20, middle, max(downs), "rule")
    picture.down = max(downs) + 6
    for audit, _, name in audits:
        apart = all(one.apart for one in audit.aparts)
        picture.paragraph(f"{name}: {'each group stands apart' if apart else 'the groups do not stand apart'}.")
    return picture
