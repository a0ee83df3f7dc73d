"""The reach of an image as a graph: from slots by their pointers to segments, and on by the pointers that lie there."""

from __future__ import annotations

from typing import Any, Sequence

from mm.build import Built
from mm.machine.words import Pointer
from mm.pictures.svg import MARGIN, WIDTH, Picture

WIDE, HIGH, APART = 128, 46, 88
Segment = tuple[int, int]


class Reach:
    """The pointers as edges, and segments in layers: each below all that leads to it."""

    def __init__(self, built: Built) -> None:
        self.built = built
        self.edges: list[tuple[object, Segment, str]] = []
        self.place: dict[object, tuple[float, float]] = {}
        self.code = {(slot.ip.base, slot.ip.log) for slot in built.image.slots}
        self.found: list[Segment] = []
        for slot in built.image.slots:
            for number, word in enumerate(slot.registers):
                if word.pointer:
                    self.edge(slot.number, word.pointer, f"r{number}")
        for segment in self.found:
            self.held(segment)
        self.layers = self.layered()

    def edge(self, begin: object, pointer: Pointer, name: str) -> None:
        segment = (pointer.base, pointer.log)
        self.edges.append((begin, segment, f"{name} {pointer.permission.short}"))
        if segment not in self.found:
            self.found.append(segment)

    def held(self, segment: Segment) -> None:
        """The pointers that lie in a segment."""
        base, log = segment
        for address, cell in self.built.image.cells():
            if cell.word.pointer and base <= address < base + (1 << log):
                self.edge(segment, cell.word.pointer, "")

    def layered(self) -> list[list[Segment]]:
        depth: dict[object, int] = {slot.number: 0 for slot in self.built.image.slots}
        for _ in self.found:
            for begin, end, _ in self.edges:
                if begin in depth and begin != end and depth[begin] < len(self.found):
                    depth[end] = max(depth.get(end, 0), depth[begin] + 1)
        layers = sorted({depth[segment] for segment in self.found})
        return [[segment for segment in self.found if depth[segment] == layer] for layer in layers]

    def draw(self, title: str) -> Picture:
        picture, symbols = Picture(title), self.built.symbols
        picture.paragraph("Each arrow is a pointer: in a register, or in a word. What a group can reach lies along the arrows from its slots.", 13, "soft")
        top = picture.down + 8
        slots = [slot.number for slot in self.built.image.slots]
        layers: list[Sequence[Any]] = [slots, *self.layers]
        for row, layer in enumerate(layers):
            each = (WIDTH - 2 * MARGIN) / max(1, len(layer))
            for at, item in enumerate(layer):
                self.place[item] = (MARGIN + (at + 0.5) * each, top + row * APART)
        for begin, end, name in self.edges:
            self.draw_edge(picture, begin, end, name)
        for slot in self.built.image.slots:
            x, y = self.place[slot.number]
            region = symbols.region(slot.ip.base)
            picture.box(x - WIDE / 2, y, WIDE, HIGH, [f"slot {slot.number}, group {slot.group}", f"runs {region.name}" if region else "runs"], f"tint-{slot.group % 8}", 13)
        for layer in self.layers:
            for base, log in layer:
                x, y = self.place[base, log]
                picture.box(x - WIDE / 2, y, WIDE, HIGH, [symbols.show(base), f"{1 << log} bytes"], "field", 13)
        picture.down = top + len(self.layers) * APART + HIGH + 8
        return picture

    def draw_edge(self, picture: Picture, begin: object, end: Segment, name: str) -> None:
        (x, y), (to_x, to_y) = self.place[begin], self.place[end]
        if to_y <= y:
            return
        shift = 16 if to_x < x else -16 if to_x > x else 0
        across = to_x + shift
        if to_y - y > APART * 1.5 and abs(to_x - x) < WIDE:
            across += 40
        picture.arrow(x, y + HIGH, across, to_y)
        part = 0.5 if to_y - y < APART * 1.5 else 0.25
        at_x, at_y = x + (across - x) * part, y + HIGH + (to_y - y - HIGH) * part
        # The name stands on the side from which the arrow turns away.
        beside = 8 if across < x else -8 if across > x else 0
        picture.text(at_x + 7, at_y + 4 + beside, name.strip(), 13, "accent", "start", True)


def draw(built: Built, title: str) -> Picture:
    return Reach(built).draw(title)
