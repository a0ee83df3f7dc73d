"""Where the linker places segments (docs/LINKING.md), computed from the objects and compared with the image that it made."""

from __future__ import annotations

from typing import Iterator, Optional, Sequence

from mm.formats.image import Image
from mm.formats.object import Object, Relocation, Segment
from mm.machine.words import Cell, Pointer, Word
from mm.records import dataclass

FIRST_ADDRESS = 0x100000


@dataclass(frozen=True)
class Placed:
    """A segment at its address, with the place of its object in the link and its own place in the object."""

    unit: int
    index: int
    segment: Segment
    base: int

    @property
    def end(self) -> int:
        return self.base + (1 << self.segment.log)


def place(objects: Sequence[Object]) -> list[Placed]:
    """All segments by falling length, and those of one length as they are given, one after another."""
    given = [(unit, index, segment) for unit, made in enumerate(objects) for index, segment in enumerate(made.segments)]
    placed, at = [], FIRST_ADDRESS
    for unit, index, segment in sorted(given, key=lambda item: -item[2].log):
        placed.append(Placed(unit, index, segment, at))
        at += 1 << segment.log
    return placed


def _pointer(relocation: Relocation, by_name: dict[str, Placed]) -> Optional[Word]:
    target = by_name.get(relocation.target.name)
    if target is None:
        return None
    return Word(Pointer(relocation.permission, target.segment.log, target.base + relocation.target.addend).bits, True)


def expected_cells(placed: Sequence[Placed]) -> Iterator[tuple[int, Optional[Cell]]]:
    """Each cell of an image as the link makes it, by address."""
    by_name = {item.segment.name: item for item in placed}
    for item in placed:
        segment = item.segment
        for index, (bits, full) in enumerate(zip(segment.words, segment.full)):
            relocation = segment.relocations.get(index)
            word = _pointer(relocation, by_name) if relocation else Word(bits)
            yield item.base + 8 * index, Cell(word, full) if word else None


def differences(placed: Sequence[Placed], image: Image) -> list[int]:
    """The addresses at which an image has another cell than the link makes."""
    return [address for address, cell in expected_cells(placed) if cell is None or image.cell(address) != cell]
