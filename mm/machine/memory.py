"""The memory of a machine at one moment: an image, with the pages that came and went and the cells that are others."""

from __future__ import annotations

from typing import TYPE_CHECKING, Iterable, Mapping, Optional

from mm.formats.image import PAGE_BYTES, PAGE_WORDS, Image
from mm.machine.isa import Instruction, decode
from mm.machine.words import Cell

if TYPE_CHECKING:
    from mm.outputs.report import Report

BLANK = Cell()


class Memory:
    """Pages and cells. Without a run they are those of the image.

    A report lists the pages that are not as in the image, and each mapped cell that differs from the image's. Of a page
    that was removed and mapped again it lists the cells, and not the page."""

    def __init__(
        self,
        image: Image,
        cells: Optional[Mapping[int, Cell]] = None,
        pages: Iterable[tuple[int, bool]] = (),
    ) -> None:
        self.image = image
        self.cells: dict[int, Cell] = dict(cells or {})
        self.pages = set(image.pages)
        # Cells of the image that were asked for.
        self.known: dict[int, Cell] = {}
        # The pages that were mapped by the run and hold integer 0, full, where `cells` has nothing.
        self.blank: set[int] = set()
        for page, new in pages:
            if new:
                self.pages.add(page)
                self.blank.add(page)
            else:
                self.pages.discard(page)

    @classmethod
    def after(cls, image: Image, report: Report) -> Memory:
        """The memory that a report tells of."""
        return cls(image, report.cells, report.pages)

    def cell(self, address: int) -> Optional[Cell]:
        """The cell of the word that an address is in, or none if there is no page."""
        page = address // PAGE_BYTES
        if page not in self.pages:
            return None
        address &= ~7
        found = self.cells.get(address)
        return found or (BLANK if page in self.blank else self.of_image(address))

    def of_image(self, address: int) -> Optional[Cell]:
        """The image's cell at an address."""
        found = self.known.get(address)
        if found is None:
            found = self.image.cell(address)
            if found is not None:
                self.known[address] = found
        return found

    def instruction(self, address: int) -> Optional[Instruction]:
        """The instruction at an address, or none if the word is none."""
        cell = self.cell(address)
        return decode(cell.word.bits) if cell and not cell.word.tagged else None

    def is_images(self, address: int) -> bool:
        """Whether the cell at an address is the image's."""
        return self.cell(address) == self.of_image(address & ~7)

    def set_cell(self, address: int, cell: Cell) -> None:
        self.cells[address] = cell

    def set_page(self, page: int, new: bool) -> None:
        """Maps a page, which then holds integer 0, full, or removes it."""
        first = page * PAGE_BYTES
        for address in range(first, first + PAGE_BYTES, 8):
            self.cells.pop(address, None)
        if new:
            self.pages.add(page)
            self.blank.add(page)
        else:
            self.pages.discard(page)
            self.blank.discard(page)

    def changed(self) -> dict[int, Cell]:
        """The mapped cells that differ from the image's, by address."""
        places = set(self.cells)
        for page in self.blank & set(self.image.pages):
            places.update(page * PAGE_BYTES + 8 * place for place in range(PAGE_WORDS))
        found = {address: self.cell(address) for address in sorted(places)}
        return {address: cell for address, cell in found.items() if cell and cell != (self.image.cell(address) or BLANK)}
