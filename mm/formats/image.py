"""Images: slots and pages before a run."""

from __future__ import annotations

from typing import Iterator, Mapping, Optional

from mm.formats.bytesreader import BytesReader, bit_of
from mm.machine.words import Cell, Pointer, Word
from mm.records import dataclass

PAGE_BYTES, PAGE_WORDS = 4096, 512
NO_HANDLER = 255


@dataclass(frozen=True)
class Slot:
    """A thread as an image has it."""

    number: int
    group: int
    handler: Optional[int]
    halted: bool
    ip: Pointer
    registers: tuple[Word, ...]


@dataclass(frozen=True)
class Page:
    """512 cells, kept as their bytes until one is asked for."""

    number: int
    tags: bytes
    full: bytes
    words: bytes

    def cell(self, place: int) -> Cell:
        bits = int.from_bytes(self.words[place * 8 : place * 8 + 8], "big")
        return Cell(Word(bits, bit_of(self.tags, place)), bit_of(self.full, place))

    def tagged(self) -> Iterator[int]:
        """The places of its pointers."""
        for at, bits in enumerate(self.tags):
            if bits:
                yield from (8 * at + bit for bit in range(8) if bits >> bit & 1)


@dataclass(frozen=True)
class Image:
    """A machine before its run."""

    version: int
    frames: int
    split: bool
    slots: tuple[Slot, ...]
    pages: dict[int, Page]

    def cell(self, address: int) -> Optional[Cell]:
        """The cell at an address, or none if there is no page."""
        page = self.pages.get(address // PAGE_BYTES)
        return page.cell(address % PAGE_BYTES // 8) if page else None

    def cells(self) -> Iterator[tuple[int, Cell]]:
        for number, page in sorted(self.pages.items()):
            for place in range(PAGE_WORDS):
                yield number * PAGE_BYTES + place * 8, page.cell(place)

    def pointers(self) -> Iterator[tuple[int, Pointer]]:
        """The pointers in memory, each with the address of its cell."""
        for number, page in sorted(self.pages.items()):
            for place in page.tagged():
                pointer = page.cell(place).word.pointer
                if pointer:
                    yield number * PAGE_BYTES + place * 8, pointer

    def slot(self, number: int) -> Optional[Slot]:
        return next((slot for slot in self.slots if slot.number == number), None)

    @property
    def groups(self) -> list[int]:
        return sorted({slot.group for slot in self.slots})

    @property
    def output_limit(self) -> int:
        return 4096 if self.version == 1 else 65536


def _slot(reader: BytesReader) -> Slot:
    number, group, handler, state = (reader.number(1) for _ in range(4))
    ip = Pointer.of_bits(reader.number(8))
    mask = reader.number(2)
    registers = tuple(Word(reader.number(8), bool(mask >> register & 1)) for register in range(16))
    if ip is None:
        raise ValueError("an instruction pointer is not a pointer")
    return Slot(number, group, None if handler == NO_HANDLER else handler, state == 1, ip, registers)


def read_image(data: bytes) -> Image:
    """The image that bytes spell. `mmachine` has accepted them before: only what would mislead a reader is tested."""
    reader = BytesReader(data)
    if reader.take(4) != b"MMI1":
        raise ValueError("this is not an image")
    version, slots, frames, pages = (reader.number(2) for _ in range(4))
    split = reader.number(4) == 1
    found = tuple(_slot(reader) for _ in range(slots))
    kept = [Page(reader.number(8), reader.take(64), reader.take(64), reader.take(PAGE_BYTES)) for _ in range(pages)]
    return Image(version, frames, split, found, {page.number: page for page in kept})


def _slot_bytes(slot: Slot) -> bytes:
    handler = NO_HANDLER if slot.handler is None else slot.handler
    mask = sum(word.tagged << register for register, word in enumerate(slot.registers))
    words = b"".join(word.bits.to_bytes(8, "big") for word in slot.registers)
    head = bytes([slot.number, slot.group, handler, int(slot.halted)])
    return head + slot.ip.bits.to_bytes(8, "big") + mask.to_bytes(2, "big") + words


def image_bytes(image: Image) -> bytes:
    """The bytes that spell an image."""
    counts = (image.version, len(image.slots), image.frames, len(image.pages))
    head = b"MMI1" + b"".join(count.to_bytes(2, "big") for count in counts) + int(image.split).to_bytes(4, "big")
    pages = (
        number.to_bytes(8, "big") + page.tags + page.full + page.words for number, page in sorted(image.pages.items())
    )
    return b"".join([head, *map(_slot_bytes, image.slots), *pages])


def page_of(number: int, cells: Mapping[int, Cell]) -> Page:
    """The page with these cells at their places; all others hold 0, full."""
    tags, full, words = bytearray(64), bytearray(b"\xff" * 64), bytearray(PAGE_BYTES)
    for place, cell in cells.items():
        tags[place >> 3] |= cell.word.tagged << (place & 7)
        if not cell.full:
            full[place >> 3] &= ~(1 << (place & 7)) & 0xFF
        words[8 * place : 8 * place + 8] = cell.word.bits.to_bytes(8, "big")
    return Page(number, bytes(tags), bytes(full), bytes(words))
