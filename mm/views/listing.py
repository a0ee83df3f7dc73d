"""Lists of names and of memory: the map of a link, and an image or an object word by word."""

from __future__ import annotations

from typing import Iterator, Mapping, Optional

from mm.formats.image import Image
from mm.machine.words import ZERO, Cell, bytes_in_words
from mm.names.numbers import counted
from mm.names.symbols import Symbol, Symbols
from mm.views.spell import Memory, Speller
from mm.views.style import Style

ZERO_CELL = Cell()


def map_lines(symbols: Symbols, style: Style) -> Iterator[str]:
    """Segments with their labels, by address."""
    width = max((len(symbol.name) + 2 for symbol in symbols.symbols), default=4)
    yield style.soft(f"{'address':<12}  {'length':>9}  {'name':<{width}}  line")
    for symbol in symbols.symbols:
        length = (
            bytes_in_words((symbol.length - 1).bit_length()) if symbol.segment else counted(symbol.length // 8, "word")
        )
        name = symbol.name if symbol.segment else f"  {symbol.name}"
        origin = str(symbol.origin) if symbol.origin else ""
        shown = style.strong(name.ljust(width)) if symbol.segment else style.name(name.ljust(width))
        yield f"0x{symbol.address:<10x}  {length:>9}  {shown}  {origin}".rstrip()


class ImageListing:
    """An image word by word: address, word, instruction, and names. `texts` are what `mmachine dis` calls its words, by address."""

    def __init__(self, image: Image, symbols: Symbols, texts: Mapping[int, str], style: Style) -> None:
        self.image, self.symbols, self.texts, self.style = image, symbols, texts, style
        self.memory, self.speller = Memory(image), Speller(symbols)
        self.heads: dict[int, list[Symbol]] = {}
        for symbol in symbols.symbols:
            self.heads.setdefault(symbol.address, []).append(symbol)

    def slots(self) -> Iterator[str]:
        for slot in self.image.slots:
            handler = "none" if slot.handler is None else f"slot {slot.handler}"
            state = ", halted" if slot.halted else ""
            yield f"{self.style.strong(f'slot {slot.number}')}  group {slot.group}, handler {handler}, at {self.speller.pointer(slot.ip)}{state}"
            for number, word in enumerate(slot.registers):
                if word != ZERO:
                    yield f"    r{number:<3} {self.speller.word(word)}"

    def said(self, address: int, cell: Cell) -> str:
        """What a word is: a pointer, an instruction, or a number. In a segment that no thread can run an integer is shown as a number too."""
        if cell.word.tagged:
            return f"pointer {self.speller.word(cell.word)}"
        origin, text = self.symbols.origin(address), self.texts.get(address, ".int")
        if text.startswith(".int") or (origin and ".int" in origin.code):
            return f"number {self.speller.word(cell.word)}"
        instruction = self.memory.instruction(address)
        return self.speller.instruction(instruction, address) if instruction and instruction.text() == text else text

    def word(self, address: int, cell: Cell) -> str:
        bit = "" if cell.full else "  (empty)"
        return f"  0x{address:x}  {cell.word}  {self.said(address, cell)}{bit}"

    def blank(self, address: int, cell: Cell) -> bool:
        """A word that no source made and that holds 0: listed as a run of such."""
        return cell == ZERO_CELL and not self.symbols.origin(address)

    def words(self) -> Iterator[str]:
        """All words by address; runs of untouched zeros in one line."""
        skipped: Optional[int] = None
        count = 0
        for address, cell in self.image.cells():
            heads = self.heads.get(address, [])
            if self.blank(address, cell) and not heads:
                skipped, count = (address, 1) if skipped is None else (skipped, count + 1)
                continue
            if skipped is not None:
                yield self.zeros(skipped, count)
                skipped = None
            for symbol in heads:
                yield (
                    self.style.strong(f"{symbol.name}:") + f"  2^{(symbol.length - 1).bit_length()} bytes"
                ) if symbol.segment else self.style.name(f" {symbol.name}:")
            yield self.word(address, cell)
        if skipped is not None:
            yield self.zeros(skipped, count)

    def zeros(self, address: int, count: int) -> str:
        return self.style.soft(f"  0x{address:x}  {counted(count, 'word')} of 0")

    def lines(self) -> Iterator[str]:
        image = self.image
        mode = ", split" if image.split else ""
        yield self.style.soft(
            f"image of version {image.version}{mode}: {counted(len(image.slots), 'slot')}, {counted(len(image.pages), 'page')}, {counted(image.frames, 'frame')}"
        )
        yield from self.slots()
        yield from self.words()
