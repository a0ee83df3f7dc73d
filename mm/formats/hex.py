"""Images as texts that Verilog's `$readmemh` reads: memory, frames, page numbers and slots (docs/HARDWARE.md)."""

from __future__ import annotations

from typing import Callable, Iterator

from mm.formats.bytesreader import bit_of
from mm.formats.image import NO_HANDLER, PAGE_WORDS, Image, Page, Slot
from mm.machine.words import Word

# The slots of any image, the words that each has here, and which of them are its registers.
SLOTS, SLOT_WORDS, FIRST_REGISTER = 64, 32, 16
# Where the word about the machine stands: after all slots.
MACHINE = SLOTS * SLOT_WORDS
THERE, HALTED, PAGE_THERE = 1 << 17, 1 << 16, 1 << 44


def word_text(word: Word) -> str:
    """A register, 65 bits: the tag and the word."""
    return f"{word.tagged:x}{word.bits:016x}"


# The place 0, where no other line says a place. Without any place Icarus takes a file for a whole array, and says on
# the standard output if it is shorter.
FRONT = "@0"


def _page(page: Page, at: int) -> Iterator[str]:
    """The cells of a page from a place on, 66 bits each: full, the tag and the word."""
    yield f"@{at:x} // page {page.number:011x}"
    words = page.words.hex()
    for place in range(PAGE_WORDS):
        digit = bit_of(page.full, place) << 1 | bit_of(page.tags, place)
        yield f"{digit}{words[16 * place : 16 * place + 16]}"


def _memory(image: Image) -> Iterator[str]:
    """Each page at its own address, counted in words."""
    if not image.pages:
        yield FRONT
    for number, page in sorted(image.pages.items()):
        yield from _page(page, number * PAGE_WORDS)


def _frames(image: Image) -> Iterator[str]:
    """The pages one after another from 0 on: the k-th of them in frame k."""
    if not image.pages:
        yield FRONT
    for frame, (_, page) in enumerate(sorted(image.pages.items())):
        yield from _page(page, frame * PAGE_WORDS)


def _pages(image: Image) -> Iterator[str]:
    """The page of each frame, 45 bits: whether there is one, and its number."""
    numbers = sorted(image.pages)
    yield FRONT
    yield from (f"{PAGE_THERE | number:012x}" for number in numbers)
    yield from (f"{0:012x}" for _ in range(image.frames - len(numbers)))


def about_slot(slot: Slot) -> int:
    """What a slot is: its group, its handler, whether it is halted, and that it is there."""
    handler = NO_HANDLER if slot.handler is None else slot.handler
    return THERE | (HALTED if slot.halted else 0) | handler << 8 | slot.group


def _slots(image: Image) -> Iterator[str]:
    """The machine, and of each slot what it is, its instruction pointer, and its registers."""
    yield f"@{MACHINE:x} // the machine"
    yield word_text(Word(int(image.split) << 32 | image.version << 16 | image.frames))
    for number in range(SLOTS):
        slot = image.slot(number)
        yield f"@{number * SLOT_WORDS:x} // slot {number}"
        yield word_text(Word(about_slot(slot) if slot else 0))
        if slot:
            yield word_text(Word(slot.ip.bits, True))
            yield f"@{number * SLOT_WORDS + FIRST_REGISTER:x}"
            yield from map(word_text, slot.registers)


def text_of(lines: Iterator[str]) -> str:
    """A part as a file has it."""
    return "".join(f"{line}\n" for line in lines)


def testbench_files(image: Image, front: str) -> Iterator[tuple[str, bytes]]:
    """What a testbench of any image reads: FRONT.frames, FRONT.pages and FRONT.slots, and what is in each."""
    for part in TESTBENCH_PARTS:
        yield f"{front}.{part}", text_of(PARTS[part](image)).encode("ascii")


def write_parts(image: Image, front: str) -> None:
    """Writes these files, for who makes folders of cases."""
    for name, data in testbench_files(image, front):
        with open(name, "wb") as file:
            file.write(data)


PARTS: dict[str, Callable[[Image], Iterator[str]]] = {
    "memory": _memory,
    "frames": _frames,
    "pages": _pages,
    "slots": _slots,
}
TESTBENCH_PARTS = ("frames", "pages", "slots")
