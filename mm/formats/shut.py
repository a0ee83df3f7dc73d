"""An image with its doors shut: each enter pointer in it is a key, by which nobody enters anything."""

from __future__ import annotations

from mm.formats.image import Image, Page, Slot
from mm.machine.words import WORD_BYTES, Permission, Pointer, Word
from mm.records import replace


def has_doors(image: Image) -> bool:
    """Whether a register or a cell holds an enter pointer."""
    held = [word.pointer for slot in image.slots for word in slot.registers if word.pointer]
    return any(pointer.permission.enters for pointer in (*held, *(pointer for _, pointer in image.pointers())))


def shut(word: Word) -> Word:
    """The word; in the place of an enter pointer the key with its segment and its address."""
    pointer = word.pointer
    if pointer is None or not pointer.permission.enters:
        return word
    return Word(Pointer(Permission.KEY, pointer.log, pointer.address).bits, True)


def with_doors_shut(image: Image) -> Image:
    """The image in which each enter pointer is a key."""
    slots = tuple(map(_slot, image.slots))
    return replace(image, slots=slots, pages={number: _page(page) for number, page in image.pages.items()})


def _slot(slot: Slot) -> Slot:
    return replace(slot, registers=tuple(map(shut, slot.registers)))


def _page(page: Page) -> Page:
    words = bytearray(page.words)
    for place in page.tagged():
        at = WORD_BYTES * place
        words[at : at + WORD_BYTES] = shut(page.cell(place).word).bits.to_bytes(WORD_BYTES, "big")
    return replace(page, words=bytes(words))
