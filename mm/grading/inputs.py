"""Other inputs for a run of a program: words in memory and in registers, and other code for a slot."""

from __future__ import annotations

from typing import Callable, Iterator

from mm.build import Built
from mm.console import Console
from mm.formats.image import PAGE_BYTES, PAGE_WORDS, Image, Page, Slot, image_bytes, page_of
from mm.grading.draws import POINTER
from mm.grading.program import NotSo, WrongLine, address_in, number_in, register_in, unit_of
from mm.grading.sheet import Case, Expectation, Sheet, is_of_register, values_put
from mm.machine.words import BY_SHORT, Cell, Permission, Pointer, Word
from mm.names.symbols import Symbols
from mm.records import replace
from mm.views.spell import Speller

PAGE_LOG = 12


def other_inputs(console: Console, built: Built, sheet: Sheet, case: Case) -> Built:
    """The program with the words and the code of a run in the places that the sheet names."""
    if not case.inputs:
        return built
    image = built.image
    for line in case.inputs:
        if line.kind == "code":
            image = _with_code(console, sheet, image, line)
        else:
            image = (_in_register if is_of_register(line) else _in_memory)(built, image, line)
    data = image_bytes(image)
    return replace(built, path=console.workshop.keep(data, ".img"), data=data, image=image, notes=[])


def _in_memory(built: Built, image: Image, line: Expectation) -> Image:
    name, *values = line.words
    address = address_in(built, name)
    pages = dict(image.pages)
    for place, value in enumerate(values):
        number, at = divmod(address + 8 * place, PAGE_BYTES)
        if number not in pages:
            raise NotSo(f"there is no memory at {name}")
        pages[number] = _with_word(pages[number], at // 8, number_in(value) % 2**64)
    return replace(image, pages=pages)


def _with_word(page: Page, place: int, value: int) -> Page:
    """A page with an integer in a place. Whether the word is full stays."""
    tags = bytearray(page.tags)
    tags[place >> 3] &= ~(1 << (place & 7)) & 0xFF
    words = page.words[: 8 * place] + value.to_bytes(8, "big") + page.words[8 * place + 8 :]
    return replace(page, tags=bytes(tags), words=words)


def _in_register(built: Built, image: Image, line: Expectation) -> Image:
    place = register_in(line.words[1])

    def with_word(slot: Slot) -> Slot:
        word = _word_of(slot.registers[place], values_put(line))
        return replace(slot, registers=(*slot.registers[:place], word, *slot.registers[place + 1 :]))

    return _with_slot(image, line.words[0], with_word)


def _with_slot(image: Image, number: str, other: Callable[[Slot], Slot]) -> Image:
    """An image with another slot in the place of one."""
    found = image.slot(number_in(number))
    if found is None:
        raise NotSo(f"there is no slot {number}")
    return replace(image, slots=tuple(other(slot) if slot is found else slot for slot in image.slots))


def _word_of(before: Word, words: tuple[str, ...]) -> Word:
    """An integer, a pointer by its bits, or a pointer into the segment of the one that was there: its permission, and
    how far into it."""
    if words[0] == POINTER:
        return Word(number_in(words[1]), True)
    if len(words) == 1:
        return Word(number_in(words[0]) % 2**64)
    permission, pointer = BY_SHORT.get(words[0]), before.pointer
    if permission is None:
        raise WrongLine(f"`{words[0]}` is not a permission: {', '.join(BY_SHORT)}")
    if pointer is None:
        raise NotSo("this register does not begin with a pointer")
    address = pointer.base + number_in(words[1])
    if not pointer.covers(address):
        raise NotSo("the segment of this register's pointer is too short")
    return Word(Pointer(permission, pointer.log, address).bits, True)


def _with_code(console: Console, sheet: Sheet, image: Image, line: Expectation) -> Image:
    """An image in which a slot runs a segment of a source that the sheet names: it lies in a page of its own."""
    number, name, wanted = line.words
    segment = next((one for one in unit_of(console, sheet, name).made.segments if one.name == wanted), None)
    if segment is None:
        raise WrongLine(f"{name} has no segment `{wanted}`")
    if segment.relocations or segment.log > PAGE_LOG:
        raise WrongLine(f"`{wanted}` of {name} has pointers, or more than {PAGE_WORDS} words")
    page = max(image.pages, default=0) + 1
    cells = {place: Cell(Word(word), full) for place, (word, full) in enumerate(zip(segment.words, segment.full))}
    pages = {**image.pages, page: page_of(page, cells)}
    ip = Pointer(Permission.XU, segment.log, page * PAGE_BYTES)
    image = replace(image, pages=pages, frames=max(image.frames, len(pages)))
    return _with_slot(image, number, lambda slot: replace(slot, ip=ip, halted=False))


def told(case: Case) -> str:
    """The inputs of a run as a message names them."""
    return ", ".join(_told(line) for line in case.inputs)


def _told(line: Expectation) -> str:
    if line.kind == "code":
        return f"`{line.words[2]}` of {line.words[1]} as the code of slot {line.words[0]}"
    place = f"{line.words[1]} of slot {line.words[0]}" if is_of_register(line) else line.words[0]
    return f"{' '.join(_values(line))} in {place}"


def _values(line: Expectation) -> Iterator[str]:
    values = values_put(line)
    if values[0] == POINTER:
        yield Speller(Symbols()).word(Word(number_in(values[1]), True))
    else:
        yield from values
