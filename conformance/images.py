"""Images described by their slots and cells, and the bytes that they have.

A description says what is in a machine before its run: slots with code, registers and a handler, and cells by their
addresses. Instructions are written as a source has them. No byte is written by hand: `Image.data` spells the fields, as
docs/FORMATS.md has them."""

import os
import sys
from dataclasses import dataclass, field
from typing import Optional, Union

TOP = os.path.dirname(os.path.dirname(os.path.abspath(__file__)))
sys.path.insert(0, TOP)
sys.dont_write_bytecode = True

from mm.machine.isa import OPERATIONS, Instruction, encode  # noqa: E402
from mm.machine.words import BY_SHORT, Pointer  # noqa: E402

PAGE_BYTES, PAGE_WORDS, WORD_BYTES = 4096, 512, 8
REGISTERS = 16
WORDS = 1 << 64
# Where the code of slot 0 stands, how far the code of the next slot is from it, and the logarithm of a code segment.
CODE, CODE_STEP, CODE_LOG = 0x100000, 0x100, 8
NO_HANDLER = 255


@dataclass(frozen=True)
class Empty:
    """A word in a cell whose synchronisation bit is empty."""

    word: Union[int, Pointer] = 0


Word = Union[int, Pointer]
Content = Union[int, Pointer, Empty, str]


def pointer(permission, log, address):
    """A guarded pointer. Its permission is written as a source has it."""
    return Pointer(BY_SHORT[permission], log, address)


def operand(kind, text):
    """The value of an operand from its text."""
    if kind.is_register:
        return int(text[1:])
    return kind.choices.index(text) if kind.choices else int(text, 0)


def instruction(text):
    """The word of an instruction, as a source has it: `ld r2, r1, 0, any, keep`."""
    name, _, rest = text.partition(" ")
    operation = OPERATIONS[name]
    words = [word.strip() for word in rest.split(",")] if rest else []
    if len(words) != len(operation.operands):
        raise ValueError(f"{text}: {name} has {len(operation.operands)} operands")
    return encode(Instruction(operation, tuple(map(operand, operation.operands, words))))


def plainest(operation):
    """The word of an operation whose registers and numbers are all 1."""
    return encode(Instruction(operation, tuple(0 if kind.choices else 1 for kind in operation.operands)))


def bits_of(word):
    """The 64 bits of a word."""
    return word.bits if isinstance(word, Pointer) else word % WORDS


def word_in(content):
    """The word of a cell's content."""
    if isinstance(content, Empty):
        return content.word
    return instruction(content) if isinstance(content, str) else content


@dataclass(frozen=True)
class Slot:
    """A slot with its code. The code is at `at`, in a segment of 2^log bytes, and is entered at word `start`; `ip` says
    another instruction pointer. A slot is in a group of its own number where `group` is none."""

    number: int
    code: tuple[Content, ...] = ()
    registers: dict[int, Word] = field(default_factory=dict)
    permission: str = "xu"
    group: Optional[int] = None
    handler: Optional[int] = None
    halted: bool = False
    at: Optional[int] = None
    log: int = CODE_LOG
    start: int = 0
    ip: Optional[Pointer] = None

    @property
    def base(self):
        return CODE + self.number * CODE_STEP if self.at is None else self.at

    @property
    def entry(self):
        return self.ip or pointer(self.permission, self.log, self.base + WORD_BYTES * self.start)

    @property
    def cells(self):
        return {self.base + WORD_BYTES * place: content for place, content in enumerate(self.code)}

    @property
    def record(self):
        """The bytes of the slot in an image."""
        words = [self.registers.get(number, 0) for number in range(REGISTERS)]
        tags = sum(1 << number for number, word in enumerate(words) if isinstance(word, Pointer))
        group = self.number if self.group is None else self.group
        handler = NO_HANDLER if self.handler is None else self.handler
        numbers = [
            (self.number, 1), (group, 1), (handler, 1), (int(self.halted), 1), (bits_of(self.entry), 8), (tags, 2)
        ]
        return spelled(numbers + [(bits_of(word), 8) for word in words])


def spelled(numbers):
    """Numbers, each in as many bytes as stand beside it, the highest first."""
    return b"".join(number.to_bytes(length, "big") for number, length in numbers)


def page_record(page, cells):
    """The bytes of a page in an image. `cells` are the contents by their places; all others are integer 0, full."""
    tags, full = 0, (1 << PAGE_WORDS) - 1
    words = bytearray(PAGE_BYTES)
    for place, content in cells.items():
        word = word_in(content)
        tags |= isinstance(word, Pointer) << place
        full &= ~(isinstance(content, Empty) << place)
        words[WORD_BYTES * place : WORD_BYTES * place + WORD_BYTES] = bits_of(word).to_bytes(WORD_BYTES, "big")
    bitmaps = tags.to_bytes(PAGE_WORDS // 8, "little") + full.to_bytes(PAGE_WORDS // 8, "little")
    return spelled([(page, 8)]) + bitmaps + bytes(words)


@dataclass(frozen=True)
class Image:
    """A machine before its run. Mapped are the pages of all cells and code, and those of `pages`; there are as many
    frames as mapped pages, and `spare` more, unless `frames` says how many."""

    slots: tuple[Slot, ...]
    cells: dict[int, Content] = field(default_factory=dict)
    pages: tuple[int, ...] = ()
    version: int = 1
    split: bool = False
    spare: int = 0
    frames: Optional[int] = None

    def by_page(self):
        """The contents of each mapped page, by their places."""
        found = {page: {} for page in self.pages}
        for cells in [slot.cells for slot in self.slots] + [self.cells]:
            for address, content in cells.items():
                page, place = divmod(address // WORD_BYTES, PAGE_WORDS)
                found.setdefault(page, {})[place] = content
        return found

    @property
    def data(self):
        """The bytes of the image."""
        pages = self.by_page()
        frames = self.frames or max(1, len(pages) + self.spare)
        counts = [(self.version, 2), (len(self.slots), 2), (frames, 2), (len(pages), 2), (int(self.split), 4)]
        slots = sorted(self.slots, key=lambda slot: slot.number)
        parts = [b"MMI1", spelled(counts), *(slot.record for slot in slots)]
        return b"".join(parts + [page_record(page, pages[page]) for page in sorted(pages)])
