"""Words, pointers and instructions with names."""

from __future__ import annotations

from itertools import accumulate, takewhile
from typing import Optional

from mm.machine.isa import Instruction
from mm.machine.memory import Memory
from mm.machine.words import Pointer, Word, bytes_in_words, letter_of
from mm.names.symbols import Symbols

SMALL = 1 << 16


class Speller:
    """Writes words and instructions for people, by the names of an image."""

    def __init__(self, symbols: Symbols) -> None:
        self.symbols = symbols

    def pointer(self, pointer: Pointer) -> str:
        """`rw 2^3 box`: what it may, how long its segment is, and where it stands."""
        return f"{pointer.permission.short} 2^{pointer.log} {self.symbols.show(pointer.address)}"

    def reach(self, pointer: Pointer) -> str:
        """From where to where a pointer reaches: `all 64 bytes of gate`, `16 bytes from letters+32 on`."""
        region = self.symbols.region(pointer.base)
        length = bytes_in_words(pointer.log)
        if region and (region.base, region.log) == (pointer.base, pointer.log):
            return f"all {length} of {region.name}"
        return f"{length} from {self.symbols.show(pointer.base)} on"

    def word(self, word: Word) -> str:
        """A pointer spelled out, or an integer as a number, with its letter if it is one."""
        pointer = word.pointer
        return self.pointer(pointer) if pointer else integer(word)

    def register(self, word: Optional[Word]) -> str:
        return "empty (its load has not arrived)" if word is None else self.word(word)

    def instruction(self, instruction: Instruction, address: int) -> str:
        """An instruction as a source has it, with the label of a branch."""
        return instruction.text(lambda words: self.symbols.name(address + 8 * words) or str(words))

    def at(self, memory: Memory, address: int) -> str:
        """What stands at an address: an instruction, or a word that is none."""
        instruction, cell = memory.instruction(address), memory.cell(address)
        if instruction:
            return self.instruction(instruction, address)
        return f"no instruction: {self.word(cell.word)}" if cell else "no page is here"


def integer(word: Word) -> str:
    """`66 'B'`, `-1`, or `1048840 0x100108` where the number is large."""
    signed = word.signed
    if -SMALL < signed < SMALL:
        letter = letter_of(word.bits)
        return f"{signed} '{letter}'" if letter else str(signed)
    return f"{signed} 0x{word.bits:x}"


def fitting(data: bytes, most: int) -> int:
    """How many of the first bytes have a text of so many letters at most."""
    lengths = accumulate(len(bytes_as_text(bytes([byte]))) - 2 for byte in data)
    return sum(1 for _ in takewhile(lambda length: length <= most, lengths))


def bytes_as_text(data: bytes) -> str:
    """Bytes as a text between quotes, with `\\n` and the like for what cannot be printed."""
    shown = {10: "\\n", 13: "\\r", 9: "\\t", 34: '\\"', 92: "\\\\"}
    return (
        '"' + "".join(shown.get(byte) or (chr(byte) if 32 <= byte < 127 else f"\\x{byte:02x}") for byte in data) + '"'
    )
