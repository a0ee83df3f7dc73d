"""Forms of a word: hexadecimal, decimal with and without a sign, and what else gdb has."""

from __future__ import annotations

from typing import Optional

from mm.debugger.arithmetic import number_in
from mm.machine.words import WORD_MASK, Word
from mm.names.symbols import Symbols

FORMS = "/x, /d, /u, /o, /t (binary), /c (a letter), /a (an address), /i (an instruction)"
LETTERS = "xduotcaz"


def in_form(form: str, word: Word, width: int, symbols: Symbols) -> Optional[str]:
    """A word of so many bits in a form; none if there is no such form."""
    bits, number = word.bits & (1 << width) - 1, number_in(word)
    if form == "a":
        return f"0x{number & WORD_MASK:x} <{symbols.show(number)}>" if number >= 0 else f"0x{bits:x}"
    if form == "c":
        return f"{number} '{chr(number)}'" if 32 <= number < 127 else str(number)
    signed = bits - (bits >> width - 1 << width)
    digits = -(-width // 4)
    forms = {"x": f"0x{bits:x}", "d": str(signed), "u": str(bits), "o": f"0{bits:o}", "t": f"{bits:b}",
             "z": f"0x{bits:0{digits}x}"}
    return forms.get(form)
