"""Values that a line expects: an integer, or any word of a kind."""

from __future__ import annotations

import re
from typing import Optional

from mm.machine.words import BY_SHORT, Word
from mm.names.numbers import number_of

KINDS = ("pointer", "integer")
LENGTH = re.compile(r"2\^(\d{1,2})")
MODULUS = 1 << 64


def not_a_value(text: str) -> Optional[str]:
    """Why a text is not a value, if it is none."""
    is_one = text in KINDS or text in BY_SHORT or LENGTH.fullmatch(text) or number_of(text) is not None
    return None if is_one else f"`{text}` is not a number"


def is_value(word: Word, text: str) -> bool:
    """Whether a word has a value."""
    pointer, length = word.pointer, LENGTH.fullmatch(text)
    if text in KINDS:
        return word.tagged == (text == "pointer")
    if text in BY_SHORT:
        return pointer is not None and pointer.permission is BY_SHORT[text]
    if length:
        return pointer is not None and pointer.log == int(length[1])
    number = number_of(text)
    return number is not None and word == Word(number % MODULUS)
