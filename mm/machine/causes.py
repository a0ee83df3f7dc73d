"""The thirteen faults of a turn, with their numbers and what each means in a sentence."""

from __future__ import annotations

from enum import Enum
from typing import Optional


class Cause(Enum):
    """Why an instruction is refused: its number in a report, its name, and its meaning."""

    NOT_POINTER = (1, "NotPointer", "an operand that must be a pointer is an integer")
    PERM = (2, "Perm", "the pointer's permission does not allow this")
    BOUNDS = (3, "Bounds", "the address is outside the pointer's segment")
    ALIGN = (4, "Align", "the address is not a multiple of 8")
    NO_PAGE = (5, "NoPage", "no page is mapped at the address")
    SYNC = (6, "Sync", "the word's synchronisation bit is not as the instruction wants it")
    ILLEGAL = (7, "Illegal", "the fetched word is not an instruction")
    PRIV = (8, "Priv", "only privileged code may use this instruction")
    DIV_ZERO = (9, "DivZero", "a division by zero")
    MALFORMED = (10, "Malformed", "the bits do not spell a pointer, or the number is not a permission")
    TRAP = (11, "Trap", "a trap instruction")
    NO_SLOT = (12, "NoSlot", "no slot of this number waits to be served by this one")
    OUT_FULL = (13, "OutFull", "the group's output has no more room")

    def __init__(self, number: int, title: str, meaning: str) -> None:
        self.number, self.title, self.meaning = number, title, meaning

    @classmethod
    def of_number(cls, number: int) -> Optional[Cause]:
        return BY_NUMBER.get(number)

    @classmethod
    def of_title(cls, title: str) -> Optional[Cause]:
        return next((cause for cause in cls if cause.title.lower() == title.lower()), None)


BY_NUMBER = {cause.number: cause for cause in Cause}
