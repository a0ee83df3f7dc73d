"""Numbers as people write them."""

from __future__ import annotations

import re
from typing import Optional

# An address as reports print it: 14 hexadecimal digits without `0x`. It is read as one only where an address is wanted.
PRINTED_ADDRESS = re.compile(r"[0-9a-f]{14}")
PLAIN_DECIMAL = re.compile(r"[1-9][0-9]*")
MOST_DIGITS = 100
FORMS = (
    (re.compile(r"0[xX][0-9a-fA-F_]+"), 16),
    (re.compile(r"0[bB][01_]+"), 2),
    (re.compile(r"0[oO][0-7_]+"), 8),
    (re.compile(r"[0-9][0-9_]*"), 10),
)


def number_of(text: str) -> Optional[int]:
    """A number: decimal, `0x`, `0b` or `0o`, with `_` between digits and a `-` before it; none if it is no number."""
    sign, digits = (-1, text[1:]) if text.startswith("-") else (1, text)
    if len(digits) > MOST_DIGITS:
        return None
    for form, base in FORMS:
        if form.fullmatch(digits):
            plain = digits.replace("_", "")
            return sign * int(plain if base == 10 else plain[2:] or "0", base)
    return None


def printed_address(text: str) -> Optional[int]:
    """The address that 14 hexadecimal digits are, as reports print one; none for other texts."""
    return int(text, 16) if PRINTED_ADDRESS.fullmatch(text) else None


def is_of_two_kinds(text: str) -> bool:
    """Whether a text may be a decimal number as well as an address that a report has printed."""
    return PRINTED_ADDRESS.fullmatch(text) is not None and PLAIN_DECIMAL.fullmatch(text) is not None


def hexadecimal(address: int) -> str:
    return f"{address:#x}"


def counted(count: int, what: str) -> str:
    """`1 word`, `2 words`."""
    return f"{count} {what}" if count == 1 else f"{count} {what}s"
