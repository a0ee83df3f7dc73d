"""Text as it may go to a terminal: what would act on it is shown and not sent."""

from __future__ import annotations

import re

# Control characters but the tab, the marks that turn the direction of writing, and bytes of names that are no text.
ACTING = "[\x00-\x08\x0a-\x1f\x7f-\x9f\u061c\u200e\u200f\u202a-\u202e\u2066-\u2069\udc80-\udcff]"
BYTES = range(0xDC80, 0xDD00)
# The colours that `mm` sends itself.
OURS = "(\033\\[(?:0|1|2|32|36|1;31|1;33)m)"


def visible(text: str) -> str:
    """A line in which each such character has its number, `<U+001B>`, and each such byte too, `\\xff`."""
    return re.sub(ACTING, lambda found: _number_of(ord(found[0])), text)


def _number_of(character: int) -> str:
    return f"\\x{character & 0xFF:02x}" if character in BYTES else f"<U+{character:04X}>"


def shown(text: str, colours: bool = False) -> str:
    """A line for a stream, which has colours of `mm` or none."""
    if text.isprintable():
        return text
    if not colours:
        return visible(text)
    return "".join(part if place % 2 else visible(part) for place, part in enumerate(re.split(OURS, text)))
