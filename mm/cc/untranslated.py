"""What the translator has no answer for, told with the reason."""

from __future__ import annotations


from typing import Optional


INSIDE = "assembler text inside of a function"


class Untranslated(Exception):
    """Something of C, or of LLVM's text, that is left out. The text says what it is; the debug location where."""

    debug: Optional[str] = None
