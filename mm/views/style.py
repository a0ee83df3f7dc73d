"""Colours, on a terminal alone, and never where NO_COLOR is set."""

from __future__ import annotations

import os
from typing import TextIO

from mm.records import dataclass


@dataclass(frozen=True)
class Style:
    """How words are marked. Without colours they stay as they are."""

    colours: bool = False

    def _mark(self, code: str, text: str) -> str:
        return f"\033[{code}m{text}\033[0m" if self.colours and text else text

    def strong(self, text: str) -> str:
        return self._mark("1", text)

    def soft(self, text: str) -> str:
        return self._mark("2", text)

    def good(self, text: str) -> str:
        return self._mark("32", text)

    def bad(self, text: str) -> str:
        return self._mark("1;31", text)

    def warn(self, text: str) -> str:
        return self._mark("1;33", text)

    def name(self, text: str) -> str:
        return self._mark("36", text)

    @classmethod
    def of(cls, stream: TextIO) -> Style:
        """Colours if the stream is a terminal that has them and nobody asked for none."""
        plain = "NO_COLOR" in os.environ and os.environ["NO_COLOR"] != "" or os.environ.get("TERM") == "dumb"
        return cls(stream.isatty() and not plain)
