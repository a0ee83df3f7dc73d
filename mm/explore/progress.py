"""The line that tells of a search that takes long: on a terminal alone, and gone at its end."""

from __future__ import annotations

import os
import threading
import time
from types import TracebackType
from typing import Optional, TextIO

# To the beginning of the line, and the line away.
ANEW = "\r\033[K"


def shows(stream: TextIO) -> bool:
    """Whether a line on a stream can be written anew: on a terminal that does what it is told."""
    return stream.isatty() and os.environ.get("TERM") != "dumb"


class Progress:
    """Tells each second for how long a search has been going on, and what it has found."""

    def __init__(self, stream: TextIO, every: float = 1.0) -> None:
        self.stream, self.every, self.shown = stream, every, shows(stream)
        self.said, self.began = "looking", time.monotonic()
        self.ended, self.lock, self.there = threading.Event(), threading.Lock(), False
        self.thread = threading.Thread(target=self._write, daemon=True) if self.shown else None

    def say(self, what: str) -> None:
        """What is told from now on."""
        self.said = what

    def clear(self) -> None:
        """Takes the line away."""
        if self.there:
            self._put(ANEW)
        self.there = False

    def __enter__(self) -> Progress:
        if self.thread:
            self.thread.start()
        return self

    def __exit__(self, kind: Optional[type[BaseException]], error: Optional[BaseException], trace: Optional[TracebackType]) -> None:
        self.ended.set()
        if self.thread:
            self.thread.join()
            self.clear()

    def _write(self) -> None:
        while not self.ended.wait(self.every):
            self.there = self._put(f"{ANEW}mm: {self.said}, {time.monotonic() - self.began:.0f} s")

    def _put(self, text: str) -> bool:
        """Writes a piece, and says whether it could. A terminal that has gone is told of where the answer is written."""
        try:
            with self.lock:
                self.stream.write(text)
                self.stream.flush()
        except (OSError, ValueError):
            self.ended.set()
            return False
        return True
