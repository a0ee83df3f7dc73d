"""Files that a source names in its comments: which of them are read."""

from __future__ import annotations

import os
import stat

from mm.inputs import note_read

# A longer file is none that a person wrote.
LONGEST_NAMED = 1 << 22


def _folders(source: str) -> list[str]:
    """The folders that a named file may be in, at any depth: the one of the source, and the current one. The root holds
    everything, so it is none of them."""
    found = {os.path.realpath(os.path.dirname(source) or "."), os.path.realpath(".")}
    return [folder for folder in found if folder != os.path.dirname(folder)]


def lines_nearby(path: str, source: str) -> list[str]:
    """The lines of a file that a source names; none unless it is a regular file of a bounded length, which stands beside
    the source or below the current folder. A source can name what it likes: a pipe, a device, a file that is nobody else's."""
    try:
        real = os.path.realpath(path)
        inside = any(os.path.commonpath([folder, real]) == folder for folder in _folders(source))
        if not inside or not stat.S_ISREG(os.stat(real).st_mode):
            return []
        number = os.open(real, os.O_RDONLY | getattr(os, "O_NONBLOCK", 0) | getattr(os, "O_NOFOLLOW", 0))
        with os.fdopen(number, "rb") as file:
            note_read(number)
            # It may have become another file since it was looked at.
            data = file.read(LONGEST_NAMED + 1) if stat.S_ISREG(os.fstat(number).st_mode) else b""
    except (OSError, ValueError):
        return []
    return data.decode("utf-8", "replace").splitlines() if len(data) <= LONGEST_NAMED else []
