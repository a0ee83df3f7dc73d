"""The files that were read, which no output may replace."""

from __future__ import annotations

import os
import stat

# The device and the number of each file that was read.
_READ: set[tuple[int, int]] = set()


def forget() -> None:
    """Forgets what an earlier command read."""
    _READ.clear()


def note_read(number: int) -> None:
    """Notes that an open file is read, so that no output is put into its place."""
    there = os.fstat(number)
    _READ.add((there.st_dev, there.st_ino))


def was_read(name: str) -> bool:
    """Whether a name is a file that was read, and a usual one."""
    try:
        there = os.stat(name)
    except OSError:
        return False
    return stat.S_ISREG(there.st_mode) and (there.st_dev, there.st_ino) in _READ


def is_same(one: str, other: str) -> bool:
    """Whether two names are one file that is there."""
    try:
        return os.path.samefile(one, other)
    except OSError:
        return False
