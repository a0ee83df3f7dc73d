"""Files that are written: whole, or not at all."""

from __future__ import annotations

import contextlib
import os
import stat
import tempfile


def write_whole(name: str, data: bytes) -> None:
    """Writes a file beside its place, and then puts it there. What is no usual file is written as it is."""
    path = os.path.realpath(name)
    there = os.stat(path) if os.path.exists(path) else None
    if there is not None and not stat.S_ISREG(there.st_mode):
        return _write(path, data)
    if there is not None and not os.access(path, os.W_OK):
        raise PermissionError(13, os.strerror(13), name)
    try:
        number, beside = tempfile.mkstemp(prefix=".mm-", dir=os.path.dirname(path))
    except PermissionError:
        return _write(path, data)  # A file that may be written, in a folder that may not.
    try:
        with open(number, "wb") as file:
            file.write(data)
        os.chmod(beside, stat.S_IMODE(there.st_mode) if there else 0o666 & ~_umask())
        os.replace(beside, path)
    except BaseException:
        with contextlib.suppress(OSError):
            os.remove(beside)
        raise


def _write(path: str, data: bytes) -> None:
    with open(path, "wb") as file:
        file.write(data)


def _umask() -> int:
    mask = os.umask(0)
    os.umask(mask)
    return mask
