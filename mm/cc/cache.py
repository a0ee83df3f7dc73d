"""Texts that are kept from one run of `mm` to the next, by what they were made of."""

from __future__ import annotations

import hashlib
import os
import tempfile
from typing import Callable, Optional, Sequence

# Where texts are kept; nothing is kept if it is empty.
VARIABLE = "MM_CACHE"
MOST_KEPT = 16


def folder() -> Optional[str]:
    said = os.environ.get(VARIABLE)
    if said is not None:
        return said or None
    home = os.environ.get("XDG_CACHE_HOME") or os.path.join(os.path.expanduser("~"), ".cache")
    return os.path.join(home, "mmachine")


def text(key: Sequence[bytes], make: Callable[[], str]) -> str:
    """The text that `make` makes of what the key has all of. Where it cannot be kept, it is made each time."""
    place = folder()
    if place is None:
        return make()
    path = os.path.join(place, f"{digest(key)}.ll")
    found = _read(path)
    if found is None:
        found = make()
        _keep(place, path, found)
    return found


def digest(key: Sequence[bytes]) -> str:
    """A name for a key; the length of each part is in it, so no two keys run into each other."""
    made = hashlib.sha256()
    for part in key:
        made.update(len(part).to_bytes(8, "little") + part)
    return made.hexdigest()


def _read(path: str) -> Optional[str]:
    """A text that was kept, if it is there and whole: its last line is its digest."""
    try:
        with open(path, "rb") as file:
            data = file.read()
    except OSError:
        return None
    said, _, last = data.rpartition(b"\n;")
    if hashlib.sha256(said).hexdigest().encode() != last:
        return None
    return said.decode("utf-8", "surrogateescape")


def _keep(place: str, path: str, made: str) -> None:
    """Writes a file of its own and renames it, so that another run sees all of it or nothing."""
    data = made.encode("utf-8", "surrogateescape")
    try:
        os.makedirs(place, mode=0o700, exist_ok=True)
        number, name = tempfile.mkstemp(dir=place, prefix="new-")
        try:
            with os.fdopen(number, "wb") as file:
                file.write(data + b"\n;" + hashlib.sha256(data).hexdigest().encode())
            os.replace(name, path)
        except OSError:
            os.unlink(name)
            return
        _forget(place)
    except OSError:
        return


def _forget(place: str) -> None:
    """Keeps those that were made last."""
    kept = [os.path.join(place, name) for name in os.listdir(place) if name.endswith(".ll")]
    for path in sorted(kept, key=os.path.getmtime)[:-MOST_KEPT]:
        os.unlink(path)
