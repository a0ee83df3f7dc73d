"""A folder for the files in between, which is there as long as a command."""

from __future__ import annotations

import contextlib
import os

# Where the folder is made: the first of these that can be written.
VARIABLES = ("TMPDIR", "TEMP", "TMP")
FOLDERS = ("/tmp", "/var/tmp", "/usr/tmp", ".")
TRIES = 100


class Room:
    """The folder, and how many files were made in it. It is made with the first of them."""

    def __init__(self) -> None:
        self.made = 0
        self.path = ""

    def _make(self) -> None:
        """Makes the folder, which nobody else can read. Its path is known before, so that a signal in between leaves nothing."""
        named = [folder for folder in map(os.environ.get, VARIABLES) if folder]
        last = OSError(2, "there is no folder for files in between: set TMPDIR")
        for folder in (*named, *FOLDERS):
            for _ in range(TRIES):
                self.path = os.path.join(os.path.abspath(folder), f"mm-{os.urandom(6).hex()}")
                try:
                    os.mkdir(self.path, 0o700)
                    return
                except FileExistsError:
                    self.path = ""
                except OSError as error:
                    self.path, last = "", error
                    break
        raise last

    def keep(self, data: bytes, suffix: str) -> str:
        """A file with these bytes."""
        if not self.path:
            self._make()
        self.made += 1
        path = os.path.join(self.path, f"{self.made}{suffix}")
        with open(path, "wb") as file:
            file.write(data)
        return path

    def remove(self) -> None:
        """Removes the folder with its files."""
        if not self.path:
            return
        with contextlib.suppress(OSError):
            for name in os.listdir(self.path):
                os.remove(os.path.join(self.path, name))
            os.rmdir(self.path)
        self.path = ""
