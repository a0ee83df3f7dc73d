"""Installs under a prefix, and takes an install away again by its list."""

from __future__ import annotations

import contextlib
import os
import shutil
import sys
from typing import Optional, Sequence

from mm.machine.program import CHECKOUT, find_program
from mm.packing.places import HOME, LIST, placed
from mm.packing.tree import Entry, of_folder, with_program
from mm.status import Stop
from mm.version import version

USAGE = """usage: tools/install PREFIX [--program FILE]
       tools/install --uninstall PREFIX

Installs `mmachine`, `mm`, manual pages, completions, pages and examples under PREFIX, as /usr/local. With the variable
DESTDIR set, all is written below that folder instead, as for a package of a distribution; nothing that is written
names it or PREFIX. --program says which mmachine; else it is $MMACHINE, the one that was built here, or that on the
path. An install over an older one removes that first. --uninstall removes what share/mmachine/installed lists.

The exit status is 0 if it was done, 1 if the words are wrong, 2 if a file that is no part of an install is in the way
or there is no install, 4 if something could not be written or removed, and 127 if there is no mmachine."""
USAGE_STATUS, REFUSED, NOT_WRITTEN = 1, 2, 4
# The prefix itself in a list, and where the files of an older install are while a new one is written.
TOP, ASIDE = "./", ".mmachine-older"


class Refused(Exception):
    """Why nothing was done."""


def _listed(root: str) -> list[str]:
    """The paths that the list of an install names; those of folders end with `/`."""
    try:
        with open(os.path.join(root, LIST), encoding="utf-8") as file:
            paths = file.read().splitlines()
    except FileNotFoundError:
        return []
    strange = [path for path in paths if path.startswith("/") or ".." in path.split("/")]
    if strange:
        raise Refused(f"{os.path.join(root, LIST)} names {strange[0]}, which is outside of the prefix")
    return paths


def uninstall(root: str) -> int:
    """Removes what the list names, and what Python has compiled beside it. How many files the list named."""
    paths = _listed(root)
    if not paths:
        raise Refused(f"{os.path.join(root, LIST)} is not there: nothing is installed under this prefix")
    files = [path for path in paths if not path.endswith("/")]
    for path in files:
        if os.path.lexists(os.path.join(root, path)):
            os.remove(os.path.join(root, path))
    _remove_compiled(root)
    _remove_empty(root, paths)
    return len(files)


def _remove_compiled(root: str) -> None:
    """Removes what Python has compiled of an install."""
    for folder, names, _ in os.walk(os.path.join(root, HOME)):
        if "__pycache__" in names:
            shutil.rmtree(os.path.join(folder, "__pycache__"))


def _remove_empty(root: str, paths: Sequence[str]) -> None:
    """Removes the folders of a list that have nothing in them any more, the innermost first, and the prefix last."""
    folders = [path for path in paths if path.endswith("/")]
    for path in sorted(folders, key=lambda path: (path != TOP, path), reverse=True):
        folder = os.path.normpath(os.path.join(root, path))
        if os.path.isdir(folder) and not os.listdir(folder):
            os.rmdir(folder)


class Writing:
    """Files and folders that are made under a prefix, and taken back if not all can be made."""

    def __init__(self, root: str) -> None:
        self.root = root
        self.folders: list[str] = []
        self.files: list[str] = []
        self.aside: Optional[str] = None

    def folder(self, path: str) -> None:
        """Makes a folder with those that it is in, each with the mode 755 whatever the umask is."""
        full = os.path.join(self.root, path) if path else self.root
        if os.path.isdir(full):
            return
        if path:
            self.folder(os.path.dirname(path))
            os.mkdir(full)
        else:
            os.makedirs(full)
        os.chmod(full, 0o755)
        self.folders.append(f"{path}/" if path else TOP)

    def file(self, path: str, entry: Entry) -> None:
        """Writes a file, or a link."""
        full = os.path.join(self.root, path)
        self.files.append(path)
        try:
            if entry.link is not None:
                os.symlink(entry.link, full)
                return
            with open(full, "wb") as file:
                file.write(entry.data)
            os.chmod(full, entry.mode)
        except OSError as error:
            raise OSError(error.errno, error.strerror, full) from None

    def set_aside(self, paths: Sequence[str]) -> None:
        """Puts the files of an older install into a folder beside them."""
        self.aside = os.path.join(self.root, ASIDE)
        os.mkdir(self.aside)
        for path in paths:
            if os.path.lexists(os.path.join(self.root, path)):
                kept = os.path.join(self.aside, path)
                os.makedirs(os.path.dirname(kept), exist_ok=True)
                os.rename(os.path.join(self.root, path), kept)

    def take_back(self) -> None:
        """Removes all that was made, and puts back what was set aside."""
        for path in self.files:
            if os.path.lexists(os.path.join(self.root, path)):
                os.remove(os.path.join(self.root, path))
        for path in reversed(self.folders):
            with contextlib.suppress(OSError):
                os.rmdir(os.path.normpath(os.path.join(self.root, path)))
        for folder, _, names in os.walk(self.aside) if self.aside else ():
            for name in names:
                kept = os.path.join(folder, name)
                os.rename(kept, os.path.join(self.root, os.path.relpath(kept, self.aside)))
        self.done()

    def done(self) -> None:
        """Removes what was set aside."""
        if self.aside:
            shutil.rmtree(self.aside, ignore_errors=True)


def install(root: str, files: dict[str, Entry]) -> int:
    """Writes files under a folder, with their list. How many they are. If that cannot be finished, all is as it was before."""
    older = _listed(root)
    for path in (*files, LIST):
        if os.path.lexists(os.path.join(root, path)) and path not in older:
            raise Refused(f"{os.path.join(root, path)} is in the way, and no earlier install wrote it")
    writing = Writing(root)
    try:
        writing.folder("")
        if older:
            writing.set_aside([path for path in older if not path.endswith("/")])
        for path, entry in files.items():
            writing.folder(os.path.dirname(path))
            writing.file(path, entry)
        kept = {path for path in older if path.endswith("/")}
        listed = sorted([*files, LIST, *({*writing.folders} | kept)])
        writing.file(LIST, Entry("".join(f"{path}\n" for path in listed).encode()))
    except BaseException:
        writing.take_back()
        raise
    writing.done()
    _remove_compiled(root)
    _remove_empty(root, older)
    return len(files) + 1


def root_of(prefix: str) -> str:
    """The folder in which a prefix is written."""
    return os.environ.get("DESTDIR", "").rstrip("/") + os.path.abspath(prefix)


def _act(words: Sequence[str]) -> Optional[str]:
    """Does what the words say, and tells it; nothing if they say nothing that there is."""
    if len(words) == 2 and words[0] == "--uninstall":
        return f"{uninstall(root_of(words[1]))} files removed from {root_of(words[1])}"
    if len(words) not in (1, 3) or words[0].startswith("-") or (len(words) == 3 and words[1] != "--program"):
        return None
    program = find_program(words[2] if len(words) == 3 else None).path
    files = placed(with_program(of_folder(CHECKOUT), program, version()))
    return f"{install(root_of(words[0]), files)} files installed under {root_of(words[0])}"


def main(words: Sequence[str]) -> int:
    if words in (["--help"], ["-h"]):
        print(USAGE)
        return 0
    try:
        told = _act(words)
    except Stop as stop:
        print("\n".join(stop.lines), file=sys.stderr)
        return int(stop.status)
    except Refused as refused:
        print(f"tools/install: {refused}", file=sys.stderr)
        return REFUSED
    except OSError as error:
        print(f"tools/install: {error.filename}: {error.strerror}", file=sys.stderr)
        return NOT_WRITTEN
    if told is None:
        print(USAGE, file=sys.stderr)
        return USAGE_STATUS
    print(f"tools/install: {told}")
    return 0
