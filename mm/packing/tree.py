"""Files in memory: those that a package has of a checkout, as git keeps them or as they stand in a folder."""

from __future__ import annotations

import io
import os
import subprocess
import tarfile
from dataclasses import dataclass
from typing import Mapping, Optional

PROGRAM = "bin/mmachine"
VERSION = "mm/VERSION"
# What a package has of a checkout. The program and the version come to it.
PARTS = (
    "README.md",
    "bin/mm",
    "conformance",
    "docs",
    "editors",
    "examples",
    "mm",
    "tools/draw",
    "tools/install",
    "tools/lockstep",
)
LEFT_OUT = ("mm/tests/",)


@dataclass(frozen=True)
class Entry:
    """A file with its bytes, or a link with where it leads."""

    data: bytes = b""
    runs: bool = False
    link: Optional[str] = None

    @property
    def mode(self) -> int:
        return 0o755 if self.runs else 0o644


Tree = Mapping[str, Entry]


def _belongs(path: str) -> bool:
    parts = path.split("/")
    hidden = any(part.startswith(".") or part in ("__pycache__", "out") for part in parts)
    return not hidden and not path.startswith(LEFT_OUT) and not path.endswith((".pyc", ".log"))


def git(top: str, *words: str) -> bytes:
    """What git writes; a `CalledProcessError` if it refuses."""
    return subprocess.run(["git", "-C", top, *words], capture_output=True, check=True).stdout


def of_commit(top: str, commit: str) -> dict[str, Entry]:
    """The parts of a commit, whatever stands in the folder."""
    tree = {}
    with tarfile.open(fileobj=io.BytesIO(git(top, "archive", "--format=tar", commit, "--", *PARTS))) as archive:
        for member in archive:
            file = archive.extractfile(member) if member.isfile() and _belongs(member.name) else None
            if file is not None:
                tree[member.name] = Entry(file.read(), bool(member.mode & 0o100))
    return tree


def read_entry(path: str) -> Entry:
    with open(path, "rb") as file:
        return Entry(file.read(), os.access(path, os.X_OK))


def of_folder(top: str) -> dict[str, Entry]:
    """The parts as they stand in a checkout or an unpacked package."""
    tree = {}
    for part in PARTS:
        start = os.path.join(top, part)
        if os.path.isfile(start):
            tree[part] = read_entry(start)
        for folder, _, names in os.walk(start):
            for name in names:
                path = os.path.relpath(os.path.join(folder, name), top).replace(os.sep, "/")
                if _belongs(path):
                    tree[path] = read_entry(os.path.join(folder, name))
    return tree


def with_program(tree: Tree, program: str, version: str) -> dict[str, Entry]:
    """The parts with the program and the version."""
    with open(program, "rb") as file:
        data = file.read()
    return {**tree, PROGRAM: Entry(data, True), VERSION: Entry(f"{version}\n".encode())}
