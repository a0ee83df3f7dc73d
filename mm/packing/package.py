"""The package: a tar.gz of a commit and its program, with the same bytes each time."""

from __future__ import annotations

import gzip
import hashlib
import io
import os
import subprocess
import sys
import tarfile
from typing import Optional, Sequence

from mm.machine.program import CHECKOUT, find_program
from mm.packing.tree import Entry, Tree, git, of_commit, of_folder, with_program
from mm.packing.vsix import vsix
from mm.status import Stop

USAGE = """usage: tools/package [FOLDER] [--commit COMMIT] [--program FILE]
       tools/package --vsix [FOLDER]

Writes the package of a commit, HEAD if none is said, to FOLDER, or to out/: mmachine-VERSION-linux-x86_64.tar.gz with
the program, `mm`, manual pages, completions, pages and examples; the extension for Visual Studio Code; and SHA256SUMS
of the two. What stands in the folder and is not in the commit is left out. --program says which mmachine; else it is
$MMACHINE, the one that was built here, or that on the path. The same commit and program give the same bytes.

--vsix writes the extension alone, from what stands in the folder, and needs neither git nor mmachine.

The exit status is 0 if it was done, 1 if the words are wrong, 2 if git has no such commit, 4 if something could not be
written, and 127 if there is no mmachine."""
USAGE_STATUS, REFUSED, NOT_WRITTEN = 1, 2, 4
SUMS = "SHA256SUMS"


def sums(files: dict[str, bytes]) -> bytes:
    """The lines that `sha256sum --check` reads."""
    return "".join(f"{hashlib.sha256(data).hexdigest()}  {path}\n" for path, data in sorted(files.items())).encode()


def tar(name: str, tree: Tree, time: int) -> bytes:
    """A tar.gz of files, sorted, with one time and owner, and the modes 755 and 644."""
    room = io.BytesIO()
    with tarfile.open(fileobj=room, mode="w", format=tarfile.USTAR_FORMAT) as archive:
        for path, entry in sorted(tree.items()):
            member = tarfile.TarInfo(f"{name}/{path}")
            member.size, member.mode, member.mtime = len(entry.data), entry.mode, time
            archive.addfile(member, io.BytesIO(entry.data))
    packed = io.BytesIO()
    with gzip.GzipFile("", "wb", 9, packed, mtime=0) as file:
        file.write(room.getvalue())
    return packed.getvalue()


def package(commit: str, program: str) -> dict[str, bytes]:
    """The files of a package by their names."""
    version = git(CHECKOUT, "describe", "--always", "--tags", "--abbrev=12", commit).decode().strip()
    time = int(git(CHECKOUT, "log", "-1", "--format=%ct", commit))
    tree = with_program(of_commit(CHECKOUT, commit), program, version)
    extension, data = vsix(tree)
    tree[f"editors/{extension}"] = Entry(data)
    tree[SUMS] = Entry(sums({path: entry.data for path, entry in tree.items()}))
    name = f"mmachine-{version}"
    files = {f"{name}-linux-x86_64.tar.gz": tar(name, tree, time), extension: data}
    return {**files, SUMS: sums(files)}


def _write(folder: str, files: dict[str, bytes]) -> str:
    os.makedirs(folder, exist_ok=True)
    for name, data in files.items():
        with open(os.path.join(folder, name), "wb") as file:
            file.write(data)
    return f"{', '.join(files)} written to {folder}"


def _act(words: Sequence[str]) -> Optional[str]:
    """Does what the words say, and tells it; nothing if they say nothing that there is."""
    left, said = list(words), {}
    for option in ("--commit", "--program"):
        if option in left[:-1]:
            at = left.index(option)
            said[option] = left[at + 1]
            del left[at : at + 2]
    alone = "--vsix" in left
    if alone:
        left.remove("--vsix")
    if len(left) > 1 or (left and left[0].startswith("-")) or (alone and said):
        return None
    folder = left[0] if left else os.path.join(CHECKOUT, "out")
    if alone:
        return _write(folder, dict([vsix(of_folder(CHECKOUT))]))
    return _write(folder, package(said.get("--commit", "HEAD"), find_program(said.get("--program")).path))


def main(words: Sequence[str]) -> int:
    if words in (["--help"], ["-h"]):
        print(USAGE)
        return 0
    try:
        told = _act(words)
    except Stop as stop:
        print("\n".join(stop.lines), file=sys.stderr)
        return int(stop.status)
    except subprocess.CalledProcessError as error:
        print(f"tools/package: {error.stderr.decode('utf-8', 'replace').strip()}", file=sys.stderr)
        return REFUSED
    except OSError as error:
        print(f"tools/package: {error.filename}: {error.strerror}", file=sys.stderr)
        return NOT_WRITTEN
    if told is None:
        print(USAGE, file=sys.stderr)
        return USAGE_STATUS
    print(f"tools/package: {told}")
    return 0
