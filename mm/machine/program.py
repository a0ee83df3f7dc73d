"""The program `mmachine`: where it is, and what it answers to words and files."""

from __future__ import annotations

import contextlib
import os
import subprocess
from typing import Iterator, Optional, Sequence

from mm.records import dataclass
from mm.status import Status, Stop

VARIABLE = "MMACHINE"
BUILT = os.path.join("crates", "mmachine", "out", "mmachine")
BESIDE = os.path.join("bin", "mmachine")
CHECKOUT = os.path.dirname(os.path.dirname(os.path.dirname(os.path.abspath(__file__))))
NOT_THERE = (
    "mm: the program `mmachine` is needed, and was not found.",
    f"    It was looked for in ${VARIABLE}, beside `mm`, in {BUILT} of this checkout, and on the path.",
    "    Build it with `tools/build` (docs/INSTALL.md, From the sources),",
    f"    or say where it is: `mm --program FILE ..`, or `export {VARIABLE}=FILE`.",
)


@dataclass(frozen=True)
class Answer:
    """What a command of `mmachine` came to: its status, its standard output, and the line on its standard error."""

    status: int
    out: bytes
    line: str

    @property
    def text(self) -> str:
        return self.out.decode("latin-1")


class Program:
    """A built `mmachine`."""

    def __init__(self, path: str) -> None:
        self.path = path

    def run(self, words: Sequence[str], lines: Optional[bytes] = None) -> Answer:
        """Runs a command to its end. `lines` is its standard input, empty where none is given."""
        try:
            ended = subprocess.run(
                [self.path, *words], input=lines or b"", stdout=subprocess.PIPE, stderr=subprocess.PIPE, check=False
            )
        except OSError as error:
            raise Stop(Status.NO_PROGRAM, f"mm: {self.path} cannot be run: {error.strerror}") from None
        return Answer(ended.returncode, ended.stdout, ended.stderr.decode("utf-8", "replace").strip())

    @contextlib.contextmanager
    def lines(self, words: Sequence[str]) -> Iterator[tuple[Answer, Iterator[str]]]:
        """Runs a command whose text may be long: how it ended, and the lines of its text one by one."""
        import tempfile

        with tempfile.TemporaryFile() as file:
            try:
                ended = subprocess.run(
                    [self.path, *words], stdin=subprocess.DEVNULL, stdout=file, stderr=subprocess.PIPE, check=False
                )
            except OSError as error:
                raise Stop(Status.NO_PROGRAM, f"mm: {self.path} cannot be run: {error.strerror}") from None
            file.seek(0)
            line = ended.stderr.decode("utf-8", "replace").strip()
            yield Answer(ended.returncode, b"", line), (row.decode("latin-1").rstrip("\n") for row in file)

    def tail(self, words: Sequence[str], length: int) -> bytes:
        """The last bytes of what a command writes, which may be long."""
        import tempfile

        with tempfile.TemporaryFile() as file:
            subprocess.run(
                [self.path, *words], stdin=subprocess.DEVNULL, stdout=file, stderr=subprocess.DEVNULL, check=False
            )
            file.seek(max(0, file.seek(0, os.SEEK_END) - length))
            return file.read()


def _usable(path: str) -> bool:
    return os.path.isfile(path) and os.access(path, os.X_OK)


def find_program(named: Optional[str] = None) -> Program:
    """The program that was named, that of the environment, that beside `mm`, the checkout's, or that on the path."""
    for path, said in ((named, "--program"), (os.environ.get(VARIABLE), f"${VARIABLE}")):
        if path and not _usable(path):
            raise Stop(Status.NO_PROGRAM, f"mm: {said} says {path}, and there is no program of that name")
        if path:
            return Program(os.path.abspath(path))
    for path in (os.path.join(CHECKOUT, BESIDE), os.path.join(CHECKOUT, BUILT)):
        if _usable(path):
            return Program(path)
    import shutil

    on_path = shutil.which("mmachine")
    if on_path:
        return Program(on_path)
    raise Stop(Status.NO_PROGRAM, *NOT_THERE)
