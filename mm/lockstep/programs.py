"""A program as a command: it is run on an image and a schedule, and its log is read as it is written."""

from __future__ import annotations

import contextlib
import os
import signal
import subprocess
import tempfile
import threading
from dataclasses import dataclass, field
from typing import IO, Iterator, Sequence

from mm.lockstep.lines import log_lines

IMAGE, CYCLES, SCHEDULE = "{image}", "{cycles}", "{schedule}"
SAID_BYTES = 2000


class CannotRun(Exception):
    """A program that cannot be started."""


def stop(started: subprocess.Popen[bytes]) -> None:
    """Stops a program that has not ended, with the programs that it started."""
    if started.poll() is None:
        with contextlib.suppress(ProcessLookupError):
            os.killpg(started.pid, signal.SIGKILL)


@dataclass
class Running:
    """A program that runs: the lines of its log, and once these are read how it ended, if not well."""

    lines: Iterator[str]
    wrong: list[str] = field(default_factory=list)


class Command:
    """The words of a command, in which `{image}`, `{cycles}` and `{schedule}` stand for a case. Lines of a simulator, and
    those that begin as `skipped` says, are not of its log."""

    def __init__(self, name: str, words: Sequence[str], seconds: int, skipped: Sequence[str] = ()) -> None:
        self.name, self.words, self.seconds, self.skipped = name, list(words), seconds, tuple(skipped)

    def words_for(self, image: str, cycles: int, schedule: str) -> list[str]:
        found = {IMAGE: image, CYCLES: str(cycles), SCHEDULE: schedule}
        words = []
        for word in self.words:
            for mark, value in found.items():
                word = word.replace(mark, value)
            words.append(word)
        return words

    @contextlib.contextmanager
    def run(self, image: str, cycles: int, schedule: str) -> Iterator[Running]:
        """Starts the program. It is stopped at the end, however much of its log was read."""
        words = self.words_for(image, cycles, schedule)
        with tempfile.TemporaryFile() as said:
            try:
                started = subprocess.Popen(
                    words, stdin=subprocess.DEVNULL, stdout=subprocess.PIPE, stderr=said, start_new_session=True
                )
            except OSError as error:
                raise CannotRun(f"{words[0]} cannot be run: {error.strerror}") from None
            late = threading.Event()

            def too_late() -> None:
                late.set()
                stop(started)

            timer = threading.Timer(self.seconds, too_late)
            timer.start()
            try:
                running = Running(iter(()))
                running.lines = self._lines(started, said, late, running)
                yield running
            finally:
                timer.cancel()
                stop(started)
                if started.stdout:
                    started.stdout.close()
                started.wait()

    def _lines(
        self, started: subprocess.Popen[bytes], said: IO[bytes], late: threading.Event, running: Running
    ) -> Iterator[str]:
        yield from log_lines((line.decode("latin-1").rstrip("\n") for line in started.stdout or ()), self.skipped)
        status = started.wait()
        if late.is_set():
            running.wrong.append(f"it was stopped after {self.seconds} seconds")
        elif status:
            running.wrong.append(f"it ended with status {status}")
        if running.wrong:
            said.seek(0)
            running.wrong += said.read(SAID_BYTES).decode("utf-8", "replace").splitlines()


@dataclass
class Room:
    """A folder for the files of one case."""

    path: str

    def file(self, name: str, data: bytes) -> str:
        path = os.path.join(self.path, name)
        with open(path, "wb") as file:
            file.write(data)
        return path


@contextlib.contextmanager
def room() -> Iterator[Room]:
    with tempfile.TemporaryDirectory() as path:
        yield Room(path)
