"""What the tests share: the files of this checkout, and `mm` called in this process."""

from __future__ import annotations

import contextlib
import io
import os
import sys
import tempfile
import unittest
from dataclasses import dataclass
from typing import Iterator, Optional
from unittest import mock

from mm.machine.program import CHECKOUT, find_program
from mm.main import main
from mm.status import Stop


def path_of(*names: str) -> str:
    return os.path.join(CHECKOUT, *names)


def read(*names: str) -> str:
    with open(path_of(*names), encoding="utf-8") as file:
        return file.read()


def read_bytes(*names: str) -> bytes:
    with open(path_of(*names), "rb") as file:
        return file.read()


def sources() -> list[str]:
    """All sources of the examples and the course."""
    found = []
    for folder in ("examples", os.path.join("docs", "course"), os.path.join("docs", "course", "answers")):
        found += [os.path.join(folder, name) for name in sorted(os.listdir(path_of(folder))) if name.endswith(".asm")]
    return found


def has_program() -> bool:
    try:
        find_program()
    except Stop:
        return False
    return True


needs_program = unittest.skipUnless(has_program(), "there is no built mmachine")


@dataclass
class Ended:
    """How a call of `mm` ended."""

    status: int
    out: str
    err: str
    data: bytes


class Stream(io.TextIOWrapper):
    """A text stream in memory that is no terminal."""

    def __init__(self) -> None:
        self.kept = io.BytesIO()
        super().__init__(self.kept, encoding="utf-8", newline="\n")

    @property
    def bytes(self) -> bytes:
        self.flush()
        return self.kept.getvalue()


def mm(*words: str, lines: Optional[str] = None) -> Ended:
    """Calls `mm` in this process, at the top of the checkout."""
    out, err = Stream(), Stream()
    before = os.getcwd()
    os.chdir(CHECKOUT)
    try:
        with mock.patch.object(sys, "stdout", out), mock.patch.object(sys, "stderr", err), mock.patch.object(
            sys, "stdin", io.StringIO(lines or "")
        ):
            status = main(words)
    finally:
        os.chdir(before)
    return Ended(int(status), out.bytes.decode("utf-8", "replace"), err.bytes.decode(), out.bytes)


@contextlib.contextmanager
def folder() -> Iterator[str]:
    with tempfile.TemporaryDirectory() as room:
        yield room


def write(room: str, name: str, text: str) -> str:
    path = os.path.join(room, name)
    with open(path, "w", encoding="utf-8") as file:
        file.write(text)
    return path
