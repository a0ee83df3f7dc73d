"""What a file is, by its first bytes."""

from __future__ import annotations

from enum import Enum


class FileKind(Enum):
    """The kinds of files: the mark at the beginning, and the kind in a word."""

    IMAGE = (b"MMI1", "an image")
    OBJECT = (b"MMO1", "an object")
    CHECKPOINT = (b"MMS1", "a checkpoint")
    TEXT = (b"", "a text")

    def __init__(self, mark: bytes, title: str) -> None:
        self.mark, self.title = mark, title

    @classmethod
    def of(cls, data: bytes) -> FileKind:
        return next(kind for kind in cls if data.startswith(kind.mark))


def looks_binary(data: bytes) -> bool:
    """Whether bytes are no text at all."""
    return b"\0" in data[:4096]
