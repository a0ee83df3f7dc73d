"""Fields of a file, one after another, big-endian."""

from __future__ import annotations


class CutShort(Exception):
    """The bytes end within a field."""


class BytesReader:
    """Bytes, and how far they were read."""

    def __init__(self, data: bytes) -> None:
        self.data, self.at = data, 0

    def take(self, length: int) -> bytes:
        if self.at + length > len(self.data):
            raise CutShort
        self.at += length
        return self.data[self.at - length : self.at]

    def number(self, length: int) -> int:
        return int.from_bytes(self.take(length), "big")

    def name(self) -> str:
        return self.take(self.number(1)).decode("latin-1")


def bit_of(bitmap: bytes, place: int) -> bool:
    """An item of a bitmap, which has its lowest bit first."""
    return bool(bitmap[place >> 3] >> (place & 7) & 1)
