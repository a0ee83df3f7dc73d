"""Schedules: texts of slot numbers."""

from __future__ import annotations

import re
from itertools import groupby
from typing import Iterable, Iterator

from mm.records import dataclass

ITEM = re.compile(rb"(0|[1-9][0-9]{0,2})(?:\*([1-9][0-9]{0,6}))?")
RUN = re.compile(rb"#[^\n]*|[^ \t\r\n#]+")
MOST = 1_000_000
PORT = 128


@dataclass(frozen=True)
class Schedule:
    """Items with how often each is repeated, in their order."""

    runs: tuple[tuple[int, int], ...]

    @property
    def length(self) -> int:
        return sum(count for _, count in self.runs)

    def first(self, count: int) -> Schedule:
        """Its first items."""
        runs, left = [], count
        for item, times in self.runs:
            if left > 0:
                runs.append((item, min(times, left)))
            left -= times
        return Schedule(tuple(runs))

    @property
    def text(self) -> bytes:
        """A text that means it."""
        return " ".join(f"{item}*{times}" if times > 1 else str(item) for item, times in self.runs).encode()

    def items(self) -> Iterator[int]:
        for slot, count in self.runs:
            for _ in range(count):
                yield slot


def schedule_of(items: Iterable[int]) -> Schedule:
    """The schedule of some items, equal ones together."""
    return Schedule(tuple((item, sum(1 for _ in each)) for item, each in groupby(items)))


def words_of(data: bytes) -> Iterator[tuple[int, bytes]]:
    """The runs of bytes that are neither blank nor comment, each with its offset. Texts of links and events have them too."""
    for match in RUN.finditer(data):
        if not match[0].startswith(b"#"):
            yield match.start(), match[0]


def read_schedule(data: bytes) -> Schedule:
    """The list that a text means, which `mmachine` has accepted."""
    runs = []
    for _, word in words_of(data):
        item = ITEM.fullmatch(word)
        if item is None:
            raise ValueError("a word of the schedule is not an item")
        runs.append((int(item[1]), int(item[2] or 1)))
    return Schedule(tuple(runs))
