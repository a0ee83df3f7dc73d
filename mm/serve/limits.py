"""What a request may ask for and take: for one person on his own machine, and for a class."""

from __future__ import annotations

import os
from dataclasses import dataclass


@dataclass(frozen=True)
class Limits:
    """Bytes of all sources together, and of one request; sources; seconds of the clock and of a processor; bytes of
    memory of each process, and of each file that it makes; cycles, shown turns and explored configurations; requests
    that are worked at, that may wait, and for how many seconds; connections; and whether C is taken."""

    bytes: int = 1 << 20
    sources: int = 16
    seconds: int = 60
    memory: int = 8 << 30
    file: int = 256 << 20
    cycles: int = 1_000_000
    turns: int = 20_000
    states: int = 1_000_000
    at_once: int = 4
    waiting: int = 16
    patience: int = 60
    connections: int = 64
    c: bool = True

    @property
    def body(self) -> int:
        """The bytes of a request: its sources, which JSON may write with six bytes for one, and a little more."""
        return 6 * self.bytes + 65_536


ONE_PERSON = Limits()


def processors() -> int:
    """How many processors this process may use."""
    return len(os.sched_getaffinity(0)) if hasattr(os, "sched_getaffinity") else os.cpu_count() or 2


def for_class(c: bool) -> Limits:
    """The limits where strangers ask: small ones, as many requests at once as there are processors, and C only if
    that was asked for."""
    return Limits(
        bytes=65_536,
        sources=8,
        seconds=10,
        memory=(8 if c else 1) << 30,
        file=64 << 20,
        cycles=100_000,
        turns=5_000,
        states=20_000,
        at_once=max(2, processors()),
        waiting=64,
        patience=20,
        connections=256,
        c=c,
    )
