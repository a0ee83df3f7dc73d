"""Outputs of groups, up to their limit."""

from case import runs
from images import CODE, Slot

LIMITS = {1: 4096, 2: 65536}
PAGE_CODE = ("out r1",) * 511 + ("br -511",)


def cases():
    for version, limit in LIMITS.items():
        # Each round of the page is 511 bytes and a branch.
        rounds, rest = divmod(limit, 511)
        turns = rounds * 512 + rest
        slots = [
            Slot(0, PAGE_CODE, {1: 0x41}, group=0, at=CODE, log=12),
            Slot(1, ("out r1",), {1: 0x42}, group=0, handler=3, at=CODE + 0x1000),
            Slot(2, ("out r1",), {1: 0x43}, group=1, at=CODE + 0x1100),
            Slot(3, ("evt r0", "out r3"), group=2, at=CODE + 0x1200),
        ]
        yield runs(
            f"outfull-version-{version}",
            slots,
            f"0*{turns + 1} 1 2 3*2",
            [f"t 0 {turns} did", f"t 0 {turns + 1} faulted 13", "t 1 1 faulted 13", "t 2 1 did", "t 3 2 did"],
            version=version,
        )
    pair = [Slot(number, ("out r1", "br -1"), {1: 0x61 + number}, group=5 if number < 2 else 6) for number in range(3)]
    yield runs("out-of-one-group-by-two-slots", pair, "0 1 2 0*2 1*2 2*2", ["out 5 61", "out 5 62", "out 6 63"])
    yield runs("out-of-group-15", [Slot(0, ("out r1",), {1: 7}, group=15)], "0", ["out 15 07"])
    yield runs("out-of-group-63", [Slot(0, ("out r1",), {1: 7}, group=63)], "0", ["out 63 07"], version=2)
