"""The frame of a function on the stack."""

from __future__ import annotations

from mm.cc.allocation import Allocation
from mm.cc.code import FRAME, LINK, Call, Code


class Frame:
    """Where everything stands in a frame, from the stack pointer on: outgoing words, slots, saved registers,
    objects."""

    def __init__(self, code: Code, allocation: Allocation, link: bool) -> None:
        outgoing = 0
        for block in code.blocks:
            for op in block.body:
                if isinstance(op.extra, Call) and op.name == "call":
                    outgoing = max(outgoing, len(op.extra.stacked) + len(op.extra.words))
        self.outgoing = 8 * outgoing
        self.slots = self.outgoing
        at = self.slots + 8 * allocation.slots
        self.saved: dict[int, int] = {}
        for register in allocation.used_kept + ([FRAME] if code.dynamic else []) + ([LINK] if link else []):
            self.saved[register] = at
            at += 8
        log = max((made.log for made in code.objects), default=3)
        self.align = 1 << log
        self.aligned = log > 3 or code.dynamic
        if self.aligned:
            self.old = at
            at += 8
        for made in sorted(code.objects, key=lambda made: made.log):
            at = -(-at >> made.log) << made.log
            made.at = at
            at += 1 << made.log
        self.size = -(-at >> log) << log if self.aligned else at
