"""`mm dap`: a debug adapter on the standard streams."""

from __future__ import annotations

import sys

from mm.console import Console
from mm.dap.server import Server


def run(console: Console) -> int:
    console.out.flush()
    return Server(console, sys.stdin.buffer, sys.stdout.buffer).loop()
