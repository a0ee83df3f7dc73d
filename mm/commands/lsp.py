"""`mm lsp`: a language server on the standard streams."""

from __future__ import annotations

import sys
from typing import Optional

from mm.console import Console
from mm.lsp.server import Server
from mm.machine.program import Program
from mm.status import Stop


def run(console: Console) -> int:
    program: Optional[Program] = None
    try:
        program = console.program
    except Stop as stop:
        console.tell(*stop.lines, "mm: lsp: mistakes are not shown without it; all else is")
    console.out.flush()
    return Server(program, sys.stdin.buffer, sys.stdout.buffer).loop()
