"""Which version this is, as git describes it."""

from __future__ import annotations

import os
import subprocess
from typing import Optional

from mm.machine.program import CHECKOUT, find_program
from mm.status import Stop

# A package writes its version here.
WRITTEN = os.path.join(os.path.dirname(os.path.abspath(__file__)), "VERSION")


def version() -> str:
    """What was written when a package was made, or git's description of this checkout."""
    try:
        with open(WRITTEN, encoding="utf-8") as file:
            return file.read().strip()
    except OSError:
        pass
    try:
        described = subprocess.run(
            ["git", "-C", CHECKOUT, "describe", "--always", "--tags", "--dirty"],
            capture_output=True,
            text=True,
            check=False,
        )
    except OSError:
        return "unknown"
    return described.stdout.strip() if described.returncode == 0 else "unknown"


def version_lines(named: Optional[str]) -> list[str]:
    try:
        program = find_program(named).path
    except Stop:
        program = "not found"
    return [f"mm {version()}", f"mmachine: {program}"]
