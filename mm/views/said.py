"""What is said of a fault."""

from __future__ import annotations

from typing import Optional

from mm.records import dataclass, field


@dataclass(frozen=True)
class FaultSaid:
    """A fault in words: in those of C if there is a line of C, and why."""

    of_c: Optional[str] = None
    why: list[str] = field(default_factory=list)
