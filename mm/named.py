"""Files as their users named them."""

from __future__ import annotations

from typing import Mapping, Optional

from mm.records import dataclass, field


@dataclass(frozen=True)
class NamedFile:
    """A file as its user named it, with its bytes. `moved` has the offsets of items that stand elsewhere in what `mmachine` was given.
    `parts` are the files that an image was linked from, and `threads` those that have the threads of its slots."""

    name: str
    data: bytes
    events: bool = False
    moved: Mapping[int, int] = field(default_factory=dict)
    parts: tuple[str, ...] = ()
    threads: Mapping[int, str] = field(default_factory=dict)

    def of_slot(self, slot: Optional[int]) -> str:
        """The name of the file that has the thread of a slot; of all files where none is meant."""
        found = self.threads.get(slot) if slot is not None else None
        return found or ", ".join(self.parts) or self.name
