"""A schedule on which two programs differ, cut down while they still do."""

from __future__ import annotations

from typing import Callable, Optional

from mm.lockstep.compare import Difference

Items = tuple[int, ...]
Try = Callable[[Items], Optional[Difference]]
# How often the two programs are run at most, unless it is said.
MOST_TRIES = 600


class Shortener:
    """Looks for a shorter schedule. Where it ends by itself, no single item of the schedule can be left out."""

    def __init__(self, attempt: Try, items: Items, found: Difference, most: int = MOST_TRIES) -> None:
        self.attempt, self.items, self.found = attempt, items, found
        self.tries, self.most = 0, most

    def differs(self, items: Items) -> bool:
        """Whether the two differ on these items; then these are kept."""
        self.tries += 1
        found = self.attempt(items)
        if found:
            self.items, self.found = items, found
        return found is not None

    def cut_end(self) -> None:
        """Leaves out all items after the one that makes the difference: fewer items have a front part of the log."""
        low, high = 0, len(self.items)
        whole = self.items
        while low < high and self.tries < self.most:
            middle = (low + high) // 2
            if self.differs(whole[:middle]):
                high = middle
            else:
                low = middle + 1

    def cut_parts(self) -> None:
        """Leaves out parts: halves first, then shorter ones, at last single items until none can go."""
        size = max(1, len(self.items) // 2)
        while self.tries < self.most:
            before = len(self.items)
            self._without(size)
            if size > 1:
                size = max(1, size // 2)
            elif len(self.items) == before:
                return

    def _without(self, size: int) -> None:
        """Leaves out each part of a size, from the end on, if that can go."""
        at = len(self.items) - size
        while at > -size and self.tries < self.most:
            start = max(0, at)
            self.differs(self.items[:start] + self.items[at + size :])
            at -= size

    def run(self) -> bool:
        """Shortens. Whether it came to its end, and was not stopped at the number of tries."""
        self.cut_end()
        self.cut_parts()
        return self.tries < self.most
