"""The configurations of a machine by breadth: in the order of their least schedules, as `mmachine explore` has them."""

from __future__ import annotations

from typing import Iterator, Optional

from mm.explore.machine import Machine
from mm.explore.parts import Configuration, Step
from mm.formats.image import Image


class Breadth:
    """The configurations of an image's machine, up to a number. Each has with it the number of the one from which it was found,
    and the move."""

    def __init__(self, image: Image, most: int) -> None:
        self.machine, self.most = Machine(image), most
        self.found: list[Configuration] = [self.machine.start()]
        self.known = {self.found[0]: 0}
        self.origins: list[tuple[int, int]] = [(0, 0)]
        # Whether no move led to a configuration for which there was no room.
        self.all = True

    def moves(self) -> Iterator[tuple[int, int, Step, Optional[int]]]:
        """Each move from each configuration, in order: the number of the configuration, the item, what was done, and the number of
        the configuration to which it leads; none if there is no room for that."""
        for at, here in enumerate(self.found):
            for item in self.machine.moves(here):
                step, to = self.machine.move(here, item)
                yield at, item, step, self._number(to, (at, item))

    def _number(self, to: Configuration, by: tuple[int, int]) -> Optional[int]:
        """The number of a configuration, which is kept if it is new and there is room."""
        known = self.known.get(to)
        if known is None and len(self.found) < self.most:
            known = self.known[to] = len(self.found)
            self.found.append(to)
            self.origins.append(by)
        self.all = self.all and known is not None
        return known

    def schedule(self, at: int) -> tuple[int, ...]:
        """The least schedule that leads to a configuration."""
        items = []
        while at:
            at, item = self.origins[at]
            items.append(item)
        return tuple(reversed(items))
