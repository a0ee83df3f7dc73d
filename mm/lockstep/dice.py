"""Random choices. A seed gives the same ones with every Python: they are made from `getrandbits` alone."""

from __future__ import annotations

import random
from typing import Sequence, TypeVar

Thing = TypeVar("Thing")


class Dice:
    """A row of random numbers from a seed."""

    def __init__(self, seed: str) -> None:
        self.random = random.Random(seed)

    def bits(self, count: int) -> int:
        return self.random.getrandbits(count)

    def below(self, limit: int) -> int:
        """0 to less than a limit."""
        count = (limit - 1).bit_length()
        while True:
            found = self.bits(count) if count else 0
            if found < limit:
                return found

    def between(self, low: int, high: int) -> int:
        """From one number to another, both of them possible."""
        return low + self.below(high - low + 1)

    def chance(self, percent: int) -> bool:
        return self.below(100) < percent

    def one(self, things: Sequence[Thing]) -> Thing:
        return things[self.below(len(things))]

    def weighed(self, table: Sequence[tuple[Thing, int]]) -> Thing:
        """One of a table, which has beside each thing how often it comes."""
        left = self.below(sum(weight for _, weight in table))
        for thing, weight in table:
            left -= weight
            if left < 0:
                return thing
        raise AssertionError("a weight is below 0")

    def some(self, things: Sequence[Thing], count: int) -> list[Thing]:
        """So many different places of a list, in its order."""
        places: set[int] = set()
        while len(places) < count:
            places.add(self.below(len(things)))
        return [things[place] for place in sorted(places)]
