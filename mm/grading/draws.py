"""Inputs that are drawn for each grading: a program that knows the results of some inputs does not know those of these.

The numbers come from a seed, so that the same seed draws them again."""

from __future__ import annotations

import random
import re
from dataclasses import dataclass
from typing import Optional, Sequence

from mm.machine.words import ADDRESS_LIMIT, LONGEST, Permission, Pointer
from mm.names.numbers import number_of

# How many times a run with drawn inputs is made: each time with others.
TIMES = 3
# A new seed is below this, so that people can type it.
SEEDS = 1_000_000
RANDOM, POINTER = "random", "pointer"
RANGE = re.compile(r"(-?\w+)\.\.(-?\w+)")
MANY = re.compile(r"(.+)\*(\d{1,4})")
OF_USERS = (Permission.RO, Permission.RW, Permission.XU, Permission.EU, Permission.KEY)
LEAST, MOST = 0, (1 << 64) - 1
SMALL = 1 << 31


def new_seed() -> int:
    """A seed that nobody knows before."""
    return random.SystemRandom().randrange(SEEDS)


@dataclass(frozen=True)
class Draw:
    """What a word of a line `put` has drawn: so many integers from the least to the greatest, or a pointer."""

    least: int = LEAST
    most: int = MOST
    times: int = 1
    is_pointer: bool = False


def draw_in(word: str) -> Optional[Draw]:
    """What a word has drawn: `random`, `65..90`, `random*4`, `pointer`; none if nothing is."""
    many = MANY.fullmatch(word)
    one, times = (many[1], int(many[2])) if many else (word, 1)
    if one in (RANDOM, POINTER):
        return Draw(times=times, is_pointer=one == POINTER)
    found = RANGE.fullmatch(one)
    least, most = (number_of(found[1]), number_of(found[2])) if found else (None, None)
    return None if least is None or most is None else Draw(least, most, times)


def not_put(word: str, of_register: bool) -> Optional[str]:
    """Why a word is not a value of a line `put`, if it is none."""
    draw = draw_in(word)
    if draw is None:
        is_number = number_of(word) is not None
        return None if is_number else f"`{word}` is not a number, nor a range as `65..90`, nor `{RANDOM}`"
    if draw.is_pointer and not of_register:
        return "a pointer is drawn for a register alone"
    if draw.times > 1 and of_register:
        return f"`{word}` is several words, and a register has one"
    return f"`{word}` has no numbers: the least comes first" if draw.least > draw.most else None


class Dice:
    """Draws for one run of a line `hidden`, the first, the second and so on."""

    def __init__(self, seed: int, line: int, time: int) -> None:
        self.random = random.Random(f"{seed} {line} {time}")

    def words(self, words: Sequence[str]) -> tuple[str, ...]:
        """Words of a line `put`, with what is drawn in the place of each that has something drawn."""
        return tuple(drawn for word in words for drawn in self._drawn(word))

    def _drawn(self, word: str) -> list[str]:
        draw = draw_in(word)
        if draw is None:
            return [word]
        if draw.is_pointer:
            return [POINTER, hex(self._pointer().bits)]
        numbers = [self.random.randint(draw.least, draw.most) for _ in range(draw.times)]
        return [str(number) if -SMALL < number < SMALL else hex(number) for number in numbers]

    def _pointer(self) -> Pointer:
        """A pointer with any permission for users, to any segment."""
        permission = self.random.choice(OF_USERS)
        return Pointer(permission, self.random.randint(0, LONGEST), self.random.randrange(ADDRESS_LIMIT))
