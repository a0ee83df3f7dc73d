"""How many lines the shortest derivation has. It looks at all ways, so it is for images with few pointers."""

from __future__ import annotations

from collections import defaultdict
from typing import Iterable, Iterator, Optional

from mm.formats.image import Image
from mm.machine.words import ADDRESS_BITS, WORD_BYTES, Permission, Pointer
from mm.why.check import ENTRY, loads, stores

# A group, and a pointer that it is granted.
Fact = tuple[int, Pointer]
# What a line rests on.
Way = frozenset[Fact]
# What privileged code can make reaches everything, so it needs to make nothing else.
EVERYTHING = Pointer(Permission.RW, ADDRESS_BITS, 0)
# The most pointers in the cells of an image with few of them.
FEW = 200


class TooMany(Exception):
    """There are more ways than it was to look at."""


class Grants:
    """All that the groups of an image are granted, and each way by which a line can follow from others.

    A pointer below another one is left out: the other one does all that it does."""

    def __init__(self, image: Image) -> None:
        self.cells = pointers_in(image)
        self.served = {
            (slot.group, server.group)
            for slot in image.slots
            for server in [image.slot(slot.handler) if slot.handler is not None else None]
            if server
        }
        self.pointers: dict[int, set[Pointer]] = defaultdict(set)
        held = ((slot.group, [slot.ip, *(word.pointer for word in slot.registers)]) for slot in image.slots)
        self.begun = {(group, pointer) for group, pointers in held for pointer in pointers if pointer}
        found = set(self.begun)
        while found:
            for group, pointer in found:
                self.pointers[group].add(pointer)
            found = {fact for fact, _ in self.steps() if fact[1] not in self.pointers[fact[0]]}
        self.ways: dict[Fact, set[Way]] = defaultdict(set)
        for fact in self.begun:
            self.ways[fact].add(frozenset())
        for fact, way in self.steps():
            if fact not in way and fact not in self.begun:
                self.ways[fact].add(way)
        self.least = {fact: least(ways) for fact, ways in self.ways.items()}

    def steps(self) -> Iterator[tuple[Fact, Way]]:
        """Each pointer that follows from those that are granted, with what it follows from."""
        granted = {group: list(pointers) for group, pointers in self.pointers.items()}
        for group, pointers in granted.items():
            for pointer in pointers:
                rests = frozenset([(group, pointer)])
                for address, there in self.cells:
                    if loads(pointer, address):
                        yield (group, there), rests
                if pointer.permission in ENTRY:
                    yield (group, Pointer(ENTRY[pointer.permission], pointer.log, pointer.address)), rests
                if pointer.permission is Permission.XP:
                    yield (group, EVERYTHING), rests
                for one, other in self.served:
                    for giver, taker in ((one, other), (other, one)):
                        if giver == group:
                            yield (taker, pointer), rests
        for giver, given in granted.items():
            for taker, taken in granted.items():
                if giver == taker:
                    continue
                for store in given:
                    for load in taken:
                        if meet(store, load):
                            for pointer in given:
                                yield (taker, pointer), frozenset([(giver, pointer), (giver, store), (taker, load)])

    def shortest(self, group: int, address: int, kind: str, most: int) -> Optional[int]:
        """How many lines the shortest derivation of at most `most` lines has; none if there is none."""
        covers = stores if kind == "write" else loads
        goals = [(group, pointer) for pointer in self.pointers[group] if covers(pointer, address)]
        search = Search(self.least)
        for count in range(1, most + 1):
            if any(search.derives({}, (goal,), count) for goal in goals):
                return count
        return None


class Search:
    """A search through the ways, up to a number of steps."""

    def __init__(self, ways: dict[Fact, list[Way]], steps: int = 200_000) -> None:
        self.ways, self.left = ways, steps

    def derives(self, chosen: dict[Fact, Way], wanted: tuple[Fact, ...], count: int) -> bool:
        """Whether the wanted facts follow, so that they and all that was chosen are at most `count`."""
        if not wanted:
            return True
        self.left -= 1
        if self.left < 0:
            raise TooMany
        fact = min(wanted, key=lambda fact: len(self.ways[fact]))
        others = tuple(other for other in wanted if other != fact)
        for way in self.ways[fact]:
            more = tuple(need for need in way if need not in chosen and need not in others)
            fits = len(chosen) + 1 + len(others) + len(more) <= count
            if fits and not any(rests_on(chosen, need, fact) for need in way):
                if self.derives({**chosen, fact: way}, others + more, count):
                    return True
        return False


def pointers_in(image: Image) -> list[tuple[int, Pointer]]:
    """The pointers in the cells of an image, with their addresses."""
    return [(address, cell.word.pointer) for address, cell in image.cells() if cell.word.pointer]


def meet(one: Pointer, other: Pointer) -> bool:
    """There is a word at which one stores and the other loads."""
    first = max(one.base, other.base)
    first += -first % WORD_BYTES
    return stores(one, first) and loads(other, first)


def rests_on(chosen: dict[Fact, Way], fact: Fact, other: Fact) -> bool:
    return fact == other or any(rests_on(chosen, need, other) for need in chosen.get(fact, ()))


def least(ways: Iterable[Way]) -> list[Way]:
    """The ways that need no more than another one, the shortest first."""
    kept: list[Way] = []
    for way in sorted(ways, key=len):
        if not any(other <= way for other in kept):
            kept.append(way)
    return kept
