"""A difference made small: the model's state just before it as an image, few items, and what the image can do without.

The state before a turn is nearly an image. What an image cannot say (events, slots that wait or are served, loads on
their way, output, `past`) is left out, and whether the two programs still differ decides."""

from __future__ import annotations

from collections import Counter
from typing import Callable, Iterator, Optional, Sequence, TypeVar

from mm.formats.image import PAGE_BYTES, PAGE_WORDS, Image, Slot, image_bytes, page_of, read_image
from mm.lockstep.compare import Difference, is_report, item_of
from mm.lockstep.shorten import Items, Shortener
from mm.log.replay import Machine, SlotNow
from mm.machine.words import ZERO, Cell
from mm.names.numbers import counted
from mm.records import dataclass, replace

Thing = TypeVar("Thing")
# Runs both programs on an image and items.
Try = Callable[[bytes, Items], Optional[Difference]]
# The model's machine after so many turns, and the items of these turns.
Before = Callable[[int], tuple[Machine, Items]]


def kind_of(found: Difference) -> tuple[bool, bool, bool, bool, frozenset[str]]:
    """What sort of difference it is, so that a smaller case does not show another one: whether a side is at its report
    and whether it ended badly, and the first words of the lines that are not on both sides."""
    model, other = Counter(found.model or ()), Counter(found.other or ())
    heads = frozenset(line.split(" ", 1)[0] for line in (model - other) + (other - model))
    wrong = bool(found.model_wrong), bool(found.other_wrong)
    return (is_report(found.model), is_report(found.other), *wrong, heads)


def slot_of(now: SlotNow) -> Optional[Slot]:
    """A slot as an image has it; one that does not run is halted."""
    pointer = now.ip.pointer
    registers = tuple(word or ZERO for word in now.registers)
    return Slot(now.number, now.group, now.handler, now.state != "running", pointer, registers) if pointer else None


def image_of(machine: Machine) -> Image:
    """The image that is nearest to a machine's state."""
    slots = tuple(filter(None, map(slot_of, machine.slots.values())))
    pages = {}
    for number in sorted(machine.pages):
        places = {place: machine.cell(number * PAGE_BYTES + 8 * place) for place in range(PAGE_WORDS)}
        pages[number] = page_of(number, {place: cell for place, cell in places.items() if cell})
    return replace(machine.image, slots=slots, pages=pages)


@dataclass(frozen=True)
class Part:
    """A part of an image that can go: how an image has its things, and what it is without all but some of them."""

    name: str
    things: Callable[[Image], list]
    keeping: Callable[[Image, list], Image]


def with_slots(image: Image, numbers: Sequence[int]) -> Image:
    kept = [slot for slot in image.slots if slot.number in numbers]
    there = {slot.number for slot in kept}
    return replace(
        image, slots=tuple(slot if slot.handler in there else replace(slot, handler=None) for slot in kept)
    )


def registers_of(image: Image) -> list[tuple[int, int]]:
    """The registers that are not integer 0."""
    return [
        (slot.number, number) for slot in image.slots for number, word in enumerate(slot.registers) if word != ZERO
    ]


def with_registers(image: Image, kept: Sequence[tuple[int, int]]) -> Image:
    there = set(kept)
    slots = (
        replace(
            slot,
            registers=tuple(
                word if (slot.number, number) in there else ZERO for number, word in enumerate(slot.registers)
            ),
        )
        for slot in image.slots
    )
    return replace(image, slots=tuple(slots))


def cells_of(image: Image) -> list[int]:
    """The addresses of the cells that are not integer 0, full."""
    return [address for address, cell in image.cells() if cell != Cell()]


def with_cells(image: Image, kept: Sequence[int]) -> Image:
    there, pages = set(kept), {}
    for number, page in image.pages.items():
        places = {place: page.cell(place) for place in range(PAGE_WORDS) if number * PAGE_BYTES + 8 * place in there}
        pages[number] = page_of(number, places)
    return replace(image, pages=pages)


def with_pages(image: Image, kept: Sequence[int]) -> Image:
    return replace(image, pages={number: image.pages[number] for number in kept})


PARTS = (
    Part("slot", lambda image: [slot.number for slot in image.slots], with_slots),
    Part("page", lambda image: sorted(image.pages), with_pages),
    Part("register", registers_of, with_registers),
    Part("cell", cells_of, with_cells),
)


class Shrinker:
    """Looks for a small image and few items on which two programs still differ in the same way."""

    def __init__(self, attempt: Try, image: bytes, items: Items, found: Difference, tries: int) -> None:
        self.attempt, self.image, self.items, self.found = attempt, image, items, found
        self.tries, self.kind = tries, kind_of(found)

    def differs(self, image: bytes, items: Items) -> bool:
        """Whether the two differ so; then image and items are kept."""
        if self.tries <= 0:
            return False
        self.tries -= 1
        found = self.attempt(image, items)
        if found is None or kind_of(found) != self.kind:
            return False
        self.image, self.items, self.found = image, items, found
        return True

    def from_state(self, before: Before) -> int:
        """Tries the last turn alone, from the model's state before it, then the last two, four and so on. Gives how many
        turns it took; 0 if no state differs."""
        same = self.found.same
        sides = [item_of(turn) for turn in (self.found.model, self.found.other) if turn]
        lasts = list(dict.fromkeys(item for item in sides if item is not None))
        items, turns = before(same)[1] if lasts else (), 1
        while lasts and turns <= same + 1 and self.tries > 0:
            machine, _ = before(same + 1 - turns)
            image = image_bytes(image_of(machine))
            if any(self.differs(image, items[same + 1 - turns :] + (last,)) for last in lasts):
                return turns
            turns *= 2
        return 0

    def cut_items(self) -> None:
        """Leaves out items, as far as that goes."""
        shortener = Shortener(self._items_alone, self.items, self.found, self.tries)
        shortener.run()

    def _items_alone(self, items: Items) -> Optional[Difference]:
        return self.found if self.differs(self.image, items) else None

    def blank(self) -> None:
        """Leaves out slots and pages, and blanks registers and cells, as far as that goes."""
        for part in PARTS:
            image = read_image(self.image)
            things = part.things(image)
            for kept in self._fewer(things):
                self.differs(image_bytes(part.keeping(image, kept)), self.items)

    def _fewer(self, things: list[Thing]) -> Iterator[list[Thing]]:
        """Shorter lists to try, from without half of the things to without a single one; one that was taken is the
        next one's whole."""
        size = max(1, len(things))
        while things and self.tries > 0:
            at = len(things) - size
            while at > -size and self.tries > 0:
                kept = things[: max(0, at)] + things[max(0, at) + size :]
                before = self.image
                yield kept
                if self.image is not before:
                    things = kept
                at -= size
            if size == 1:
                return
            size = max(1, size // 2)

    def said(self) -> str:
        """What is left, in a few words."""
        image = read_image(self.image)
        parts = ", ".join(counted(len(part.things(image)), part.name) for part in PARTS)
        return f"{parts}; {'no one can go' if self.tries > 0 else 'it may get smaller yet'}"
