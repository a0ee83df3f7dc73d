"""The lines of a derivation, as `mmachine why` writes them."""

from __future__ import annotations

import re

from mm.machine.words import Pointer
from mm.records import dataclass

# No number of a derivation has more digits.
NUMBER = r"(0|[1-9][0-9]{0,19})"
POINTER = r"p([0-9a-f]{16})"
ADDRESS = r"([0-9a-f]{14})"
# The whole text where the word is not granted.
NO = "no\n"
LINE = re.compile(f"{NUMBER} group {NUMBER} {POINTER} (.*)")
# Each rule: how it is written, and which of its numbers name earlier lines.
RULES = {
    "register": (re.compile(f"register {NUMBER} {NUMBER}"), ()),
    "ip": (re.compile(f"ip {NUMBER}"), ()),
    "cell": (re.compile(f"cell {ADDRESS} by {NUMBER}"), (1,)),
    "below": (re.compile(f"below {NUMBER}"), (0,)),
    "passed": (re.compile(f"passed {ADDRESS} from {NUMBER} store {NUMBER} load {NUMBER}"), (1, 2, 3)),
    "entered": (re.compile(f"entered {NUMBER}"), (0,)),
    "served": (re.compile(f"served {NUMBER} from {NUMBER}"), (1,)),
    "made": (re.compile(f"made {NUMBER}"), (0,)),
}


class WrongLine(Exception):
    """A line that is not right: its number, and why."""

    def __init__(self, number: int, why: str) -> None:
        super().__init__(number, why)
        self.number, self.why = number, why


@dataclass(frozen=True)
class Line:
    """A line of a derivation: the group is granted the pointer, by a rule with its numbers in the order in which they are written."""

    number: int
    group: int
    pointer: Pointer
    rule: str
    numbers: tuple[int, ...]

    @property
    def names(self) -> tuple[int, ...]:
        """The numbers of the lines that it names."""
        return tuple(self.numbers[place] for place in RULES[self.rule][1])


def _rule(number: int, text: str) -> tuple[str, tuple[int, ...]]:
    name = text.split(" ")[0]
    found = RULES[name][0].fullmatch(text) if name in RULES else None
    if found is None:
        raise WrongLine(number, f"`{text}` is not a rule")
    bases = [16 if name in ("cell", "passed") and place == 0 else 10 for place in range(len(found.groups()))]
    return name, tuple(int(digits, base) for digits, base in zip(found.groups(), bases))


def read_lines(text: str) -> list[Line]:
    """The lines that a text spells, numbered from 1 on."""
    if text and not text.endswith("\n"):
        raise WrongLine(text.count("\n") + 1, "the last line does not end")
    lines = []
    for number, written in enumerate(text.split("\n")[:-1], 1):
        found = LINE.fullmatch(written)
        if found is None:
            raise WrongLine(number, f"`{written}` is not a line of a derivation")
        if int(found[1]) != number:
            raise WrongLine(number, f"its number is {found[1]}")
        pointer = Pointer.of_bits(int(found[3], 16))
        if pointer is None:
            raise WrongLine(number, f"p{found[3]} is not a pointer")
        lines.append(Line(number, int(found[2]), pointer, *_rule(number, found[4])))
    return lines
