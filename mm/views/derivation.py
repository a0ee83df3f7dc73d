"""Derivations with names: how a group is granted a word."""

from __future__ import annotations

from typing import Callable

from mm.names.symbols import Symbols
from mm.views.spell import Speller
from mm.views.style import Style
from mm.why.lines import Line

# What is to be done with a word, in the words of an audit.
DONE = {"touch": "read", "write": "write"}


def answer(group: int, place: str, kind: str, granted: bool, style: Style) -> str:
    """Whether a group can use a word."""
    can = "can" if granted else style.warn("cannot")
    return f"{style.strong(f'group {group}')} {can} {DONE[kind]} {style.name(place)}"


class DerivationView:
    """Writes the lines of a derivation for people."""

    def __init__(self, lines: list[Line], symbols: Symbols, style: Style) -> None:
        self.derivation, self.symbols, self.style = lines, symbols, style
        self.speller = Speller(symbols)

    def pointer(self, line: Line) -> str:
        return self.speller.pointer(line.pointer)

    def place(self, address: int) -> str:
        return self.symbols.show(address)

    def giver(self, number: int) -> str:
        """The group of an earlier line."""
        return f"group {self.derivation[number - 1].group}"

    def reason(self, line: Line) -> str:
        """The rule by which a line follows. It names earlier lines by their numbers."""
        return REASONS[line.rule](self, *line.numbers)

    def lines(self) -> list[str]:
        """The lines in columns: number, group, pointer, and why it is granted."""
        pointers = [self.pointer(line) for line in self.derivation]
        wide, numbers = max(map(len, pointers)), len(str(len(pointers)))
        groups = max(len(str(line.group)) for line in self.derivation)
        return [
            f"  {line.number:>{numbers}}  group {line.group:<{groups}}  {self.style.name(pointer.ljust(wide))}  "
            + self.reason(line)
            for line, pointer in zip(self.derivation, pointers)
        ]


def _register(_: DerivationView, slot: int, register: int) -> str:
    return f"r{register} of slot {slot} holds it"


def _ip(_: DerivationView, slot: int) -> str:
    return f"slot {slot} runs by it"


def _cell(view: DerivationView, address: int, by: int) -> str:
    return f"it lies in {view.place(address)}, which {by} loads"


def _below(_: DerivationView, by: int) -> str:
    return f"it can be made of {by}"


def _passed(view: DerivationView, address: int, source: int, store: int, load: int) -> str:
    return f"{view.giver(source)} has it ({source}) and can store it at {view.place(address)} ({store}), where {load} loads it"


def _entered(_: DerivationView, by: int) -> str:
    return f"an entry by {by} leaves it"


def _served(view: DerivationView, slot: int, source: int) -> str:
    return f"{view.giver(source)} has it ({source}), and slot {slot} and its handler are of the two groups"


def _made(_: DerivationView, by: int) -> str:
    return f"{by} is privileged, and makes any pointer"


REASONS: dict[str, Callable[..., str]] = {
    "register": _register,
    "ip": _ip,
    "cell": _cell,
    "below": _below,
    "passed": _passed,
    "entered": _entered,
    "served": _served,
    "made": _made,
}
