"""Checks a derivation line by line: each line follows from the image and from the lines before it."""

from __future__ import annotations

from typing import Callable, Optional

from mm.formats.image import Image, Slot
from mm.machine.words import WORD_BYTES, Permission, Pointer
from mm.why.lines import Line, WrongLine

KINDS = ("touch", "write")
ENTRY = {Permission.EU: Permission.XU, Permission.EP: Permission.XP}


def is_below(made: Pointer, by: Pointer) -> bool:
    """The holder of a pointer can make the other by moving it, shortening it and giving up rights."""
    if made == by:
        return True
    inside = by.base <= made.base and made.end <= by.end
    weaker = made.permission is by.permission or made.permission in by.permission.may_become
    return not by.permission.enters and by.permission is not Permission.KEY and inside and weaker


def loads(pointer: Pointer, address: int) -> bool:
    return pointer.permission.loads and address % WORD_BYTES == 0 and pointer.covers(address, WORD_BYTES)


def stores(pointer: Pointer, address: int) -> bool:
    return pointer.permission.stores and loads(pointer, address)


class Checker:
    """Checks the lines of a derivation against an image."""

    def __init__(self, image: Image, lines: list[Line]) -> None:
        self.image, self.lines = image, lines

    def check(self) -> None:
        """Ends with `WrongLine` at the first line that does not follow, stands twice, or is of no use."""
        seen: dict[tuple[int, Pointer], int] = {}
        for line in self.lines:
            for number in line.names:
                if not 1 <= number < line.number:
                    raise WrongLine(line.number, f"{number} is not an earlier line")
            why = RULES[line.rule](self, line, *line.numbers)
            if why:
                raise WrongLine(line.number, why)
            before = seen.setdefault((line.group, line.pointer), line.number)
            if before != line.number:
                raise WrongLine(line.number, f"line {before} says the same")
        named = {number for line in self.lines for number in line.names}
        for line in self.lines[:-1]:
            if line.number not in named:
                raise WrongLine(line.number, "no later line names it")

    def line(self, number: int) -> Line:
        return self.lines[number - 1]

    def slot_of(self, number: int, group: int) -> Optional[Slot]:
        slot = self.image.slot(number)
        return slot if slot and slot.group == group else None

    def register(self, line: Line, number: int, register: int) -> Optional[str]:
        slot = self.slot_of(number, line.group)
        if slot is None:
            return f"group {line.group} has no slot {number}"
        if register >= len(slot.registers) or slot.registers[register].pointer != line.pointer:
            return f"register {register} of slot {number} does not hold this pointer"
        return None

    def ip(self, line: Line, number: int) -> Optional[str]:
        slot = self.slot_of(number, line.group)
        if slot is None:
            return f"group {line.group} has no slot {number}"
        return None if slot.ip == line.pointer else f"slot {number} does not run by this pointer"

    def cell(self, line: Line, address: int, by: int) -> Optional[str]:
        cell = self.image.cell(address) if address % WORD_BYTES == 0 else None
        if self.line(by).group != line.group or not loads(self.line(by).pointer, address):
            return f"line {by} does not load {address:014x} for group {line.group}"
        return None if cell and cell.word.pointer == line.pointer else "the cell does not hold this pointer"

    def below(self, line: Line, by: int) -> Optional[str]:
        right = self.line(by).group == line.group and is_below(line.pointer, self.line(by).pointer)
        return None if right else f"the pointer is not below that of line {by}"

    def passed(self, line: Line, address: int, source: int, store: int, load: int) -> Optional[str]:
        giver = self.line(source).group
        if self.line(source).pointer != line.pointer:
            return f"line {source} has another pointer"
        if self.line(store).group != giver or not stores(self.line(store).pointer, address):
            return f"line {store} does not store at {address:014x} for group {giver}"
        if self.line(load).group != line.group or not loads(self.line(load).pointer, address):
            return f"line {load} does not load {address:014x} for group {line.group}"
        return None

    def entered(self, line: Line, by: int) -> Optional[str]:
        gate = self.line(by).pointer
        left = ENTRY.get(gate.permission)
        right = left and self.line(by).group == line.group and line.pointer == Pointer(left, gate.log, gate.address)
        return None if right else f"an entry by line {by} does not leave this pointer"

    def served(self, line: Line, number: int, source: int) -> Optional[str]:
        slot = self.image.slot(number)
        server = self.image.slot(slot.handler) if slot and slot.handler is not None else None
        if self.line(source).pointer != line.pointer:
            return f"line {source} has another pointer"
        groups = (self.line(source).group, line.group)
        if slot is None or server is None or (slot.group, server.group) not in (groups, groups[::-1]):
            return f"slot {number} does not join groups {groups[0]} and {groups[1]}"
        return None

    def made(self, line: Line, by: int) -> Optional[str]:
        right = self.line(by).group == line.group and self.line(by).pointer.permission is Permission.XP
        return None if right else f"line {by} is not an execute-privileged pointer of group {line.group}"


RULES: dict[str, Callable[..., Optional[str]]] = {
    "register": Checker.register,
    "ip": Checker.ip,
    "cell": Checker.cell,
    "below": Checker.below,
    "passed": Checker.passed,
    "entered": Checker.entered,
    "served": Checker.served,
    "made": Checker.made,
}


def check(image: Image, lines: list[Line], group: int, address: int, kind: str) -> None:
    """Ends with `WrongLine` where the lines are no right derivation of the word for the group."""
    if not lines:
        raise WrongLine(1, "there is no line")
    Checker(image, lines).check()
    last, covers = lines[-1], stores if kind == "write" else loads
    if last.group != group:
        raise WrongLine(last.number, f"the last line is of group {last.group}")
    if not covers(last.pointer, address):
        raise WrongLine(last.number, f"the last line does not let group {group} {kind} the word {address:014x}")
