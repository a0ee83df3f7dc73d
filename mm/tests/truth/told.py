"""Images, reports and logs, read from the bytes and the lines that `mmachine` writes."""

from __future__ import annotations

from typing import Any, Optional

Cell = tuple[str, bool]
ZERO = "i" + "0" * 16
PAGE, ADDRESS = 4096, (1 << 54) - 1


def number(data: bytes, at: int, length: int) -> int:
    return int.from_bytes(data[at : at + length], "big")


def address_in(word: str) -> int:
    """The address of a pointer, as a report writes it."""
    return int(word[1:], 16) & ADDRESS


class Image:
    """Slots and cells of the bytes of an image."""

    def __init__(self, data: bytes) -> None:
        self.version, slots, pages, self.split = number(data, 4, 2), number(data, 6, 2), number(data, 10, 2), data[15] == 1
        self.slots: dict[int, dict[str, Any]] = {}
        at = 16
        for _ in range(slots):
            tags = number(data, at + 12, 2)
            words = [f"{'ip'[tags >> k & 1]}{number(data, at + 14 + 8 * k, 8):016x}" for k in range(16)]
            ip = f"p{number(data, at + 4, 8):016x}"
            self.slots[data[at]] = {"group": data[at + 1], "halted": data[at + 3] == 1, "ip": ip, "words": words}
            at += 142
        self.cells: dict[int, Cell] = {}
        self.pages: set[int] = set()
        for _ in range(pages):
            page = number(data, at, 8)
            self.pages.add(page)
            for k in range(512):
                tag, full = (data[at + base + k // 8] >> k % 8 & 1 for base in (8, 72))
                self.cells[page * PAGE + 8 * k] = (f"{'ip'[tag]}{number(data, at + 136 + 8 * k, 8):016x}", bool(full))
            at += 4232

    @property
    def groups(self) -> list[int]:
        return sorted({slot["group"] for slot in self.slots.values()})


class State:
    """The machine from an image on, by the lines of a log."""

    def __init__(self, image: Image) -> None:
        self.image, self.cells, self.pages = image, dict(image.cells), set(image.pages)

    def cell(self, address: int) -> Optional[Cell]:
        there = address // PAGE in self.pages
        return self.cells.get(address & ~7, (ZERO, True)) if there else None

    def take(self, line: str) -> None:
        """Takes what a line of a log says of pages and cells."""
        words = line.split()
        if words[0] == "page":
            page = int(words[1], 16)
            for address in range(page * PAGE, page * PAGE + PAGE, 8):
                self.cells.pop(address, None)
            (self.pages.add if words[2] == "new" else self.pages.discard)(page)
        elif words[0] == "cell":
            self.cells[int(words[1], 16)] = (words[2], words[3] == "full")


class Report:
    """The lines of a report."""

    def __init__(self, text: str) -> None:
        self.cycles, self.outputs, self.slots = 0, {}, {}
        self.pages: list[tuple[int, str]] = []
        self.cells: dict[int, Cell] = {}
        self.counts: dict[str, int] = {}
        group = slot = 0
        for words in map(str.split, text.splitlines()):
            if words[0] == "cycles":
                self.cycles = int(words[1])
            elif words[0] == "group":
                group = int(words[1])
                self.outputs[group] = ""
            elif words[0] == "o":
                self.outputs[group] += words[1]
            elif words[0] == "slot":
                slot = int(words[1])
                self.slots[slot] = self.slot(words, group)
            elif words[0] == "r":
                self.slots[slot]["words"][int(words[1])] = None if words[2] == "empty" else words[2]
            elif words[0] == "pending":
                self.slots[slot]["pending"].append((int(words[1]), words[2]))
            elif words[0] == "page":
                self.pages.append((int(words[1], 16), words[2]))
            elif words[0] == "cell":
                self.cells[int(words[1], 16)] = (words[2], words[3] == "full")
            else:
                self.counts = {name: int(value) for name, value in zip(words[1::2], words[2::2])}

    @staticmethod
    def slot(words: list[str], group: int) -> dict[str, Any]:
        fault = int(words[5]) if words[4] == "faulted" else None
        ip = words[words.index("ip") + 1]
        return {
            "group": group, "turns": int(words[3]), "state": words[4], "fault": fault, "ip": ip,
            "past": words[-1] == "past", "words": {}, "pending": [],
        }

    def same_but_turns(self, other: Report) -> bool:
        """Whether nothing but the turns of slots, cycles and counts differs."""

        def rest(report: Report) -> Any:
            slots = {key: {**slot, "turns": 0} for key, slot in report.slots.items()}
            return slots, report.outputs, report.pages, report.cells

        return rest(self) == rest(other)


class Turn:
    """A line of a trace, with its cycle, the cell that it fetched as it was before the turn, and the state then."""

    def __init__(self, line: str, cycle: int, cell: Optional[Cell], mapped: bool) -> None:
        self.line, self.cycle, self.cell, self.mapped = line, cycle, cell, mapped
        words = line.split()
        self.delivers, self.slot, self.turn, self.outcome = words[0] == "m", int(words[1]), int(words[2]), words[3:4]
        self.fault = int(words[4]) if words[3:4] == ["faulted"] else None
        found = dict(zip(words, words[1:]))
        self.fetch = int(found["fetch"], 16) if "fetch" in found else None
        kinds = [kind for kind in ("load", "loadset", "store") if kind in words]
        self.access = (kinds[0], int(found[kinds[0]], 16)) if kinds else None
        self.enters = found.get("enter")


def turns_of(log: str, image: Image, items: Optional[list[int]]) -> tuple[list[Turn], State]:
    """The turns of a log with their cycles, and the machine after them. An item that made no turn is idle."""
    state, turns, cycle = State(image), [], 0
    for line in log.splitlines():
        if line.startswith("cycles "):
            break
        if line[:2] not in ("t ", "m "):
            state.take(line)
            continue
        words = line.split()
        cycle += 1
        while items is not None and items[cycle - 1] != int(words[1]) + 128 * (words[0] == "m"):
            cycle += 1
        fetch = int(words[words.index("fetch") + 1], 16) if "fetch" in words else None
        turns.append(Turn(line, cycle, state.cell(fetch) if fetch is not None else None, fetch is not None))
    return turns, state
