"""Names of a source and where they are; words and instructions as `mm` spells them, against those of `mmachine`."""

from __future__ import annotations

import re
from typing import Any, Mapping, Optional

PERMISSIONS = {"ro": 1, "rw": 2, "xu": 3, "xp": 4, "eu": 5, "ep": 6, "key": 7}
PLACE = r"([A-Za-z_]\w*(?:\+\d+)?|0x[0-9a-f]+)"
BRANCHES = ("br", "bz", "bnz", "lip")


class Names:
    """The names of one source: segments by falling length from 0x100000 on, and labels in them."""

    def __init__(self, source: Optional[str] = None) -> None:
        self.segments: dict[str, tuple[int, int, int]] = {}
        self.labels: dict[str, tuple[int, int]] = {}
        self.lines: dict[int, int] = {}
        # How many bytes each name covers: a label those up to the next one, or to the end of the words.
        self.lengths: dict[str, int] = {}
        made: list[dict[str, Any]] = []
        for at, line in enumerate((source or "").split("\n"), 1):
            code = line.split(";")[0]
            label = re.match(r"\s*(\w+)\s*:", code)
            if label:
                made[-1]["labels"].append((label[1], len(made[-1]["lines"]), at))
                code = code[label.end() :]
            words = code.replace(",", " ").split()
            if words[:1] == [".segment"]:
                made.append({"name": words[1], "log": int(words[2]), "line": at, "labels": [], "lines": []})
            elif words and words[0] == ".fill":
                made[-1]["lines"] += [at] * int(words[1])
            elif words and words[0] not in (".thread", ".reg", ".spare"):
                made[-1]["lines"].append(at)
        base = 0x100000
        for segment in sorted(made, key=lambda segment: -segment["log"]):
            self.segments[segment["name"]] = (base, segment["log"], segment["line"])
            self.labels.update({name: (base + 8 * place, line) for name, place, line in segment["labels"]})
            self.lines.update({base + 8 * place: line for place, line in enumerate(segment["lines"])})
            placed = sorted((place, line, name) for name, place, line in segment["labels"])
            ends = [*(place for place, _, _ in placed[1:]), len(segment["lines"])]
            self.lengths.update({name: 8 * max(1, end - place) for (place, _, name), end in zip(placed, ends)})
            self.lengths[segment["name"]] = 1 << segment["log"]
            base += 1 << segment["log"]

    def address(self, text: str) -> Optional[int]:
        """What a place that `mm` wrote means."""
        if text.startswith("0x"):
            return int(text, 16)
        name, _, offset = text.partition("+")
        known = self.labels.get(name) or self.segments.get(name)
        return known[0] + int(offset or 0) if known else None

    def has(self, address: int) -> bool:
        return any(base <= address < base + (1 << log) for base, log, _ in self.segments.values())

    def is_word(self, text: str, word: str) -> bool:
        """Whether a text spells a word of a report."""
        pointer = re.fullmatch(r"(ro|rw|xu|xp|eu|ep|key) 2\^(\d+) (\S+)", text)
        bits = int(word[1:], 16)
        if pointer:
            address = self.address(pointer[3])
            made = PERMISSIONS[pointer[1]] << 60 | int(pointer[2]) << 54 | (address or 0)
            return word[0] == "p" and address is not None and bits == made
        shown = re.fullmatch(r"(-?\d+)(?: '(.)'| 0x([0-9a-f]+))?", text)
        if word[0] == "p" or shown is None or int(shown[1]) % (1 << 64) != bits:
            return False
        return (shown[2] is None or ord(shown[2]) == bits) and (shown[3] is None or int(shown[3], 16) == bits)

    def is_instruction(self, text: str, said: str, address: int) -> bool:
        """Whether a text is the instruction that `mmachine dis` calls a word at an address, with labels for distances."""
        if text == said:
            return True
        ours, theirs = text.replace(",", "").split(), said.replace(",", "").split()
        if ours[:1] != theirs[:1] or ours[0] not in BRANCHES or ours[1:-1] != theirs[1:-1]:
            return False
        return self.address(ours[-1]) == address + 8 * int(theirs[-1])

    def is_there(self, text: str, cell: Optional[tuple[str, bool]], said: Mapping[str, str], address: int) -> bool:
        """Whether a text says what a cell holds, as an instruction or as none."""
        if cell is None:
            return text == "no page is here"
        known = said.get(cell[0], "")
        if cell[0][0] == "p" or known.startswith(".int"):
            return text.startswith("no instruction: ") and self.is_word(text[16:], cell[0])
        return self.is_instruction(text, known, address)
