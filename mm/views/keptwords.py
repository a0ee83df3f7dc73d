"""Kept words with names: runs of words, what a word can be, and who holds a pointer in an image."""

from __future__ import annotations

from typing import Callable, Iterator, Sequence

from mm.formats.image import Image
from mm.machine.words import Pointer
from mm.names.numbers import counted
from mm.names.symbols import Symbols
from mm.outputs.keeps import Form, Run
from mm.views.spell import Speller

CALLERS = "that a caller may hold"
ANY = f"any word {CALLERS}"
# What stands for more of the words that a caller may hold.
OPEN_KINDS = ("int", "ptr", "any")
NAMES_SHOWN = 6


def listed(names: Sequence[str], last: str = "and") -> str:
    """`a`, `a and b`, `a, b and c`."""
    return names[0] if len(names) == 1 else f"{', '.join(names[:-1])} {last} {names[-1]}" if names else "nothing"


def shortly(names: Sequence[str]) -> str:
    """The same, with the first names alone if there are many."""
    rest = len(names) - NAMES_SHOWN
    return listed(names) if rest < 2 else f"{', '.join(names[:NAMES_SHOWN])} and {rest} more"


class KeptWords:
    """Writes kept words by the names of an image."""

    def __init__(self, symbols: Symbols) -> None:
        self.symbols, self.speller = symbols, Speller(symbols)

    def segment(self, base: int, log: int) -> str:
        """A segment by its name, or as it is told by a number."""
        region = self.symbols.region(base)
        whole = region is not None and (region.base, region.log) == (base, log)
        return region.name if region and whole else f"{self.symbols.show(base)}/{log}"

    def runs(self, runs: Sequence[Run]) -> list[str]:
        """Runs of words, each segment of a run by itself."""
        return [self._piece(*piece) for run in runs for piece in self.pieces(run)]

    def pieces(self, run: Run) -> Iterator[Run]:
        """A run in pieces, none of which goes beyond a segment."""
        at, end = run[0], run[0] + 8 * run[1]
        while at < end:
            region = self.symbols.region(at)
            to = min(end, region.end) if region else end
            yield at, (to - at) // 8
            at = to

    def _piece(self, first: int, count: int) -> str:
        """A run in one segment. The name of a segment alone is all of it, any other place alone is a word."""
        region, name = self.symbols.region(first), self.symbols.show(first)
        begins = region is not None and first == region.base
        alone = first + 8 * count == region.end if region and begins else count == 1
        return name if alone else f"{name} ({counted(count, 'word')})"

    def form(self, form: Form) -> str:
        """What words a form stands for."""
        if form.word is not None:
            return self.speller.word(form.word)
        if form.kind in ("int", "any"):
            return "an integer" if form.kind == "int" else ANY
        permission = form.permission.short if form.permission else "?"
        if form.kind == "ptr":
            return f"any {permission} pointer {CALLERS}"
        return f"any {permission} pointer into {self.segment(form.base, form.log)}"

    def forms(self, forms: Sequence[Form]) -> str:
        """What a word can be, of all its forms: one that stands for another's words has it in it."""
        kinds = {form.kind for form in forms}
        shorts = [form.permission.short for form in forms if form.kind == "ptr" and form.permission]
        said = [self.form(form) for form in forms if not self._is_within(form, kinds)]
        if shorts and "any" not in kinds:
            said.append(f"any {listed(shorts, 'or')} pointer {CALLERS}")
        return listed(list(dict.fromkeys(said)), "or")

    @staticmethod
    def _is_within(form: Form, kinds: set[str]) -> bool:
        """Whether other forms say the same, or all of it together."""
        if form.kind == "ptr":
            return True
        is_number = form.kind == "int" or form.word is not None and not form.word.tagged
        return is_number and ("any" in kinds or form.kind == "word" and "int" in kinds)


def holders(image: Image, wanted: Callable[[Pointer], bool], symbols: Symbols) -> list[tuple[str, Pointer]]:
    """Where pointers of a kind are: registers and instruction pointers of slots that run, and words of memory."""
    found: list[tuple[str, Pointer]] = []
    for slot in image.slots:
        if slot.halted:
            continue
        held = [("ip", slot.ip), *((f"r{at}", word.pointer) for at, word in enumerate(slot.registers) if word.pointer)]
        found += [(f"{name} of slot {slot.number}", pointer) for name, pointer in held if wanted(pointer)]
    return found + [(symbols.show(address), pointer) for address, pointer in image.pointers() if wanted(pointer)]
