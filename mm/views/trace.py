"""A trace for people: a line for each turn, with the instruction and names."""

from __future__ import annotations

from mm.machine.causes import Cause
from mm.outputs.trace import Turn
from mm.views.spell import Memory, Speller
from mm.views.style import Style

ACCESSES = {"load": "loads", "loadset": "loads and sets the bit of", "store": "stores to"}
TRIED = {"load": "tries to load", "loadset": "tries to load and to set the bit of", "store": "tries to store to"}


class TraceView:
    """Writes turns as lines, each with the memory as it was before it: instructions are those that were carried out. Where that is
    another one than the image has there, it says so."""

    def __init__(self, memory: Memory, speller: Speller, style: Style) -> None:
        self.memory, self.speller, self.style = memory, speller, style

    def outcome(self, turn: Turn) -> str:
        """What became of a turn, where it is not simply done."""
        if turn.outcome == "blocked":
            return self.style.warn("waits" + self.waited_for(turn))
        if turn.fault:
            cause = Cause.of_number(turn.fault)
            return self.style.bad(f"fault {turn.fault} {cause.title if cause else ''}".rstrip())
        return ""

    def waited_for(self, turn: Turn) -> str:
        """What a blocked turn has found otherwise than it wants it, where it tested a word."""
        if turn.address is None:
            return ""
        instruction = self.memory.instruction(turn.fetch) if turn.fetch is not None else None
        access = instruction is not None and instruction.name in ("ld", "st")
        wanted = f" to be {instruction.choice('pre')}" if instruction and access else ""
        return f" for {self.speller.symbols.show(turn.address)}{wanted}"

    def effects(self, turn: Turn) -> list[str]:
        """What a turn accessed, or tried to, and what it entered. One that was blocked has done neither."""
        said = []
        if turn.access and turn.address is not None and turn.outcome != "blocked":
            kinds = TRIED if turn.fault else ACCESSES
            said.append(f"{kinds[turn.access]} {self.speller.symbols.show(turn.address)}")
        if turn.entered:
            said.append(f"enters {self.speller.word(turn.entered)}")
        return said

    def instruction(self, turn: Turn) -> str:
        if turn.fetch is None:
            return "(nothing was fetched)"
        text = self.speller.at(self.memory, turn.fetch)
        return text if self.memory.is_images(turn.fetch) else f"{text} (changed by the run)"

    def line(self, cycle: int, turn: Turn) -> str:
        head = f"{cycle:>6}  slot {turn.slot:<2}"
        if turn.delivered is not None:
            return f"{head} {'':>6}  a load arrives in r{turn.delivered}"
        place = self.speller.symbols.show(turn.fetch) if turn.fetch is not None else "?"
        said = "; ".join(filter(None, [self.outcome(turn), *self.effects(turn)]))
        return (
            f"{head} {turn.number:>6}  {self.style.name(f'{place:<14}')}  {self.instruction(turn):<30}  {said}".rstrip()
        )

    @property
    def head(self) -> str:
        """The line over the columns."""
        return self.style.soft(f"{'cycle':>6}  {'slot':<7} {'turn':>6}  {'place':<14}  {'instruction':<30}  what it did")
