"""An exploration in words: what each group touched and wrote by name, the faults, and the ways to end or to go on."""

from __future__ import annotations

from typing import AbstractSet, Iterator, Mapping, Optional, Sequence

from mm.explore.findings import Met, Places, Standings, Write, Written
from mm.machine.causes import Cause
from mm.names.numbers import counted
from mm.names.symbols import Symbols
from mm.outputs.exploration import ENDED, ENDLESS, STUCK, Exploration, Outcome, Reached
from mm.views.keptwords import listed
from mm.views.report import ReportView
from mm.views.spell import Speller
from mm.views.style import Style

KINDS = {
    ENDED: "ends",
    STUCK: "is stuck: slots run, and nothing changes any more",
    ENDLESS: "goes on for ever: ",
}


def slots_do(numbers: Sequence[int], one: str, several: str) -> str:
    """`slot 1 waits`, `slots 0 and 1 wait`; nothing of no slots."""
    if not numbers:
        return ""
    return f"slot {numbers[0]} {one}" if len(numbers) == 1 else f"slots {listed(list(map(str, numbers)))} {several}"


def extent(found: Exploration) -> str:
    """The first line: how many configurations, and whether these are all."""
    more = "these are all" if found.all else "there are more: what is missing below may be in those"
    return f"{counted(found.count, 'configuration')}, {more}"


class ExplorationView:
    """How an exploration is shown: without the faults that are meant, and with where faults are met and how slots stand as
    far as that was looked at."""

    def __init__(
        self,
        symbols: Symbols,
        places: Optional[Mapping[tuple[int, int], Met]] = None,
        standings: Optional[Mapping[tuple[str, int], str]] = None,
        meant: AbstractSet[int] = frozenset(),
        style: Style = Style(),
    ) -> None:
        self.symbols, self.style, self.meant = symbols, style, meant
        self.places: Places = dict(places or {})
        self.standings: Standings = dict(standings or {})

    def lines(self, found: Exploration) -> Iterator[str]:
        yield extent(found)
        for reached in found.groups:
            yield ""
            yield from self.reached(reached)
        yield from self.faults(found)
        for number, outcome in enumerate(found.outcomes, 1):
            yield ""
            yield from self.outcome(number, outcome)
        yield from self.verdict(found)

    def verdict(self, found: Exploration) -> Iterator[str]:
        """That no end was found, or that nobody is left waiting."""
        if not found.outcomes:
            yield ""
            yield "no end was found"
        elif found.all and not any(outcome.left for outcome in found.outcomes):
            yield ""
            yield "no outcome leaves a thread waiting"

    # Faults

    def faults(self, found: Exploration) -> Iterator[str]:
        """The faults that are not meant, and how many are."""
        meant = [number for _, number, _ in found.faults if number in self.meant]
        for slot, number, schedule in found.faults:
            if number not in self.meant:
                yield ""
                yield from self.fault(slot, number)
                yield f"  under the schedule {schedule}"
        if meant:
            yield ""
            yield f"{counted(len(meant), 'fault')} {'is' if len(meant) == 1 else 'are'} meant, and not shown"

    def fault(self, slot: int, number: int) -> Iterator[str]:
        """A fault with its place and the reason, as far as these are known."""
        met = self.places.get((slot, number))
        if met is None:
            cause = Cause.of_number(number)
            yield f"slot {slot} can be stopped by fault {number} {cause.title if cause else ''}: {cause.meaning if cause else ''}"
            return
        view = ReportView(met.report, met.memory, Speller(self.symbols), self.style, faults={slot: met.said})
        served = f", and slot {met.handler} serves it" if met.handler is not None else ""
        yield f"slot {slot} can be {view.state(met.slot)}{served}"
        yield from (f"  {line}" for line in view.place(met.slot) + met.said.why)

    # Words

    def reached(self, reached: Reached) -> Iterator[str]:
        yield f"group {reached.group}"
        for verb, spans in (("touches", reached.touched), ("writes", reached.wrote)):
            for first, count in spans:
                yield f"  {verb:<7} {self.words(first, count)}"

    def words(self, first: int, count: int) -> str:
        place = self.symbols.show(first)
        return place if count == 1 else f"{place} and the {counted(count - 1, 'word')} after it"

    # Outcomes

    def outcome(self, number: int, outcome: Outcome) -> Iterator[str]:
        said = {slot: self.standings[outcome.schedule, slot] for slot in outcome.states if (outcome.schedule, slot) in self.standings}
        yield f"outcome {number}: it {KINDS[outcome.kind]}{self.who(outcome)}"
        yield from (f"  {line}" for line in outcome.told(said))
        yield f"  under the schedule {outcome.schedule or 'without turns'}"

    def who(self, outcome: Outcome) -> str:
        """Which slots are busy where it goes on for ever, and which wait."""
        if outcome.kind != ENDLESS:
            return ""
        does = [slots_do(outcome.busy, "is busy", "are busy"), slots_do(outcome.waiting, "waits", "wait")]
        return ", and ".join(filter(None, does))


class WritesView:
    """Who writes a word, and how it first comes to that."""

    def __init__(self, symbols: Symbols) -> None:
        self.symbols, self.speller = symbols, Speller(symbols)

    def lines(self, found: Exploration, written: Written) -> Iterator[str]:
        word = self.symbols.show(written.word)
        writers = bool(written.writes or written.tries or written.later)
        yield extent(found)
        for write in written.writes:
            yield ""
            yield from self.write(write, word)
        for group in written.tries:
            yield ""
            yield f"group {group} tries to write {word}: each such turn is blocked or has a fault"
        for group in written.later:
            yield ""
            yield f"group {group} writes {word} or tries to, too late for a schedule to be looked for"
        yield ""
        yield f"no {'other ' if writers else ''}group writes {word}"

    def write(self, write: Write, word: str) -> Iterator[str]:
        at = write.turn.fetch or 0
        yield f"group {write.group} writes {word}, first in a turn of slot {write.turn.slot} at {self.symbols.show(at)}"
        yield f"  {self.code(write, at)}"
        yield f"  under the schedule {write.schedule}"

    def code(self, write: Write, address: int) -> str:
        """The line that the instruction at an address comes from; the instruction itself, if the run has changed it."""
        origin = self.symbols.origin(address)
        if origin and write.memory.is_images(address):
            return f"{origin}: {origin.code}"
        return f"0x{address:x}: {self.speller.at(write.memory, address)}"
