"""What a page of `mm view` shows, read from a browser, and compared with what `mmachine run` reports at the same cycle."""

from __future__ import annotations

from itertools import islice, zip_longest
from typing import Any, Iterator, Mapping, Optional

from mm.build import Built
from mm.machine.causes import Cause
from mm.machine.words import Cell, Word
from mm.names.numbers import counted
from mm.outputs.report import Report, SlotState
from mm.outputs.trace import Turn
from mm.tests.browser import Browser
from mm.view.cdata import MOST_LEAVES
from mm.views.cvalues import CThing, CValues
from mm.views.spell import Memory, Speller, bytes_as_text

# What is shown: texts as a reader sees them.
READ = """(() => {
  const text = (it) => it ? it.textContent.replace(/\\s+/g, ' ').trim() : null, all = (from, what) => [...from.querySelectorAll(what)];
  const rows = (card) => all(card, 'tr[data-register]').map((row) => [row.dataset.register, text(row.cells[1])]);
  return {
    place: Number(document.documentElement.dataset.place),
    now: Number(document.getElementById('timeline').getAttribute('aria-valuenow')),
    said: document.getElementById('timeline').getAttribute('aria-valuetext'),
    slots: all(document, '.card').map((card) => ({ slot: Number(card.dataset.slot), state: text(all(card, '.state')[1]), words: rows(card), pending: text(card.querySelector('.pending')) })),
    cells: all(document, '.cells tr[data-address]').map((row) => [Number(row.dataset.address), text(row.cells[1]), text(row.cells[2])]),
    outputs: all(document, '.group-out').map((group) => [Number(group.dataset.group), group.querySelector('.text') ? group.querySelector('.text').textContent : '""']),
    queues: all(document, '#events > div').map((queue) => [Number(queue.dataset.queue), all(queue, 'li').map(text)]),
    turn: text(document.getElementById('turn')),
    variables: all(document, '.variables tbody tr').map((row) => [text(row.cells[0]), text(row.cells[1])]),
    line: text(document.querySelector('#lines li.now')),
  };
})()"""
STATES = {"waiting": "faulted, waits for its handler", "taken": "faulted, its handler has it"}


def state_seen(slot: SlotState) -> str:
    cause = Cause.of_number(slot.fault) if slot.fault else None
    state = f"stopped by fault {cause.number} {cause.title}" if cause else STATES.get(slot.state, slot.state)
    return f"{state}, {counted(slot.turns, 'turn')}"


def parts(values: CValues, name: str, thing: CThing) -> Iterator[tuple[str, str]]:
    """The parts of a variable of C, and what the debugger says of each."""
    kind = thing.kind
    inner = thing.types.get(kind.inner)
    if kind.kind in ("struct", "union"):
        for part in kind.fields:
            yield from parts(values, f"{name}.{part.name}", values.member(thing, part))
    elif kind.kind == "array" and thing.address is not None and not (inner and (inner.kind, inner.size) == ("base", 1)):
        size = thing.types.size(kind.inner)
        for place in range(kind.count):
            part = CThing(thing.types, kind.inner, thing.address + place * size)
            yield from parts(values, f"{name}[{place}]", part)
    else:
        yield name, " ".join(values.spell(thing).split())


class Seen:
    """A page at one moment."""

    def __init__(self, browser: Browser, built: Built) -> None:
        self.shown: Any = browser.run(READ)
        self.image, self.speller = built.image, Speller(built.symbols)

    def differences(self, report: Report) -> Iterator[str]:
        """What the page shows otherwise than a report has it."""
        yield from self._slots(report)
        yield from self._cells(report)
        outputs = [[group, bytes_as_text(data)] for group, data in report.outputs.items()]
        if sorted(self.shown["outputs"]) != outputs:
            yield f"outputs: {self.shown['outputs']} and not {outputs}"
        yield from self._queues(report)

    def _queues(self, report: Report) -> Iterator[str]:
        """The queue of a handler has an event of each slot that waits for it."""
        handlers = {slot.number: slot.handler for slot in self.image.slots}
        wanted: dict[int, set[str]] = {handler: set() for handler in handlers.values() if handler in handlers}
        for slot in report.slots:
            if slot.state == "waiting":
                wanted[handlers[slot.number]].add(f"slot {slot.number}")
        shown = {handler: {event.split(",")[0] for event in events} for handler, events in self.shown["queues"]}
        if shown != wanted:
            yield f"queues: {shown} and not {wanted}"

    def variable_differences(self, report: Report, turn: Optional[Turn]) -> Iterator[str]:
        """Which variables of C are shown otherwise than the debugger has them. Of a text the page shows the pointer
        alone."""
        slot = next((slot for slot in report.slots if turn and slot.number == turn.slot), None)
        if slot is None:
            return
        values = CValues(slot, Memory.after(self.image, report), self.speller)
        if not values.frames:
            return
        known = values.locals() if values.frames[0].line else ()
        here = [part for name, thing in known for part in islice(parts(values, name, thing), MOST_LEAVES)]
        shown = [(name, text) for name, text in self.shown["variables"] if text != "not there"]
        for (name, text), (wanted, value) in zip_longest(shown, here, fillvalue=("nothing", "")):
            if name != wanted or text != value and not value.startswith(f'{text} "'):
                yield f"variable {name} is {text!r}, and of the debugger {wanted} {value!r}"

    def turn_differences(self, cycle: int, turn: Optional[Turn], in_c: bool) -> Iterator[str]:
        """What is said otherwise of a turn than the trace has it: who took it, where, and its line; `in_c` where lines
        of C are wanted."""
        if turn is None:
            return
        wanted = [f"Cycle {cycle}: slot {turn.slot}, its turn {turn.number}"]
        if turn.delivered is not None:
            wanted = [f"Cycle {cycle}: the port of slot {turn.slot}", f"a load arrives in r{turn.delivered}"]
        if turn.fetch is not None:
            wanted.append(f"at {self.speller.symbols.show(turn.fetch)}")
            wanted += self._of_c(turn.fetch)
        if turn.fault:
            wanted.append(f"fault {turn.fault} {Cause.of_number(turn.fault).title}")
        for words in wanted:
            if words not in self.shown["turn"]:
                yield f"the turn does not say {words!r} but {self.shown['turn'][:200]!r}"
        if f"Cycle {cycle}, slot {turn.slot}" not in self.shown["said"]:
            yield f"a screen reader is told {self.shown['said']!r}"
        yield from self._line(turn, in_c)

    def _of_c(self, address: int) -> Iterator[str]:
        """The line of C at an address, and its function."""
        line, function = self.speller.symbols.c_line(address), self.speller.symbols.c_function(address)
        if line and function:
            yield " ".join(f"{line}, in {function.inner_name(line.inner)}: {line.text}".split())

    def _line(self, turn: Turn, in_c: bool) -> Iterator[str]:
        """The line that is marked in the source."""
        symbols, address = self.speller.symbols, turn.fetch
        origin = symbols.origin(address) if address is not None else None
        if address is None or origin is None:
            return
        made = symbols.c_line(address) if in_c else None
        text, number = (made.text, made.line) if made and made.file else (origin.text, origin.line)
        shown = "".join((self.shown["line"] or "").split())
        # Between the number and the text stand the slots that are there.
        if not (shown.startswith(str(number)) and shown.endswith("".join(text.split()))):
            yield f"the marked line is {self.shown['line']!r} and not {number}: {text!r}"

    def _slots(self, report: Report) -> Iterator[str]:
        cards = {card["slot"]: card for card in self.shown["slots"]}
        if set(cards) != {slot.number for slot in report.slots}:
            yield f"the slots are {sorted(cards)}"
            return
        for slot in report.slots:
            card = cards[slot.number]
            if card["state"] != state_seen(slot):
                yield f"slot {slot.number}: {card['state']!r} and not {state_seen(slot)!r}"
            yield from self._words(slot, dict(card["words"]))
            pending = ", ".join(f"r{register} = {self.speller.word(word)}" for register, word in slot.pending)
            if (card["pending"] or "") != (f"on their way: {pending}" if pending else ""):
                yield f"slot {slot.number}: pending {card['pending']!r}"

    def _words(self, slot: SlotState, shown: Mapping[str, str]) -> Iterator[str]:
        wanted = {f"r{number}": self.speller.register(word) for number, word in slot.registers.items()}
        wanted["ip"] = self.speller.word(slot.ip) + (" past its end" if slot.past else "")
        for name in sorted({*wanted, *shown}):
            text = wanted.get(name, self.speller.word(Word(0)))
            if shown.get(name) != text:
                yield f"slot {slot.number}, {name}: {shown.get(name)!r} and not {text!r}"

    def _texts(self, memory: Memory, address: int, cell: Optional[Cell]) -> set[str]:
        """How a word may be shown: as what it is, and in code as an instruction too."""
        if cell is None:
            return {"no page is here"}
        return {self.speller.word(cell.word), self.speller.at(memory, address)}

    def _cells(self, report: Report) -> Iterator[str]:
        memory = Memory.after(self.image, report)
        shown = {address: (bit, text) for address, bit, text in self.shown["cells"]}
        for address in sorted({*shown, *report.cells}):
            cell = memory.cell(address)
            bit, text = shown.get(address, ("", "no row"))
            wanted = "" if cell is None else "● full" if cell.full else "○ empty"
            if bit != wanted or text not in self._texts(memory, address, cell):
                yield f"{self.speller.symbols.show(address)}: {bit} {text!r} and not {cell}"
