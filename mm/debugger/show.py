"""What the debugger writes: where a run stands, slots, registers, memory and source lines."""

from __future__ import annotations

from typing import TYPE_CHECKING, Callable, Iterator, Optional

from mm.debugger.arithmetic import BITS
from mm.debugger.cexpressions import c_thing
from mm.debugger.forms import in_form
from mm.debugger.points import PointKind
from mm.debugger.session import Halt, Session
from mm.machine.causes import Cause
from mm.machine.words import Cell, Word
from mm.names.numbers import counted
from mm.outputs.report import SlotState
from mm.source.tokens import readable
from mm.views.cvalues import CValues
from mm.views.faults import said_of
from mm.views.report import ReportView, stuck_verdict
from mm.views.spell import Memory, bytes_as_text
from mm.views.style import Style
from mm.views.trace import TraceView
from mm.views.waiting import what_for

if TYPE_CHECKING:
    from mm.names.clines import CLine

AROUND = 5
# The states of a slot after a fault, which are told by verbs of their own.
FAULTED = ("faulted", "waiting", "taken")
BYTES_SHOWN = 256


class Show:
    """Writes the state of a session as lines."""

    def __init__(self, session: Session, style: Style) -> None:
        self.session, self.style = session, style

    def place(self, address: int) -> str:
        """`copy+24, bug.asm:6:  leai r1, r1, 8`."""
        session = self.session
        origin = session.symbols.origin(address)
        text = session.speller.at(session.memory, address)
        where = self.style.name(session.symbols.show(address))
        line = session.symbols.c_line(address)
        if line:
            where += f"  {self.style.soft(str(line) + ':')}  {line.text}  |"
        if origin and session.memory.is_images(address):
            return f"{where}  {self.style.soft(str(origin) + ':')}  {origin.code}"
        return f"{where}:  {text}"

    def slot_line(self, slot: SlotState) -> str:
        """Where a slot stands, and what it would do next."""
        ip = slot.ip.pointer
        head = self.style.strong(f"slot {slot.number}")
        if slot.running and ip:
            return f"{head} is {'past the end of its segment' if slot.past else 'at ' + self.place(ip.address)}"
        session = self.session
        view = ReportView(session.report, session.memory, session.speller, self.style, faults=session.faults)
        return f"{head} {'' if slot.state in FAULTED else 'is '}{view.state(slot)}"

    def did(self, halt: Halt) -> Iterator[str]:
        """The turn that was the last."""
        turn, session = halt.turn, self.session
        if turn is None:
            return
        if turn.delivered is not None:
            yield f"slot {turn.slot}: a load arrives in r{turn.delivered}"
            return
        view = TraceView(session.memory_at(halt.cycle - 1), session.speller, self.style)
        said = "; ".join(filter(None, [view.outcome(turn), *view.effects(turn)]))
        yield f"slot {turn.slot} did {view.instruction(turn)}" + (f"    ({said})" if said else "")

    def reason(self, halt: Halt) -> Iterator[str]:
        """Why a run stopped at a point."""
        point = halt.point
        if point is None:
            return
        if point.kind is PointKind.FAULT and halt.turn and halt.turn.fault:
            cause = Cause.of_number(halt.turn.fault)
            slot = self.session.report.slot(halt.turn.slot)
            if cause and slot:
                past = self.session.history.past(halt.cycle, slot.number)
                said = said_of(cause, slot, halt.turn, self.session.memory, self.session.speller, past)
                yield self.style.bad(said.of_c or f"fault {cause.number} {cause.title}: {cause.meaning}")
                yield from (f"  {line}" for line in said.why)
        elif point.kind.before:
            yield self.style.good(f"break {point.number}: {point.text or self.session.symbols.show(point.address)}")
        elif point.kind.has_place and halt.turn and halt.turn.address is not None:
            change = self.c_change(point.text) or self.change(halt.turn.address)
            yield self.style.good(f"{point.kind.title} {point.number}: {point.text}") + change
        else:
            yield self.style.good(f"{point.kind.title} {point.number}")

    def trouble(self, halt: Halt) -> Iterator[str]:
        """That the condition of the point could not be reckoned, with the reason."""
        if halt.trouble:
            yield self.style.warn(halt.trouble)

    @property
    def memory_before(self) -> Memory:
        """The memory before the last cycle."""
        return self.session.memory_at(self.session.total - 1)

    def c_change(self, text: str) -> Optional[str]:
        """What a variable of C was before the last cycle, and what it is; none if the text names none."""
        slot, values = self.session.current, self.session.values
        thing = c_thing(text, values) if values and not text.startswith("&") else None
        if thing is None or not thing.type or slot is None or values is None:
            return None
        before = CValues(slot, self.memory_before, self.session.speller).spell(thing)
        after = values.spell(thing)
        return f"  {text} is {after}" if before == after else f"  {text} was {before}, and is {after}"

    def change(self, address: int) -> str:
        """What a word was before the last cycle, and what it is."""
        before = self.memory_before.cell(address)
        after = self.session.memory.cell(address)
        name = self.session.symbols.show(address)
        if before == after:
            return f"  {name} is {self.cell(after)}"
        return f"  {name} was {self.cell(before)}, and is {self.cell(after)}"

    def cell(self, cell: Optional[Cell], form: str = "") -> str:
        if cell is None:
            return "on no page"
        said = in_form(form, cell.word, BITS, self.session.symbols) if form else None
        return (said or self.session.speller.word(cell.word)) + ("" if cell.full else " (empty)")

    def stop(self, halt: Halt) -> Iterator[str]:
        """All that is told after a move: the cycle, the turn, the reason, where the slot stands, and who is next."""
        session = self.session
        current, turn = session.current, session.next_turn
        yield from self.reason(halt)
        yield from self.trouble(halt)
        yield from self.did(halt)
        ended = turn is None
        yield f"{self.style.soft(f'cycle {session.total}')}{', the end of the run (`run` begins again, `back` goes back)' if ended else ''}"
        if ended and session.history.stuck:
            yield stuck_verdict(sum(slot.running for slot in session.report.slots), any(slot.pending for slot in session.report.slots))
            yield from (
                f"  slot {slot.number} is {what_for(slot, session.memory, session.speller)}"
                for slot in session.report.slots
                if slot.running
            )
        elif current:
            yield self.slot_line(current)
        if turn and turn.slot != session.slot:
            other = session.report.slot(turn.slot)
            if other:
                yield f"next: {self.slot_line(other)}"

    def registers(self, slot: SlotState) -> Iterator[str]:
        yield self.slot_line(slot)
        ip = slot.ip.pointer
        yield f"  ip   {self.session.speller.pointer(ip) if ip else slot.ip}{', past' if slot.past else ''}"
        for number, word in sorted(slot.registers.items()):
            yield f"  {f'r{number}':<4} {self.session.speller.register(word)}"
        if not slot.registers:
            yield "  all registers are 0"

    def slots(self) -> Iterator[str]:
        for slot in self.session.report.slots:
            mark = "*" if slot.number == self.session.slot else " "
            yield f"{mark} {self.slot_line(slot)}  (group {slot.group}, {counted(slot.turns, 'turn')})"

    def points(self) -> Iterator[str]:
        for point in self.session.points:
            where = f" at {self.session.symbols.show(point.address)}" if point.kind.has_place else ""
            yield f"{point.number:>3}  {point}{where}" + (
                f"  (met {counted(point.hits, 'time')})" if point.hits else ""
            )
            yield from (f"       {line}" for line in point.commands)
        if not self.session.points:
            yield "no breaks and no watches"

    def output(self) -> Iterator[str]:
        for group, data in self.session.report.outputs.items():
            more = f" .. {len(data) - BYTES_SHOWN} more bytes" if len(data) > BYTES_SHOWN else ""
            yield f"group {group}  {bytes_as_text(data[:BYTES_SHOWN])}{more}"

    def memory(self, address: int, count: int, form: str = "") -> Iterator[str]:
        """Words from an address on: as they are best read, as instructions, or in a form."""
        memory, session = self.session.memory, self.session
        rows = [(session.symbols.show(at), at) for at in range(address, address + 8 * count, 8)]
        width = max(len(name) for name, _ in rows)
        for name, at in rows:
            said = session.speller.at(memory, at) if form == "i" else self.cell(memory.cell(at), form)
            yield f"  {self.style.name(name.ljust(width))}  {said}"

    def word(self, word: Word) -> str:
        """A word at length: the number in both bases, or the pointer with its segment."""
        pointer = word.pointer
        if pointer is None:
            text, digits = self.session.speller.word(word), f"0x{word.bits:x}"
            return text if text.endswith(digits) else f"{text}   ({digits})"
        speller = self.session.speller
        return f"{speller.pointer(pointer)}   ({pointer.permission.full}, {speller.reach(pointer)}, at 0x{pointer.address:x})"

    def source(self, address: int) -> Iterator[str]:
        """The source around the line of an address, that in C where it is there, or the instructions around it."""
        of_c = self.session.symbols.c_line(address)
        if of_c and of_c.file:
            yield from self.of_c(of_c)
            return
        origin = self.session.symbols.origin(address)
        region = self.session.symbols.region(address)
        if origin and region and region.source:
            yield from self.lines(region.source.lines, origin.line, origin.line, readable)
            return
        first = max(address - 8 * AROUND, region.base if region else 0)
        yield from self.memory(first, 2 * AROUND + 1, "i")

    def listed(self, path: str, lines: list[str], number: int) -> Iterator[str]:
        """The source around a line."""
        if path in self.session.symbols.c_paths():
            yield f"{path}:{number}"
        yield from self.lines(lines, number, number)

    def of_c(self, line: CLine) -> Iterator[str]:
        """The C around a line."""
        yield str(line)
        yield from self.lines(line.file, line.line, line.line)

    def lines(
        self, lines: list[str], middle: int, marked: Optional[int], read: Callable[[str], str] = str
    ) -> Iterator[str]:
        """Lines around one of them, of which each is read in a way."""
        for number in range(max(1, middle - AROUND), min(len(lines), middle + AROUND) + 1):
            mark = "=>" if number == marked else "  "
            yield f"{mark} {number:>4}  {read(lines[number - 1]).rstrip()}"
