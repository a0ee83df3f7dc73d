"""The commands of the debugger: their names and short forms, and what each does. `help` and completion are made from this table."""

from __future__ import annotations

import re
from typing import Callable, Iterable, Iterator, Optional

from mm.debugger.conditions import condition_in
from mm.debugger.evaluate import count_of, lines_at, place_of, slot_of, span
from mm.debugger.forms import FORMS, LETTERS
from mm.debugger.of_c import by_lines, c_text, call_lines, choose, local_lines
from mm.debugger.points import PointKind
from mm.debugger.printing import display, echo, print_value, printf, shown_at_stop
from mm.debugger.session import Halt, Session
from mm.debugger.show import Show
from mm.debugger.stops import Wrong, alone, commands, condition, delete, displays, ignore, switch, undisplay
from mm.machine.isa import OPERATIONS
from mm.machine.words import Pointer
from mm.names.expressions import nearest
from mm.outputs.trace import Turn
from mm.records import dataclass
from mm.views.listing import map_lines

Lines = Iterable[str]
MOST_WORDS = 512
MOST_DIGITS = 18
EXAMINED = re.compile(f"([0-9]*)g?([i{LETTERS}]?)g?")
SILENT = "silent"


class Debugger:
    """A session with what shows it, expressions that are shown at each stop, and lines that are to be carried out after one."""

    def __init__(self, session: Session, show: Show) -> None:
        self.session, self.show = session, show
        self.displays: list[str] = []
        self.todo: list[str] = []
        # What reads the lines that follow `commands`.
        self.read_line: Callable[[], Optional[str]] = lambda: None
        self.over = False

    def stop(self, halt: Halt) -> Iterator[str]:
        self.todo = list(halt.point.commands) if halt.point else []
        if self.todo and self.todo[0] == SILENT:
            del self.todo[0]
            yield from self.show.trouble(halt)
            return
        yield from self.show.stop(halt)
        for text in self.displays:
            yield shown_at_stop(text, self)


@dataclass(frozen=True)
class Entry:
    """A command: its names, the first in full; its words; what it does; what completes its words; and its function."""

    names: tuple[str, ...]
    words: str
    says: str
    completes: str
    run: Callable[[Debugger, str], Lines]


def _step(debugger: Debugger, rest: str) -> Lines:
    return debugger.stop(debugger.session.step(count_of(rest)))


def _back(debugger: Debugger, rest: str) -> Lines:
    return debugger.stop(debugger.session.back(count_of(rest)))


def _goto(debugger: Debugger, rest: str) -> Lines:
    if not rest:
        raise Wrong("say to which cycle: `goto 36`; `start` goes to the start")
    return debugger.stop(debugger.session.go(count_of(rest, 0)))


def _next(debugger: Debugger, rest: str) -> Lines:
    """Turns of the current slot; a call is one."""
    session = debugger.session
    halt = Halt()
    for _ in range(count_of(rest)):
        halt = session.follow(over_call(debugger))
        if halt.point or halt.ended:
            break
    return debugger.stop(halt)


def _here(debugger: Debugger) -> Pointer:
    """Where the current slot stands."""
    slot = debugger.session.current
    pointer = slot.ip.pointer if slot else None
    if pointer is None:
        raise Wrong("there is no such slot")
    return pointer


def over_call(debugger: Debugger) -> Callable[[Turn], bool]:
    """What the next turn of the current slot is: that after the way back, if it stands at a call."""
    here = _here(debugger)
    instruction = debugger.session.memory.instruction(here.address)
    if instruction is None or instruction.name != "jal":
        return lambda turn: True
    back = here.address + 8
    return lambda turn: turn.fetch == back


def _finish(debugger: Debugger, rest: str) -> Lines:
    """To where the current slot leaves its segment."""
    here = _here(debugger)
    return debugger.stop(debugger.session.follow(lambda turn: turn.fetch is not None and not here.covers(turn.fetch)))


def _until(debugger: Debugger, rest: str) -> Lines:
    session = debugger.session
    if rest:
        address, length = place_of(rest, session)
        return debugger.stop(
            session.follow(lambda turn: turn.fetch is not None and address <= turn.fetch < address + length)
        )
    here = _here(debugger)
    return debugger.stop(session.follow(lambda turn: turn.fetch is not None and here.address < turn.fetch < here.end))


def _continue(debugger: Debugger, rest: str) -> Lines:
    return debugger.stop(debugger.session.resume())


def _reverse(debugger: Debugger, rest: str) -> Lines:
    return debugger.stop(debugger.session.reverse())


def _run(debugger: Debugger, rest: str) -> Lines:
    debugger.session.go(0)
    return debugger.stop(debugger.session.resume())


def _start(debugger: Debugger, rest: str) -> Lines:
    return debugger.stop(debugger.session.go(0))


def _set_break(debugger: Debugger, rest: str, once: bool = False) -> Lines:
    session = debugger.session
    rest, condition = condition_in(rest, session)
    place, slot = slot_of(rest, session)
    kinds = {
        "fault": PointKind.FAULT,
        "faults": PointKind.FAULT,
        "entry": PointKind.ENTRY,
        "entries": PointKind.ENTRY,
        "enter": PointKind.ENTRY,
    }
    if place in kinds and not session.symbols.named(place):
        point = session.add(kinds[place], "", slot=slot, once=once, condition=condition)
        yield f"{point.number}: {point}"
        return
    address, length = place_of(place, session)
    if any(symbol.address == address for symbol in session.symbols.named(place)):
        address = session.symbols.c_body(address) or address
    point = session.add(PointKind.BREAK, place, address, length, slot, once, condition)
    name, origin = session.symbols.show(address), session.symbols.origin(address)
    given = f" if {condition.text}" if condition else ""
    if length > 8:
        yield f"{point.number}: break where {'a slot' if slot is None else f'slot {slot}'} comes into {name}{given}"
        return
    typed = "" if place == name else f"{place} "
    alone = "" if slot is None else f" of slot {slot}"
    line = session.symbols.c_line(address)
    of_c = f", {line}: {line.text}" if line else ""
    copies = len(session.symbols.places_of_inlined(place)) if of_c and not session.symbols.named(place) else 0
    more = f" (the first of {copies} places where `{place}` was inlined)" if copies > 1 else ""
    said = of_c or (f", {origin}: {origin.code}" if origin else "")
    yield f"{point.number}: break {typed}at {name}{alone}{given}{said}{more}"


def _set_once(debugger: Debugger, rest: str) -> Lines:
    return _set_break(debugger, rest, True)


def _set_watch(kind: PointKind) -> Callable[[Debugger, str], Lines]:
    def run(debugger: Debugger, rest: str) -> Lines:
        rest, condition = condition_in(rest, debugger.session)
        place, slot = slot_of(rest, debugger.session)
        if not place:
            raise Wrong(f"missing word: `{kind.title} count`, `{kind.title} box+8`, `{kind.title} 0x100100`")
        address, length = span(place, debugger.session)
        point = debugger.session.add(kind, place, address & ~7, length, slot, condition=condition)
        now = debugger.show.cell(debugger.session.memory.cell(point.address)) if length == 8 else f"{length // 8} words"
        given = f" if {condition.text}" if condition else ""
        yield f"{point.number}: {kind.title} {place}{given}, now {c_text(place, debugger) or now}"

    return run


def _registers(debugger: Debugger, rest: str) -> Lines:
    number = count_of(rest, 0) if rest else debugger.session.slot
    slot = debugger.session.report.slot(number)
    if slot is None:
        raise Wrong(f"there is no slot {number}: `info slots` lists them")
    return debugger.show.registers(slot)


def _slot(debugger: Debugger, rest: str) -> Lines:
    if rest:
        number = count_of(rest, 0)
        if debugger.session.report.slot(number) is None:
            raise Wrong(f"there is no slot {number}: `info slots` lists them")
        debugger.session.slot = number
    return debugger.show.slots()


def _examine(debugger: Debugger, rest: str) -> Lines:
    """`x/8 box`, `x/4i door`, `x/2x box`."""
    form, text = (rest[1:].partition(" ")[0], rest[1:].partition(" ")[2]) if rest.startswith("/") else ("", rest)
    match = EXAMINED.fullmatch(form)
    if match is None:
        raise Wrong("write how many words, and in which form: `x/8 box`, `x/4i door`, `x/2x box`. "
                    f"The forms are {FORMS}")
    digits = match[1]
    address, length = span(text or "ip", debugger.session)
    if len(digits) > MOST_DIGITS:
        raise Wrong(f"1 to {MOST_WORDS} words can be shown")
    count = int(digits) if digits else max(1, min(length // 8, 16))
    if not 0 < count <= MOST_WORDS:
        raise Wrong(f"1 to {MOST_WORDS} words can be shown")
    return debugger.show.memory(address & ~7, count, match[2])


def _list(debugger: Debugger, rest: str) -> Lines:
    session = debugger.session
    slot, values = session.current, session.values
    ip = slot.ip.pointer if slot else None
    line = values.calls[values.depth][3] if values and values.depth and not rest else None
    if line and line.file:
        return debugger.show.of_c(line)
    named = lines_at(rest, session) if rest else None
    if named:
        return debugger.show.listed(*named)
    address = place_of(rest, session)[0] if rest else ip.address if ip else 0
    return debugger.show.source(address)


def _where(debugger: Debugger, rest: str) -> Lines:
    yield from debugger.show.stop(Halt())
    yield from call_lines(debugger)


def _output(debugger: Debugger, rest: str) -> Lines:
    return debugger.show.output()


INFO: dict[str, tuple[str, Callable[[Debugger, str], Lines]]] = {
    "slots": ("where each slot is", _slot),
    "registers": ("the registers of a slot", _registers),
    "breakpoints": ("breaks and watches", lambda debugger, rest: debugger.show.points()),
    "symbols": (
        "names with their addresses",
        lambda debugger, rest: map_lines(debugger.session.symbols, debugger.show.style),
    ),
    "locals": ("variables of C; else registers", lambda debugger, rest: local_lines(debugger) or _registers(debugger, rest)),
    "display": ("values that are shown at stops", displays),
    "output": ("what each group has printed", _output),
    "line": ("where this slot is", _where),
}
INFO_NAMES = {
    "threads": "slots",
    "breaks": "breakpoints",
    "watches": "breakpoints",
    "watchpoints": "breakpoints",
    "regs": "registers",
    "names": "symbols",
    "frame": "line",
    "program": "line",
    "variables": "symbols",
    "functions": "symbols",
}


def _info(debugger: Debugger, rest: str) -> Lines:
    word, _, more = rest.partition(" ")
    names = [name for name in [*INFO, *INFO_NAMES] if word and name.startswith(word)]
    if not names:
        raise Wrong("info about what: " + ", ".join(f"{name} ({said})" for name, (said, _) in INFO.items()))
    return INFO[INFO_NAMES.get(names[0], names[0])][1](debugger, more.strip())


def _quit(debugger: Debugger, rest: str) -> Lines:
    debugger.over = True
    return ()


def _help(debugger: Debugger, rest: str) -> Lines:
    if rest and rest in OPERATIONS:
        operation = OPERATIONS[rest]
        yield f"{operation.usage}: {operation.effect}"
        return
    for entry in ENTRIES if not rest else [find(rest)]:
        yield f"  {', '.join(entry.names):<30}  {entry.words:<14}  {entry.says}"
    if not rest:
        yield "A place is a name (door), a name and an offset (box+8), a line (7, or counter.asm:20), or a number (0x100100)."
        yield "An empty line repeats the last command. Nothing that you type changes the run."


# fmt: off
ENTRIES = (
    Entry(("step", "s", "si", "stepi"), "[N]", "N cycles on, whichever slots they belong to", "", _step),
    Entry(("next", "n", "ni", "nexti"), "[N]", "N turns of this slot on; a call counts as one", "", _next),
    Entry(("stepline", "sl"), "[N]", "to the next line of C, into calls", "", lambda debugger, rest: by_lines(debugger, rest, False)),
    Entry(("nextline", "nl"), "[N]", "to the next line of C of this function, or of its caller", "", lambda debugger, rest: by_lines(debugger, rest, True)),
    Entry(("continue", "c"), "", "on to the next stop", "", _continue),
    Entry(("until", "u", "advance"), "[PLACE]", "on until this slot comes to a place, or past a loop", "place", _until),
    Entry(("finish", "fin"), "", "on until this slot leaves its segment, for example a gate", "", _finish),
    Entry(("back", "rs", "reverse-step"), "[N]", "N cycles back", "", _back),
    Entry(("reverse", "rc", "reverse-continue"), "", "back to the last stop before here", "", _reverse),
    Entry(("goto",), "N", "to the state after N cycles", "", _goto),
    Entry(("run", "r"), "", "from the start to the first stop", "", _run),
    Entry(("start",), "", "to the start", "", _start),
    Entry(("break", "b"), "PLACE", "stop before a place; `break fault`, `break entry`; `.. slot N` for only one slot, `.. if r3 == 32` only then", "place", _set_break),
    Entry(("tbreak", "tb"), "PLACE", "the same, once", "place", _set_once),
    Entry(("watch", "w"), "NAME", "stop after each write of a word, or of its bit; `.. slot N`, `.. if count > 5`", "place", _set_watch(PointKind.WATCH)),
    Entry(("rwatch", "rw"), "NAME", "stop after each load", "place", _set_watch(PointKind.READ)),
    Entry(("awatch", "aw"), "NAME", "stop after each load or write", "place", _set_watch(PointKind.ACCESS)),
    Entry(("delete", "d"), "[N]", "remove a break or a watch, or all; 0 is the stop at faults", "", delete),
    Entry(("condition",), "N [IF]", "stop at a break or a watch only if something is so: `condition 1 r3 == 32`", "", condition),
    Entry(("ignore",), "N COUNT", "go on so often at a break or a watch", "", ignore),
    Entry(("enable",), "[N]", "stop again at a break or a watch, or at all", "", switch(True)),
    Entry(("disable",), "[N]", "do not stop at a break or a watch, or at any, until it is enabled", "", switch(False)),
    Entry(("commands",), "[N]", "the lines that follow, up to `end`, are carried out after each stop at a break; `silent` first shows no stop", "", commands),
    Entry(("silent",), "", "the first line of `commands`, if a stop is not to be shown", "", alone("silent")),
    Entry(("end",), "", "the last line of `commands`", "", alone("end")),
    Entry(("echo",), "TEXT", "writes a text", "", echo),
    Entry(("printf",), "TEXT, ..", "writes a text with values: `printf \"%d %x\\n\", r1, count`", "", printf),
    Entry(("regs", "registers"), "[S]", "the registers of a slot", "", _registers),
    Entry(("slot", "thread", "t"), "[S]", "look at another slot", "", _slot),
    Entry(("print", "p", "inspect"), "WHAT", "a register (r5, ip), the word at a name, with & its address; a variable of C: i, a[2], p->x; (r1+2)*3; p/x r1", "value", print_value),
    Entry(("display",), "[WHAT]", "the same at each stop; alone it shows all of these now", "value", display),
    Entry(("undisplay",), "[N]", "show a value no more at stops, or none", "", undisplay),
    Entry(("x",), "/N[i] PLACE", "N words of memory, with i as instructions, x in hexadecimal; a register means where it points", "value", _examine),
    Entry(("list", "l"), "[PLACE]", "the source around this slot's place, or around another place", "place", _list),
    Entry(("where", "bt", "backtrace"), "", "where the run is; in C also the functions that wait", "", _where),
    Entry(("up",), "[N]", "in C: look at the function that called this one", "", lambda debugger, rest: choose(debugger, rest, 1)),
    Entry(("down",), "[N]", "in C: back to the function that was called", "", lambda debugger, rest: choose(debugger, rest, -1)),
    Entry(("frame", "f"), "[N]", "in C: look at the function with this number in `where`; without one tell which it is", "", lambda debugger, rest: choose(debugger, rest, 0)),
    Entry(("output", "o"), "", "what each group has printed", "", _output),
    Entry(("info", "i"), "WHAT", ", ".join(INFO), "info", _info),
    Entry(("help", "h"), "[WHAT]", "this list, a command or an operation", "help", _help),
    Entry(("quit", "q", "exit"), "", "the end", "", _quit),
)
# fmt: on
OTHER_WORDS = {
    "set": "a run is looked at and never changed; change the source, and debug it again",
    "disas": "`x/8i door` shows eight instructions",
    "disassemble": "`x/8i door` shows eight instructions",
    "layout": "`list` shows the source, `display r2` a register at each stop",
    "clear": "`delete N` removes a break, `info breakpoints` lists them",
    "stop": "`break PLACE` says where to stop",
    "kill": "`quit` ends the session",
}
BY_NAME = {name: entry for entry in ENTRIES for name in entry.names}


def find(word: str) -> Entry:
    """A command by its name, a short form, or the beginning of a name."""
    if word in BY_NAME:
        return BY_NAME[word]
    found = {entry.names[0]: entry for entry in ENTRIES if word and entry.names[0].startswith(word)}
    if len(found) == 1:
        return next(iter(found.values()))
    if found:
        raise Wrong(f"`{word}` may be {' or '.join(found)}")
    if word in OTHER_WORDS:
        raise Wrong(f"there is no command `{word}`: {OTHER_WORDS[word]}")
    near = nearest(word, list(BY_NAME))
    raise Wrong(f"there is no command `{word}`" + (f"; do you mean `{near}`?" if near else ": `help` lists them"))


def carry_out(debugger: Debugger, line: str) -> Lines:
    """What a line answers."""
    word, _, rest = line.strip().partition(" ")
    name, slash, form = word.partition("/")
    if slash and name and find(name).names[0] in ("x", "print", "display"):
        return find(name).run(debugger, f"/{form} {rest.strip()}".strip())
    return find(word).run(debugger, rest.strip())
