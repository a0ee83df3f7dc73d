"""The debugger's commands for programs in C: values of variables, and steps by lines."""

from __future__ import annotations

from typing import TYPE_CHECKING, Callable, Iterable, Optional

from mm.debugger.arithmetic import reckons
from mm.debugger.cexpressions import c_thing, whose_is
from mm.debugger.evaluate import count_of, value_of
from mm.debugger.session import Halt
from mm.names.expressions import NoAddress
from mm.outputs.trace import Turn

if TYPE_CHECKING:
    from mm.debugger.commands import Debugger


def c_text(text: str, debugger: Debugger) -> Optional[str]:
    """What a variable of C holds; none if the text names none."""
    values = debugger.session.values
    thing = c_thing(text, values) if values and not text.startswith("&") else None
    if thing is None or values is None:
        return None
    whose = whose_is(text, values)
    return f"{values.spell(thing)}   ({thing.types.title(thing.type)}{whose})" if thing.type else values.spell(thing)


def value_text(text: str, debugger: Debugger) -> str:
    """An expression: a variable of C, or else a word."""
    said = None if reckons(text) else c_text(text, debugger)
    return said or debugger.show.word(value_of(text, debugger.session))


def local_lines(debugger: Debugger) -> list[str]:
    """The variables of C that have a place now; none if there is no function of C."""
    values = debugger.session.values
    if values is None or not values.frames:
        return []
    found = {name: values.spell(thing) for name, thing in reversed(list(values.locals()))}
    lines = [f"  {name} = {said}" for name, said in sorted(found.items())]
    whose = values.calls[values.depth][2] if values.calls else values.frames[0].name
    return lines or [f"no variable of {whose} has a place here"]


def call_lines(debugger: Debugger, number: Optional[int] = None) -> Iterable[str]:
    """The functions of C that are being carried out, the innermost first, or one of them."""
    values, style = debugger.session.values, debugger.show.style
    for place, (_, _, name, line) in enumerate(values.calls if values else []):
        if number is None or place == number:
            yield f"  #{place}  {name}" + (f"  {style.soft(str(line) + ':')}  {line.text}" if line else "")


def choose(debugger: Debugger, rest: str, way: int) -> Iterable[str]:
    """Looks at another function that is being carried out: the one of a number, or so many calls further out or in."""
    session = debugger.session
    values = session.values
    last = len(values.calls) - 1 if values else -1
    if last < 0:
        raise NoAddress("no function of C is being carried out here")
    here = values.depth if values else 0
    wanted = here + way * count_of(rest) if way else count_of(rest, 0) if rest else here
    if not 0 <= wanted <= last:
        raise NoAddress(f"there is no call {wanted}: `where` lists them, 0 to {last}" if wanted >= 0 or not way else
                        "this is the innermost function")
    session.choose(wanted)
    yield from call_lines(debugger, wanted)


def by_lines(debugger: Debugger, rest: str, over: bool) -> Iterable[str]:
    """Lines of C of the current slot, into calls or over them."""
    session = debugger.session
    halt = Halt()
    for _ in range(count_of(rest)):
        halt = session.follow(other_line(debugger, over))
        if halt.point or halt.ended:
            break
    return debugger.stop(halt)


def other_line(debugger: Debugger, over: bool) -> Callable[[Turn], bool]:
    """Whether a turn begins another line than that of now: of any function, or of one that is being carried out."""
    symbols, values = debugger.session.symbols, debugger.session.values
    frames = values.frames if values else []
    now = frames[0].line if frames else None
    waiting = {(frame.function.label, line.inner) for frame in frames for line in frame.lines()}

    def other(turn: Turn) -> bool:
        line = symbols.c_line(turn.fetch) if turn.fetch is not None else None
        if line is None or line == now or turn.fetch is None:
            return False
        function = symbols.c_function(turn.fetch)
        return not over or not waiting or function is not None and (function.label, line.inner) in waiting

    return other
