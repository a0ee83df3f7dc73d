"""What the debugger prints of values: in a form that is asked for, and in the lines of `commands`."""

from __future__ import annotations

import re
from typing import TYPE_CHECKING, Iterable

from mm.debugger.evaluate import hides_label, sized_value, span
from mm.debugger.forms import FORMS, in_form
from mm.debugger.of_c import c_text, value_text
from mm.debugger.stops import Wrong
from mm.names.expressions import NoAddress
from mm.names.numbers import counted

if TYPE_CHECKING:
    from mm.debugger.commands import Debugger

Lines = Iterable[str]
FORMED = re.compile(r"/(\w*)\s+(\S.*)")
ESCAPED = re.compile(r"\\(n|t|\\|\"|.)")
DIRECTIVE = re.compile(r"%(%|0?\d{0,3}(?:l|ll|h|hh|z)?[diuxXoc])")
QUOTED = re.compile(r'"((?:[^"\\]|\\.)*)"\s*(?:,(.*))?')
INT_BITS = 32


def said_of(text: str, debugger: Debugger) -> str:
    """A value that is printed: as it is best read, or in a form, as `/x r1`."""
    formed = FORMED.fullmatch(text)
    if not formed:
        if text.startswith("/"):
            raise Wrong(f"missing expression: `p/x r1`. The forms are {FORMS}")
        return value_text(text, debugger)
    form, what = formed.groups()
    session = debugger.session
    if form == "i":
        return debugger.show.place(span(what, session)[0])
    said = in_form(form, *sized_value(what, session), session.symbols)
    if said is None:
        raise Wrong(f"there is no form /{form}: {FORMS}")
    return said


def print_value(debugger: Debugger, rest: str) -> Lines:
    if not rest:
        raise Wrong("missing expression: `p r5`, `p count`, `p &box`, `p (1+2)*3`, `p/x r1`; in C `p i`, `p name[3]`, `p list->next`")
    formed = FORMED.fullmatch(rest)
    what = formed[2] if formed else rest
    yield f"{what} = {said_of(rest, debugger)}"
    if hides_label(what, debugger.session) and c_text(what, debugger) is None:
        yield f"`{what}` is the register; the label of this name is `&{what}`, and its word `*&{what}`"


def display(debugger: Debugger, rest: str) -> Lines:
    if not rest:
        yield from (shown_at_stop(text, debugger) for text in debugger.displays)
        return
    yield from print_value(debugger, rest)
    debugger.displays.append(rest)


def _unescaped(text: str) -> str:
    return ESCAPED.sub(lambda found: {"n": "\n", "t": "\t"}.get(found[1], found[1]), text)


def _lines(text: str) -> Lines:
    return text.removesuffix("\n").split("\n") if text else ()


def echo(debugger: Debugger, rest: str) -> Lines:
    return _lines(_unescaped(rest))


def printf(debugger: Debugger, rest: str) -> Lines:
    """A text in which `%d` and the like are values, as in gdb."""
    match = QUOTED.fullmatch(rest)
    if not match:
        raise Wrong('a text in quotes comes first, and then a value for each %: `printf "%d\\n", r1`')
    values = [part.strip() for part in match[2].split(",")] if match[2] is not None else []
    wanted = [found[1] for found in DIRECTIVE.finditer(match[1]) if found[1] != "%"]
    if match[1].replace("%%", "").count("%") != len(wanted):
        raise Wrong("values are written by %d, %u, %x, %o and %c; a percent sign is %%")
    if len(wanted) != len(values):
        raise Wrong(f"the text wants {counted(len(wanted), 'value')}, and there {'is' if len(values) == 1 else 'are'} {len(values)}")
    said = iter([_formed(form, text, debugger) for form, text in zip(wanted, values)])
    return _lines(DIRECTIVE.sub(lambda found: "%" if found[1] == "%" else next(said), _unescaped(match[1])))


def _formed(form: str, text: str, debugger: Debugger) -> str:
    """A value by a directive. One of less than 32 bits is written as an int, as C has it."""
    word, bits = sized_value(text, debugger.session)
    kind, width = form[-1], re.match(r"\d*", form)
    number = word.signed if kind in "di" else word.bits & (1 << max(bits, INT_BITS)) - 1
    if kind == "c":
        return chr(number & 0xFF)
    said = f"{number:{kind if kind in 'xXo' else 'd'}}"
    digits = width[0] if width else ""
    return said.zfill(int(digits)) if digits.startswith("0") else said.rjust(int(digits or 0))


def shown_at_stop(text: str, debugger: Debugger) -> str:
    """A value of `display`, or why it has none."""
    try:
        return f"{text} = {said_of(text, debugger)}"
    except (NoAddress, Wrong) as error:
        return str(error)
