"""What a person types in the debugger: counts, places, registers and names."""

from __future__ import annotations

import re
from typing import Optional

from mm.debugger.arithmetic import BITS, Leaf, number_in, tree_of, value_in
from mm.debugger.cexpressions import c_thing, no_place, word_of
from mm.debugger.session import Session
from mm.machine.words import ADDRESS_LIMIT, Word
from mm.names.expressions import NoAddress, address_of, span_of
from mm.names.numbers import counted, number_of, printed_address
from mm.views.cvalues import CThing
from mm.words import MOST_CYCLES

REGISTER = re.compile(r"\$?r([0-9]{1,18})")
OFFSET = re.compile(r"(\$?r\d+|\$?ip|\$pc)\s*([+-]\s*\w+)?")
OF_MACHINE = re.compile(r"\$.*|r(?:[0-9]|1[0-5])|ip")
SLOT = re.compile(r"(.*?)\s*\b(?:if\s+)?(?:slot|thread)\s+([0-9]{1,18})")
SOME_LINES = 100_000


class Empty(NoAddress):
    """A register whose load has not arrived."""


def count_of(text: str, least: int = 1) -> int:
    """A number of cycles or turns, 1 where none is written."""
    if not text:
        return 1
    number = number_of(text)
    if number is None or not least <= number <= MOST_CYCLES:
        raise NoAddress(f"`{text}` is not a number here: {least} to {MOST_CYCLES}")
    return number


def slot_of(text: str, session: Session) -> tuple[str, Optional[int]]:
    """A place, and the slot that it is said for."""
    match = SLOT.fullmatch(text)
    if not match:
        return text, None
    if session.report.slot(int(match[2])) is None:
        raise NoAddress(f"there is no slot {match[2]}")
    return match[1], int(match[2])


def of_register(text: str, session: Session) -> Optional[re.Match[str]]:
    """A register and what is added to it. That of the machine comes before a label of its name, which `&` names."""
    match = OFFSET.fullmatch(text)
    if match is None or not OF_MACHINE.fullmatch(match[1]) and session.symbols.named(match[1]):
        return None
    return match


def hides_label(text: str, session: Session) -> bool:
    """Whether a label has the name of a register that a text names."""
    return OF_MACHINE.fullmatch(text) is not None and bool(session.symbols.named(text))


def _register(text: str, session: Session) -> Optional[Word]:
    """A register of the current slot, or its instruction pointer."""
    slot = session.current
    if slot is None:
        raise NoAddress("there is no such slot")
    if text.lstrip("$") in ("ip", "pc"):
        return slot.ip
    match = REGISTER.fullmatch(text)
    if not match or int(match[1]) > 15:
        raise NoAddress(f"there is no register {text}: r0 to r15, and ip")
    word = slot.register(int(match[1]))
    if word is None:
        raise Empty(f"{text} is empty: its load has not arrived")
    return word


def span(text: str, session: Session) -> tuple[int, int]:
    """The address of a place and how many bytes it covers; a register stands for where it points, a variable of C for
    where it is."""
    of_c = _c_span(text.strip().lstrip("&"), session)
    if of_c:
        return of_c
    match = of_register(text.strip(), session)
    if not match:
        return _span_of(text, session)
    word = _register(match[1], session)
    pointer = word.pointer if word else None
    if pointer is None:
        label = f"; the label is `&{match[1]}`" if hides_label(match[1], session) else ""
        raise NoAddress(f"{match[1]} is not a pointer: it is {session.speller.register(word)}{label}")
    return pointer.address + (number_of(match[2].replace(" ", "").lstrip("+")) or 0 if match[2] else 0), 8


def _span_of(text: str, session: Session) -> tuple[int, int]:
    """The address of a name or a number. Of a name of C that has none it is told why."""
    try:
        return span_of(text, session.symbols)
    except NoAddress:
        why = no_place(text, session.symbols, session.values)
        if why:
            raise NoAddress(why) from None
        raise


def _c_span(text: str, session: Session) -> Optional[tuple[int, int]]:
    """The words that a variable of C is in; none if the text names none, or one that is in no memory."""
    values = session.values
    thing = c_thing(text, values) if values else None
    if thing is None or thing.address is None or not thing.type:
        return None
    first, end = thing.address & ~7, thing.address + max(thing.size, 1)
    return first, -(-(end - first) // 8) * 8


def place_of(text: str, session: Session) -> tuple[int, int]:
    """A place of the code: a name, a line of the source of this slot, or an address. A segment that begins with a pointer is meant whole."""
    if not text:
        raise NoAddress("say where: a name as `door`, a line as 7 or counter.asm:20, or an address as 0x1000c8")
    number, line = number_of(text) if printed_address(text) is None else None, line_number(text)
    if line is not None and 0 < line < SOME_LINES:
        return session_line(line, session), 8
    if number is not None and (number % 8 or line == 0):
        raise NoAddress(f"`{text}` is not a line, of 1 to {SOME_LINES - 1}, and not the address of an instruction, "
                        "which is a multiple of 8")
    # A place of the code that has the name of a register is the label.
    address, length = span(f"&{text}" if hides_label(text, session) else text, session)
    cell = session.memory.cell(address)
    symbol = next(iter(session.symbols.named(text)), None)
    whole = symbol is not None and symbol.segment and cell is not None and cell.word.tagged
    return address, length if whole else 8


def session_line(number: int, session: Session) -> int:
    """The address of a line of the source that this slot runs, of that in C if there is one."""
    return address_of(f"{_path_here(number, session)}:{number}", session.symbols)


def _path_here(number: int, session: Session) -> str:
    """The source that this slot runs, that in C if there is one; a line of it is wanted."""
    slot = session.current
    ip = slot.ip.pointer if slot else None
    region = session.symbols.region(ip.address) if ip else None
    if region is None or region.source is None:
        raise NoAddress(f"line {number} of which source? Say FILE:{number}")
    return c_path(session) or region.source.path


def line_number(text: str) -> Optional[int]:
    """The number that decimal digits are, as a line is written."""
    return number_of(text) if text.isascii() and text.isdigit() and printed_address(text) is None else None


def lines_at(text: str, session: Session) -> Optional[tuple[str, list[str], int]]:
    """A source, its lines and the number of one of them, if a text names a line: also one from which no word comes."""
    path, _, digits = text.rpartition(":")
    number = line_number(digits)
    if number is None or not 0 < number < SOME_LINES:
        return None
    path, lines = session.symbols.source_lines(path or _path_here(number, session))
    if lines and number > len(lines):
        raise NoAddress(f"{path} has {counted(len(lines), 'line')}")
    return (path, lines, number) if lines else None


def c_path(session: Session) -> Optional[str]:
    """The file of C that the current slot runs; before its `main` that of `main`."""
    values = session.values
    found = [frame.line.path for frame in values.frames if frame.line] if values else []
    if found or values is None or not values.frames:
        return found[0] if found else None
    begins = [made.begins.path for made in values.frames[0].notes.functions if made.begins]
    return begins[0] if begins else None


class Values:
    """What an expression is made of, at the moment of a session."""

    def __init__(self, session: Session) -> None:
        self.session = session

    def _thing(self, text: str) -> Optional[CThing]:
        values = self.session.values
        return c_thing(text, values) if values and not text.startswith("&") else None

    def word(self, text: str) -> Word:
        """A register, the word at a name, or a variable of C."""
        thing, values = self._thing(text), self.session.values
        if thing is None or values is None:
            return word_named(text, self.session)
        if thing.kind.kind in ("array", "struct", "union"):
            raise NoAddress(f"`{text}` is not a number, but {thing.types.title(thing.type)}")
        return word_of(thing, values)

    def at(self, address: int) -> Word:
        cell = self.session.memory.cell(address & ~7) if 0 <= address < ADDRESS_LIMIT else None
        if cell is None:
            raise NoAddress(f"no page is at {self.session.symbols.show(address) if address >= 0 else address}")
        return cell.word

    def place(self, text: str) -> Optional[Word]:
        """The word at a name and an offset. A register, or a variable of C, is a value, to which a number is added."""
        name, offset = re.split(r"\s*[+-]\s*", text, maxsplit=1)
        if of_register(name, self.session) or self._thing(name):
            return None
        found = word_named(text, self.session)
        if (number_of(offset) or 0) % 8:
            raise NoAddress(f"`{text}` is a place, in bytes, and no word is there: write `({name})` to reckon with the word at {name}")
        return found

    def refuse_scaled(self, text: str) -> None:
        thing = self._thing(text)
        if thing is not None and thing.kind.kind in ("array", "pointer"):
            raise NoAddress(f"`{text}` is {thing.types.title(thing.type)}: write `{text}[1]` for an element, `&{text}[1]` for its address")


def value_of(text: str, session: Session) -> Word:
    """The word that a person means: an expression, or a value of `word_named`."""
    return sized_value(text, session)[0]


def sized_value(text: str, session: Session) -> tuple[Word, int]:
    """The word that a person means, and of how many bits it is: those of a variable of C by its type."""
    if ":" in text or printed_address(text.strip()) is not None:
        return word_named(text, session), BITS  # A line of a file, or an address as reports print it.
    tree = tree_of(text)
    if not isinstance(tree, Leaf) or tree.text.startswith("'"):
        return value_in(tree, Values(session)), BITS
    values = session.values
    thing = c_thing(tree.text, values) if values and not tree.text.startswith("&") else None
    if thing is None or not thing.type:
        return word_named(tree.text, session), BITS
    word = Values(session).word(tree.text)
    return word, BITS if word.tagged else thing.bits or 8 * min(thing.kind.size, BITS // 8) or BITS


def word_named(text: str, session: Session) -> Word:
    """A register, the word at a name, a name's address with `&`, a number, or the word at an address as reports print it."""
    text = text.strip()
    if text.startswith("**"):
        return Values(session).at(number_in(word_named(text[1:], session)))
    if text.startswith("&"):
        thing = c_thing(text[1:], session.values) if session.values else None
        at = thing.address if thing is not None else None
        return Word(at if at is not None else _span_of(text, session)[0])
    if of_register(text, session):
        found = _register(text, session) if "+" not in text and "-" not in text else None
        if found:
            return found
    number = number_of(text) if printed_address(text) is None else None
    if number is not None:
        return Word(number & (1 << BITS) - 1)
    address = span(text.lstrip("*"), session)[0]
    cell = session.memory.cell(address & ~7)
    if cell is None:
        raise NoAddress(f"no page is at {session.symbols.show(address)}")
    return cell.word
