"""Ways to spoil a page of `mm view`, each of which `.ci/view` has to find: in its data, in what it says, in its use."""

from __future__ import annotations

import json
import re
from typing import Any, Callable, Iterator

from mm.log.changes import ByteOut, CellSet, EventQueued, IpSet, KINDS, RegisterSet, StateSet
from mm.view.page import data_text

DATA = re.compile(r'(<script type="application/json" id="run">)(.*?)(</script>)', re.S)
CHANGES = 9
Spoil = Callable[[str], str]


def of_data(spoil: Callable[[Any], None]) -> Spoil:
    """Spoils the data of a page."""

    def spoiled(page: str) -> str:
        before, text, after = DATA.search(page).groups()
        data = json.loads(text)
        spoil(data)
        return page.replace(before + text + after, before + data_text(data) + after)

    return spoiled


def of_change(kind: type, place: int, value: Callable[[Any], Any]) -> Spoil:
    """Spoils a field of the last change of a kind."""

    def spoil(data: Any) -> None:
        number = KINDS.index(kind)
        change = [each for step in data["steps"] for each in step[CHANGES] if each[0] == number][-1]
        change[place] = value(change[place])

    return of_data(spoil)


def of_step(place: int, value: Callable[[Any], Any]) -> Spoil:
    """Spoils a field of the fourth turn."""

    def spoil(data: Any) -> None:
        data["steps"][3][place] = value(data["steps"][3][place])

    return of_data(spoil)


def of_text(old: str, new: str) -> Spoil:
    """Other text in place of one that is in the page once or more."""

    def spoil(page: str) -> str:
        if old not in page:
            raise ValueError(f"the page has no {old!r}")
        return page.replace(old, new)

    return spoil


def script(text: str) -> Spoil:
    """A script more, at the end."""
    return of_text("</body>", f"<script>{text}</script></body>")


def other_word(word: str) -> str:
    """The same word with its lowest digit changed."""
    return word[:-1] + f"{int(word[-1], 16) ^ 1:x}"


def of_image(data: Any) -> None:
    """Another word in the image, in the last page."""
    cell = data["start"]["pages"][-1][1][-1]
    cell[1] = other_word(cell[1])


def of_line(data: Any) -> None:
    """The words of the first segment come from other lines."""
    lines = data["names"]["regions"][0]["lines"]
    lines[:] = [line and line + 1 for line in lines]


def of_c(data: Any) -> None:
    """The words come from other lines of C."""
    for line in data["names"]["c"]["lines"]:
        line[1] += 1


def of_register(data: Any) -> None:
    """Variables of C are in other registers."""
    for state in data["names"]["c"]["states"]:
        for variable in state:
            variable[1] = re.sub(r"r(\d+)", lambda found: f"r{(int(found[1]) + 1) % 13}", variable[1])


SPOILS: tuple[tuple[str, Spoil], ...] = (
    ("one register", of_change(RegisterSet, 3, other_word)),
    ("one instruction pointer", of_change(IpSet, 2, lambda word: word[:-2] + f"{int(word[-2:], 16) ^ 8:02x}")),
    ("one cell", of_change(CellSet, 2, other_word)),
    ("one full or empty bit", of_change(CellSet, 3, lambda bit: 1 - bit)),
    ("one output byte", of_change(ByteOut, 2, lambda byte: byte ^ 1)),
    ("one state", of_change(StateSet, 2, lambda state: "running")),
    ("one word of the image", of_data(of_image)),
    ("the number of a turn", of_step(2, lambda number: number + 1)),
    ("where a turn fetched", of_step(5, lambda address: address + 8)),
    ("the cycle of a turn", of_step(0, lambda cycle: cycle + 1)),
    ("the lines of a segment", of_data(of_line)),
    ("a word of a turn", of_text("its turn ${turn.number}", "its turn ${turn.number + 1}")),
    ("what a screen reader is told", of_text("`Cycle ${turn.cycle}, slot", "`Cycle ${turn.cycle + 1}, slot")),
    ("the key End", of_text('"to the end", ACTIONS.end]', '"to the end", ACTIONS.home]')),
    ("the key e", of_text("entry: (turn) => Boolean(turn.entered)", "entry: (turn) => turn.outcome === 'did'")),
    ("the button for one turn on", of_text("next: () => goTo(cursor.place + 1)", "next: () => goTo(cursor.place + 2)")),
    ("a click on the timeline", of_text("(this.first + x / this.box) + 1", "(this.first + x / this.box)")),
    ("the list of keys", of_text("help.showModal()", "help.hidden = true")),
    ("a word that Enter does not open", of_text("if (word) toggle", "if (word && event.detail) toggle")),
    ("a focus that is not seen", of_text("</style>", "*:focus-visible { outline: none !important; }</style>")),
    ("a button without a name", of_text(' aria-label="Larger letters">A+<', "><")),
    ("a second main", of_text("<footer>", "<main></main><footer>")),
    ("an error on the console", script("console.error('spoiled')")),
    ("an exception", script("setTimeout(() => { throw new Error('spoiled'); }, 0)")),
    ("something from the network", script("fetch('http://127.0.0.1:9/').catch(() => 0)")),
    ("a page that is too wide", of_text("<footer>", '<div style="width:3000px">wide</div><footer>')),
)
# Spoils of what the counter has not: of the page of the server, and of a program in C.
QUEUES: tuple[tuple[str, Spoil], ...] = (
    ("one event", of_change(EventQueued, 2, lambda slot: slot + 1)),
    ("an event that nobody takes", of_text("slot.queue.shift()", "slot.queue.slice()")),
    ("a fault", of_text("`fault ${number} ", "`fault ${number + 1} ")),
)
LINES_OF_C: tuple[tuple[str, Spoil], ...] = (
    ("other lines of C", of_data(of_c)),
    ("lines of C alone", of_text("source.inC ? cPlace(address) : null", "cPlace(address)")),
    ("no lines of C", of_text("source.inC ? cPlace(address) : null", "null")),
    ("a file that is chosen and not shown", of_text("render();\n  openSource(at);", "render();")),
    ("variables of C in other registers", of_data(of_register)),
    ("the numbers of variables of C", of_text('how === "int" ? BigInt.asIntN(long, cut) : cut', "cut + 1n")),
    ("a function of C", of_text("in ${name}${text", "in ${name}_${text")),
)
SPOILED = {"counter": SPOILS, "server": QUEUES, "overflow": LINES_OF_C}


def spoiled_pages(page: str, spoils: tuple[tuple[str, Spoil], ...]) -> Iterator[tuple[str, str]]:
    """A page spoiled in each way."""
    for name, spoil in spoils:
        yield name, spoil(page)
