"""Looks at a page of `mm view` in a browser: what it shows turn by turn, how it is used by keys alone, what a screen
reader is told, and whether it fits windows of all sizes. `.ci/view` does this with every page."""

from __future__ import annotations

import os
from itertools import zip_longest
from typing import Any, Callable, Optional, Sequence

from mm.build import Built
from mm.formats.schedule import read_schedule
from mm.machine.program import Program
from mm.outputs.report import read_report
from mm.outputs.trace import Turn, numbered, read_turn
from mm.tests.browser import Browser
from mm.tests.seen import Seen
from mm.tests.support import read_bytes

WIDTHS = ((320, 640), (375, 812), (768, 1024), (1280, 720), (1920, 1080))
PHONE = 500
# What Tab has to reach: by an id, by what a button does, or by what it is.
REACHED = {"timeline", "home", "next", "cycle", "keys", "a word", "lines"}
NAMED = ("button", "slider", "spinbutton", "checkbox", "heading", "region", "navigation", "table")
# The roles of which a page may have none.
SPARE = ("article", "combobox")
LANDMARKS = ("main", "banner", "contentinfo")
FOCUS = """(() => {
  const it = document.activeElement, style = getComputedStyle(it);
  if (it === document.body) return null;
  return [it.dataset.key && 'a word' || it.id || it.dataset.go || it.className || it.tagName,
    (style.outlineStyle !== 'none' && parseFloat(style.outlineWidth) > 0) || style.boxShadow !== 'none'];
})()"""
TURNS = """TURNS.map((it) => [it.cycle, it.slot, it.number, it.outcome, it.fault, it.fetch, it.access, it.address,
  it.entered])"""
# Of a run of so many turns each is looked at, of a longer one each tenth.
EACH_TURN = 80
CUT = """[...document.querySelectorAll('button, select')].filter((it) => it.offsetParent && it.textContent
  && it.scrollWidth > it.clientWidth + 2).map((it) => it.textContent)"""
# Keys, one after the other; `+` before a key is Shift.
KEYS = ("End", "ArrowLeft", "Home", "ArrowRight", "ArrowRight", "ArrowRight", "ArrowDown", "ArrowUp")
KEYS += ("PageDown", "PageUp")
KEYS += ("+ArrowRight", "+ArrowRight", "+ArrowLeft", "f", "e", "b", "a", "f", "e", "b", "a", "+f", "+e", "+b", "+a")
# Buttons, and the key that does the same.
BUTTONS = {"home": "Home", "next": "ArrowRight", "back": "ArrowLeft", "end": "End", "same": "+ArrowRight"}
BUTTONS |= {"fault": "f", "entry": "e", "blocked": "b", "access": "a"}
# The middle of a thing in the window; of the timeline the box of a turn.
MIDDLE = """(() => { const it = document.querySelector(%r).getBoundingClientRect();
  return [it.left + it.width / 2, it.top + it.height / 2]; })()"""
BOX = """(() => { const it = document.getElementById('timeline').getBoundingClientRect();
  return [it.left + (%d - 0.5 - timeline.first) * timeline.box, it.top + 20]; })()"""
CHOOSE = """(() => { const it = document.getElementById('file'); it.value = %d;
  it.dispatchEvent(new Event('change')); })()"""
Test = Callable[[Turn], bool]


class Cursor:
    """Where each key leads, by the turns of the trace. Place 0 is before the first turn."""

    def __init__(self, turns: Sequence[Turn], slots: Sequence[int], word: int) -> None:
        self.turns, self.slots, self.word = turns, sorted(slots), word

    def slot(self, place: int) -> int:
        return self.turns[place - 1].slot if place else self.slots[0]

    def places(self, test: Test) -> list[int]:
        return [place for place, turn in enumerate(self.turns, 1) if test(turn)]

    def jump(self, place: int, test: Test, way: int) -> int:
        """The next place whose turn passes a test; after the last one the first."""
        found = self.places(test)[::way]
        return next((at for at in found if (at - place) * way > 0), found[0] if found else place)

    def lane(self, place: int, way: int) -> int:
        """The nearest turn of the next lane: one that comes, else one that was."""
        lane = self.slots.index(self.slot(place)) + way
        if not 0 <= lane < len(self.slots):
            return place
        found = self.places(lambda turn: turn.slot == self.slots[lane])
        later = [at for at in found if at > place]
        return later[0] if later else found[-1] if found else place

    def after(self, place: int, key: str, shift: bool) -> int:
        """The place that a key leads to."""
        count, way = len(self.turns), -1 if shift or key == "ArrowLeft" else 1
        tests: dict[str, Test] = {
            "f": lambda turn: turn.outcome == "faulted",
            "e": lambda turn: turn.entered is not None,
            "b": lambda turn: turn.outcome == "blocked",
            "a": lambda turn: turn.address == self.word,
        }
        steps = {"ArrowLeft": -1, "ArrowRight": 1, "PageUp": -10, "PageDown": 10, "Home": -count, "End": count}
        if key in tests:
            return self.jump(place, tests[key], way)
        if shift:
            slot = self.slot(place)
            return self.jump(place, lambda turn: turn.slot == slot, -1 if key == "ArrowLeft" else 1)
        if key in ("ArrowUp", "ArrowDown"):
            return self.lane(place, -1 if key == "ArrowUp" else 1)
        return max(0, min(count, place + steps[key]))


def turn_form(cycle: int, turn: Turn) -> list[Any]:
    """A turn of a trace as a page has it."""
    number = turn.number if turn.delivered is None else turn.delivered
    places = [-1 if at is None else at for at in (turn.fetch, turn.address)]
    entered = str(turn.entered) if turn.entered else None
    return [cycle, turn.slot, number, turn.outcome, turn.fault or 0, places[0], turn.access, places[1], entered]


class Page:
    """A page in a browser, with the run that it shows: the image, and the words for its schedule."""

    def __init__(
        self, browser: Browser, program: Program, built: Built, order: Sequence[str], path: str, name: str
    ) -> None:
        self.browser, self.program, self.built, self.order = browser, program, built, list(order)
        self.path, self.name = path, name
        self.wrong: list[str] = []
        self.moments = 0
        self.turns: list[Turn] = []

    def fail(self, text: str) -> None:
        self.wrong.append(f"{self.name}: {text}")

    def open(self) -> None:
        """Opens the page; what was said before of other pages is forgotten."""
        self.browser.complaints.clear()
        self.browser.asked.clear()
        self.browser.open(self.path)

    def go(self, place: int) -> None:
        self.browser.run(f"goTo({place})")
        self.browser.drawn()

    @property
    def count(self) -> int:
        return int(self.browser.run("TURNS.length"))

    def walk(self) -> None:
        """Each turn, of long runs each tenth, and the end; and that its turns are those of the trace."""
        self.compare_turns()
        self.browser.run("document.querySelectorAll('details').forEach((it) => { it.open = true; })")
        every = 1 if self.count <= EACH_TURN else 10
        for place in [*range(0, self.count, every), self.count]:
            self.go(place)
            self.compare(place)
        self.browser.run("document.querySelectorAll('details').forEach((it) => { it.open = false; })")

    def compare_turns(self) -> None:
        words = ["trace", self.built.path, str(self.browser.run("RUN.last")), *self.order]
        turns = filter(None, map(read_turn, self.program.run(words).text.splitlines()))
        schedule = read_schedule(read_bytes(self.order[0])) if self.order else None
        cycles = list(numbered(turns, schedule))
        self.turns = [turn for _, turn in cycles]
        wanted = [turn_form(cycle, turn) for cycle, turn in cycles]
        shown = self.browser.run(TURNS)
        for place, (one, other) in enumerate(zip_longest(shown, wanted), 1):
            if one != other:
                return self.fail(f"turn {place} is {one}, and of the trace {other}")

    def compare(self, place: int, in_c: bool = True) -> None:
        """What is shown at a place, against the report there; `in_c` where lines of C are wanted."""
        cycle = self.browser.run(f"{place} ? TURNS[{place} - 1].cycle : RUN.first - 1")
        answer = self.program.run(["run", self.built.path, str(cycle), *self.order])
        seen = Seen(self.browser, self.built)
        self.moments += 1
        if (seen.shown["place"], seen.shown["now"]) != (place, place):
            self.fail(f"it is at {seen.shown['place']} and not at {place}")
        turn = self.turns[place - 1] if 0 < place <= len(self.turns) else None
        report = read_report(answer.text.splitlines())
        found = [*seen.differences(report), *seen.turn_differences(cycle, turn, in_c)]
        for difference in [*found, *seen.variable_differences(report, turn)]:
            self.fail(f"cycle {cycle}: {difference}")

    def sources(self) -> None:
        """Where a source was made of C, its own lines can be chosen, and then the lines of C again; what is chosen is
        shown."""
        files = self.browser.run("RUN.names.sources.map((it) => Boolean(it.c))")
        for in_c in (False, True) if True in files else ():
            for place in (1, self.count // 2, self.count):
                self.go(place)
                self.choose(files.index(in_c))
                self.go(max(0, place - 1))
                self.go(place)
                self.compare(place, in_c)

    def choose(self, file: int) -> None:
        """Chooses a file, which is shown then."""
        self.browser.run(CHOOSE % file)
        if self.browser.run("source.shown") != file:
            self.fail(f"file {file} is chosen, and {self.browser.run('source.shown')} is shown")

    @property
    def place(self) -> int:
        return int(self.browser.run("cursor.place"))

    def leads(self, what: str, key: str, do: Callable[[], None]) -> None:
        """Whether something leads where a key has to, by the trace."""
        word = int(self.browser.run("document.getElementById('word').value || -1"))
        cursor, before = Cursor(self.turns, [slot.number for slot in self.built.image.slots], word), self.place
        do()
        wanted = cursor.after(before, key.lstrip("+"), key.startswith("+"))
        if self.place != wanted:
            self.fail(f"{what} leads from {before} to {self.place}, and not to {wanted}")

    def by_keyboard(self) -> None:
        """Each key leads where it has to."""
        self.browser.run("document.getElementById('timeline').focus()")
        for key in KEYS:
            self.leads(f"the key {key}", key, lambda: self.browser.key(key.lstrip("+"), shift=key.startswith("+")))
        self.tab_through()
        self.list_of_keys()

    def by_mouse(self) -> None:
        """Each button that is on leads where its key does, and a click on the box of a turn leads there."""
        self.browser.run("document.activeElement.blur(); scrollTo(0, 0)")
        for button, key in BUTTONS.items():
            name = f'[data-go="{button}"]'
            if not self.browser.run(f"document.querySelector('{name}').disabled"):
                self.leads(f"the button {button}", key, lambda: self.browser.click(*self.browser.run(MIDDLE % name)))
        for place in (self.count, self.count - 1, 1, 2) if self.count > 1 else ():
            self.go(place)
            wanted = place - 1 if place > 1 else place + 1
            self.browser.click(*self.browser.run(BOX % wanted))
            if self.place != wanted:
                self.fail(f"a click on the box of turn {wanted} leads to {self.place}")

    def list_of_keys(self) -> None:
        self.browser.key("?", shift=True)
        if not self.browser.run("document.getElementById('help').open"):
            self.fail("? does not open the list of keys")
        self.browser.key("Escape")
        if self.browser.run("document.getElementById('help').open"):
            self.fail("Escape does not close the list of keys")

    def tab_through(self) -> None:
        """By Tab to all that takes the focus: it is seen where it is, and a word opens and closes by Enter."""
        self.go(min(5, self.count))
        self.browser.run("document.querySelector('.skip').focus()")
        reached: set[str] = set()
        for _ in range(120):
            self.browser.key("Tab")
            at = self.browser.run(FOCUS)
            if at is None or REACHED <= reached:
                break
            if not at[1]:
                self.fail(f"the focus on {at[0]} cannot be seen")
            if at[0] == "a word" and "a word" not in reached:
                self.open_word()
            reached.add(at[0])
        if REACHED - reached:
            self.fail(f"Tab does not reach {', '.join(sorted(REACHED - reached))}")

    def open_word(self) -> None:
        """The word that has the focus is taken apart by Enter, and closed by it."""
        for wanted in (True, False):
            self.browser.key("Enter")
            said = self.browser.run("document.activeElement.getAttribute('aria-expanded') === 'true'")
            shown = self.browser.run("Boolean(document.querySelector('.fields'))")
            if (said, shown) != (wanted, wanted):
                self.fail(f"a word does not {'open' if wanted else 'close'} by Enter")

    def names(self) -> None:
        """Each thing that is worked with has a name, and there are the landmarks and headings of the page."""
        roles: dict[str, list[str]] = {}
        for node in self.browser.call("Accessibility.getFullAXTree")["nodes"]:
            if not node.get("ignored"):
                role, name = (node.get(key, {}).get("value", "") for key in ("role", "name"))
                roles.setdefault(role, []).append(name)
        for role in NAMED:
            if role not in roles:
                self.fail(f"there is no {role}")
        for role in (*NAMED, *SPARE):
            if any(not name.strip() for name in roles.get(role, [])):
                self.fail(f"a {role} has no name")
        for role in LANDMARKS:
            if len(roles.get(role, [])) != 1:
                self.fail(f"there are {len(roles.get(role, []))} of the landmark {role}")

    def shows(self, what: str, wanted: Sequence[str]) -> None:
        """Whether the text of an element has some words."""
        shown = self.browser.run(f"(document.querySelector({what!r}) || document.createElement('p')).textContent")
        for words in wanted:
            if words not in shown:
                self.fail(f"{what} does not show {words!r} but {shown[:200]!r}")

    def sizes(self, pictures: Optional[str]) -> None:
        """In windows of all sizes, light and dark, nothing is wider than the window, and no button is cut."""
        self.go(min(self.count, 12))
        self.browser.run("document.activeElement.blur(); scrollTo(0, 0)")
        for dark in (False, True):
            for width, height in WIDTHS:
                phone = width < PHONE
                self.browser.size(width, height, 2 if pictures and phone else 1, dark, phone)
                self.browser.drawn()
                if self.browser.run("document.documentElement.scrollWidth") > width:
                    self.fail(f"it is wider than {width}")
                for text in self.browser.run(CUT):
                    self.fail(f"the button {text!r} is cut at {width}")
                if pictures:
                    name = f"{self.name}-{width}{'-dark' if dark else ''}.png"
                    self.browser.picture(os.path.join(pictures, name), whole=phone)
        self.browser.size(1280, 800)

    def quiet(self) -> None:
        """Nothing was said on the console, and nothing was asked for but the page."""
        for text in self.browser.complaints:
            self.fail(f"the console says: {text}")
        for url in self.browser.asked:
            if url != f"file://{self.path}":
                self.fail(f"it asks for {url}")


# What lesson 5 tells to look at, on the page of the counter: the turns in the gate, each with what is said of it.
GATE_TURNS: tuple[Sequence[str], ...] = (
    ["lip r7, gate", "at door: line 20", "in gate"],
    ["loads gate: rw 2^3 count"],
    ["loads count: 0"],
    ["addi r8, r8, 1"],
    ["stores to count"],
    ["ldi r7, 0"],
    ["jmp r6"],
    ["addi r3, r3, -1", "in cons"],
)
CARD = '.card[data-slot="1"]'


def follow_gate_lesson(page: Page) -> None:
    """The lesson on gates, followed on the page alone: each thing that it tells to look at is seen there."""

    def register(name: str) -> str:
        return f'{CARD} tr[data-register="{name}"]'

    def click(name: str) -> Any:
        return page.browser.run(f"document.querySelector('{register(name)} .word').click()")

    page.browser.run("document.getElementById('timeline').focus()")
    page.browser.key("Home")
    page.browser.key("e")
    page.shows("#turn", ["jal r6, r5", "enters gate at door", "in cons"])
    page.shows(register("r5"), ["eu 2^6", "door"])
    click("r5")
    fields = ["0101", "5: enter-user (eu)", "2^6 = 64 bytes", "0x1000c8 = base + 8", "0x1000c0 gate"]
    page.shows(f"{CARD} .fields", fields)
    click("r5")
    for shown in GATE_TURNS:
        page.browser.key("ArrowRight", shift=True)
        page.shows("#turn", shown)
        if shown == ["stores to count"]:
            page.shows("#memory tr.changed", ["count", "1"])
        if shown == ["ldi r7, 0"]:
            page.shows(f"{CARD} tr.changed[data-register='r7']", ["r7", "0"])
    page.browser.key("End")
    page.shows(register("r8"), ["2"])
    # A register that was not 0 keeps its row, so that rows do not jump.
    page.shows(register("r7"), ["r70"])
    page.shows("#segments .segment:last-child", ["count", "2"])
