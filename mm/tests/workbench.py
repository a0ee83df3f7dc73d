"""The page of `mm serve`, used in a browser as a reader uses it: he types, mends, runs, steps, breaks, grades and
looks."""

from __future__ import annotations

import json
import os
import time
from typing import Any, Optional

from mm.tests import stumbles
from mm.tests.browser import Browser, Failed
from mm.tests.serving import Served
from mm.tests.support import mm, read

SECONDS = 30
# The window sizes that are tried, with what is pictured of them.
WIDTHS = ((1400, 900), (1920, 1080), (1024, 768), (768, 1024), (390, 844), (320, 640))
PHONE = 500
NAMED = ("button", "textbox", "combobox", "tab", "link", "spinbutton")
LANDMARKS = ("main", "banner")
BAD = """\
.segment main 6
  ldi r1, 72
  outt r1
  halt
.thread 0 0 none xu main
"""
LOOP = """\
; Puts out 321.
.segment main 7
  ldi r2, 3
  ldi r4, 48
again: add r3, r2, r4
  out r3
  addi r2, r2, -1
  bnz r2, again
  halt
.thread 0 0 none xu main
"""
WIDE = "document.documentElement.scrollWidth"
ANSWERS = os.path.join("docs", "course", "answers")
OVERLAPS = """(() => [...document.querySelectorAll('button, select, input')].filter((it) => {
  const box = it.getBoundingClientRect();
  return it.checkVisibility() && box.width && (box.right > innerWidth + 1 || box.left < -1)
    && !it.closest('#editor, #offers, .skip, #panes');
}).map((it) => it.id || it.textContent))()"""


def programs(count: int) -> list[dict[str, Any]]:
    """Requests to run programs of the course."""
    names = [name for name in sorted(os.listdir(ANSWERS)) if name.endswith(".asm")]
    rows = [(os.path.join(ANSWERS, name), name) for name in names]
    more = ("counter.asm", "faults.asm", "kernel.asm", "mailbox.asm")
    rows += [(os.path.join("examples", name), name) for name in more]
    files = [[{"name": name, "text": read(path)}] for path, name in rows]
    return [{"do": "run", "files": files[at % len(files)]} for at in range(count)]


class Bench:
    """A browser with the page."""

    def __init__(self, browser: Browser, served: Served) -> None:
        self.browser, self.served = browser, served
        self.wrong: list[str] = []
        self.steps = 0
        # The servers that the page may ask.
        self.hosts = [served.host]

    def fail(self, said: str) -> None:
        self.wrong.append(said)

    def open(self, url: str) -> None:
        self.browser.call("Page.navigate", url="about:blank")
        self.browser.call("Page.navigate", url=url)
        self.until("document.documentElement.dataset.ready === '1'", "the page opens")

    def run(self, script: str) -> Any:
        return self.browser.run(script)

    def until(self, script: str, what: str) -> bool:
        """Waits until something is so; what is never so is wrong."""
        self.steps += 1
        end, why = time.monotonic() + SECONDS, ""
        while time.monotonic() < end:
            try:
                if self.run(f"Boolean({script})"):
                    return True
            except Failed as error:
                why = f" ({error})"  # The page, or its frame, may just be another one.
            time.sleep(0.03)
        self.fail(f"this never comes: {what}{why}")
        return False

    def same(self, what: str, got: Any, wanted: Any) -> None:
        self.steps += 1
        if got != wanted:
            self.fail(f"{what}: {got!r} in place of {wanted!r}")

    # What a person does

    def press(self, name: str, ctrl: bool = False, shift: bool = False) -> None:
        """A key with its modifiers."""
        codes = {"F4": 115, "F6": 117, "F8": 119, "F9": 120, "F10": 121, "Enter": 13, "Tab": 9, "Escape": 27,
            "ArrowDown": 40}
        for kind in ("rawKeyDown", "keyUp"):
            self.browser.call("Input.dispatchKeyEvent", type=kind, key=name, code=name,
                windowsVirtualKeyCode=codes[name], modifiers=2 * ctrl + 8 * shift)
        self.browser.drawn()

    def type(self, text: str) -> None:
        """Another text in place of that of the source, as if it was typed."""
        self.run("document.getElementById('text').focus(); document.getElementById('text').select(); 1")
        self.browser.call("Input.insertText", text=text)
        self.browser.drawn()

    def caret(self, line: int) -> None:
        self.run(f"goToLine(file().name, {line}); 1")

    def click(self, selector: str) -> None:
        """A click in the middle of an element, which is scrolled to."""
        place = self.run(f"(() => {{ const it = document.querySelector({json.dumps(selector)}); if (!it) return null;"
            " it.scrollIntoView({ block: 'nearest', inline: 'nearest' }); const box = it.getBoundingClientRect();"
            " return [box.left + box.width / 2, box.top + box.height / 2]; })()")
        if place is None:
            return self.fail(f"there is no {selector}")
        self.browser.click(*place)

    def text(self, selector: str) -> str:
        return str(self.run(f"(document.querySelector({json.dumps(selector)}) || {{}}).textContent || ''"))

    def choose(self, identity: str, value: str) -> None:
        """Another choice of a list."""
        self.run(f"(() => {{ const it = document.getElementById({json.dumps(identity)});"
            f" it.value = {json.dumps(value)};"
            " it.dispatchEvent(new Event('change', { bubbles: true })); return it.value; })()")
        self.browser.drawn()

    def example(self, name: str) -> None:
        """An example in the editor; what was written there before may go."""
        self.choose("examples", name)
        self.click("#take")
        self.until(f"file().name === {json.dumps(name)} || document.getElementById('sure').open", "the example")
        if self.run("document.getElementById('sure').open"):
            self.answer("yes")
        self.until(f"file().name === {json.dumps(name)}", "the example after the question")

    def answer(self, value: str) -> None:
        """An answer to a question of the page."""
        self.until("document.getElementById('sure').open", "a question")
        self.click(f"#sure button[value='{value}']")

    def press_run(self) -> None:
        self.run("results.report = null; 1")
        self.press("Enter", ctrl=True)
        self.until("results.report && view.ready", "the run")

    @property
    def place(self) -> int:
        return int(self.run("inFrame().shown.cursor.place"))

    @property
    def line(self) -> Optional[int]:
        found = self.run("state.now && state.now.line")
        return int(found) if found else None

    # What is looked at

    def mistake(self) -> None:
        """A mistake is told while one types, at its line, and is gone when it is mended."""
        self.type(BAD)
        self.until("state.faults.length === 1", "the mistake")
        self.same("the line of the mistake", self.run("state.faults[0].line"), 3)
        told = self.text("#mistakes")
        if "there is no operation `outt`" not in told or "`out`" not in told:
            self.fail(f"the mistake is told as {told!r}")
        shown = self.run("document.querySelectorAll('#over .short, #over .said').length")
        self.same("the message at its line", shown, 1)
        self.caret(3)
        self.until("document.querySelector('#over .said')", "the hints at the line")
        self.type(BAD.replace("outt", "out"))
        self.until("!state.faults.length && state.slots.length === 1", "no mistake")

    def run_and_debug(self) -> None:
        """A run with its report, breaks by clicks on lines, steps forwards and back."""
        self.type(LOOP)
        self.until("state.slots.length === 1", "the check")
        self.press_run()
        wanted = mm("run", self.kept("loop.asm", LOOP)).out.replace(self.room + "/", "").replace("loop.asm", "mine.asm")
        self.same("the report", self.run("results.report.join('\\n') + '\\n'"), wanted)
        self.click("#gutter button[data-line='6']")
        self.same("the breaks", self.run("breaksOf('mine.asm')"), [6])
        self.click("[data-step='start']")
        places = []
        for _ in range(4):
            self.click("[data-step='resume']")
            places.append((self.place, self.line))
        self.same("the turns before a break", places, [(3, 6), (7, 6), (11, 6), (15, None)])
        self.click("[data-step='reverse']")
        self.same("the break before", (self.place, self.line), (11, 6))
        self.press("F10")
        self.press("F10")
        self.press("F10", shift=True)
        self.same("two steps and one back", (self.place, self.line), (12, 7))
        self.caret(5)
        self.press("F9")
        self.same("a break by its key", self.run("breaksOf('mine.asm')"), [6, 5])
        self.press("F8", shift=True)
        self.press("F8", shift=True)
        self.same("the break before by its key", (self.place, self.line), (10, 5))
        self.run("goToLine('mine.asm', 9); 1")
        self.click("[data-step='here']")
        self.same("run to the cursor", (self.place, self.line), (14, 9))
        self.run("inFrame().document.querySelector('#lines li[data-line=\"3\"]').click(); 1")
        self.same("a click on a line of the page", (self.place, self.run("state.done.line"), self.line), (1, 3, 4))
        self.type("; one more line\n" + LOOP)
        self.same("breaks move with their lines", sorted(self.run("breaksOf('mine.asm')")), [6, 7])

    def kept(self, name: str, text: str) -> str:
        path = os.path.join(self.room, name)
        with open(path, "w", encoding="utf-8") as file:
            file.write(text)
        return path

    @property
    def room(self) -> str:
        return self.browser.room

    def lesson_and_grade(self) -> None:
        """A lesson, an exercise, its grade: first of a program that is not it, then of one that is."""
        self.choose("lessons", "5")
        self.until("document.querySelector('#pane .lesson h3')", "the lesson")
        if "Gates" not in self.text("#pane .lesson h3"):
            self.fail("lesson 5 is another one")
        self.choose("exercises", "lab-2")
        self.click("#grade")
        self.until("results.marks", "the grade")
        self.same("the grade of another program", self.run("results.marks.right < results.marks.marks.length"), True)
        self.type(read("docs", "course", "answers", "lab2.asm"))
        self.click("#grade")
        self.until("results.marks && results.marks.right === results.marks.marks.length", "full marks")
        self.same("the marks that are shown", self.run("document.querySelectorAll('#pane .marks .yes').length"),
                  self.run("results.marks.marks.length"))

    def panes(self) -> None:
        """The audit, what a kernel keeps, each schedule with a run of it, and the order of turns by clicks."""
        self.example("counter.asm")
        self.click("[data-pane='audit']")
        self.until("document.querySelector('#pane pre') && document.querySelector('#pane img')", "the audit")
        if "apart" not in self.text("#pane pre"):
            self.fail(f"the audit says {self.text('#pane pre')[:80]!r}")
        self.click("[data-pane='keeps']")
        self.until("results.panes.keeps && document.querySelector('#pane img')", "what the kernel keeps")
        self.same("what keeps says", self.text("#pane .answer"), "yes: the kernel keeps gate and count")
        guessed = self.run("document.getElementById('pane-words').value")
        self.same("segments that only doors lead to", guessed, "gate count")
        self.example("race.asm")
        self.click("[data-pane='explore']")
        self.until("document.querySelector('#pane [data-turns]')", "schedules")
        turns = self.run("[...document.querySelectorAll('#pane [data-turns]')].pop().dataset.turns")
        self.run("results.report = null; [...document.querySelectorAll('#pane [data-turns]')].pop().click(); 1")
        self.until("results.report && view.ready", "the run of a schedule")
        self.same("the schedule of a finding", self.run("state.turns"), turns)
        self.same("the cursor at its end", self.place, self.run("inFrame().shown.TURNS.length"))
        self.run("document.getElementById('order').open = true; results.report = null; setTurns(''); 1")
        self.until("results.report && view.ready", "round robin")
        for slot in (1, 1, 0):
            self.run("results.report = null; 1")
            self.click(f"#next-turn [data-slot='{slot}']")
            self.until("results.report && view.ready", "a turn by a click")
        made = self.run("[state.turns, inFrame().shown.TURNS.map(({ slot }) => slot)]")
        self.same("turns by clicks", made, ["1*2 0", [1, 1, 0]])
        self.click("[data-pane='why']")
        self.run("for (const [name, text] of [['group', '0'], ['word', 'count'], ['kind', 'write']])"
            " document.getElementById(`pane-${name}`).value = text; 1")
        self.run("document.querySelector('#pane form').requestSubmit(); 1")
        self.until("results.panes.why", "why")

    def names(self) -> None:
        """Each thing that is worked with has a name, and the reading order is sources, run, panes."""
        roles: dict[str, list[str]] = {}
        for node in self.browser.call("Accessibility.getFullAXTree")["nodes"]:
            if not node.get("ignored"):
                role, name = (str(node.get(key, {}).get("value", "")) for key in ("role", "name"))
                roles.setdefault(role, []).append(name)
        for role in NAMED:
            self.steps += 1
            if any(not name.strip() for name in roles.get(role, [])):
                self.fail(f"a {role} has no name")
        for role in LANDMARKS:
            if len(roles.get(role, [])) < 1:
                self.fail(f"there is no landmark {role}")

    def tab_order(self) -> None:
        """Tab leads from the source to Run, then to the tabs of what came of it, and out of the source."""
        self.run("document.getElementById('text').focus(); 1")
        order = []
        for _ in range(40):
            self.press("Tab")
            script = "(({ id, dataset }) => id || dataset.pane || dataset.step || '')(document.activeElement)"
            order.append(self.run(script))
        wanted = ["run", "cycles"]
        places = [order.index(name) if name in order else -1 for name in wanted]
        if -1 in places or places != sorted(places):
            self.fail(f"Tab leads to {order}")

    def show(self) -> None:
        """The counter at its gate, with a break there, as pictures have it."""
        self.run("results.lesson = null; chooseExercise(''); 1")
        self.example("counter.asm")
        self.press_run()
        self.run("document.getElementById('order').open = false; tell(''); 1")
        self.run("toggleBreak(21); step('start').then(() => step('resume')); 1")
        self.browser.drawn()

    def sizes(self, pictures: Optional[str]) -> None:
        """In windows of all sizes, light and dark, nothing is wider than the window."""
        self.run("document.activeElement.blur(); 1")
        for dark in (False, True):
            for width, height in WIDTHS:
                phone = width < PHONE
                self.browser.size(width, height, 2 if pictures and phone else 1, dark, phone)
                for side in ("left", "right"):
                    self.run(f"showSide('{side}'); 1")
                    self.browser.drawn()
                    self.steps += 1
                    if self.run(WIDE) > width:
                        self.fail(f"the page is wider than {width}")
                    for name in self.run(OVERLAPS):
                        self.fail(f"{name!r} is outside of a window of {width}")
                    if pictures and (side == "left" or phone):
                        name = f"serve-{width}{'-' + side if phone else ''}{'-dark' if dark else ''}.png"
                        self.browser.picture(os.path.join(pictures, name))
        self.browser.size(1400, 900)

    def quiet(self) -> None:
        """Nothing was said on the console, and nothing was asked for but this server."""
        for text in self.browser.complaints:
            self.fail(f"the console says: {text}")
        ours = tuple(f"http://{host}/" for host in self.hosts)
        for url in self.browser.asked:
            if not url.startswith((*ours, "data:", "blob:", "about:")):
                self.fail(f"it asks for {url}")


def two_at_once(one: Bench, other: Bench) -> None:
    """Two browsers at once: each has its own program, and a link brings one's to the other."""
    one.run("state.turns = ''; showTurns(); 1")
    one.type(LOOP)
    other.type(BAD.replace("outt", "out"))
    for bench in (one, other):
        bench.run("results.report = null; run(); 1")
    for bench, said in ((one, 'output "321"'), (other, 'output "H"')):
        bench.until("results.report && view.ready", "a run in two browsers")
        bench.same("the run in two browsers", bench.run(f"results.report.join(' ').includes({json.dumps(said)})"), True)
    other.open(one.served.url + one.run("linkOf()"))
    other.answer("yes")
    other.until("location.hash && file().text.startsWith('; Puts out')", "the program of a link")
    other.same("the program of a link", other.run("file().text"), LOOP)


def look(path: str, pictures: Optional[str]) -> tuple[int, list[str]]:
    """All that is looked at: how many steps, and what is wrong."""
    with Served() as served, Browser(path) as browser, Browser(path) as second:
        bench, other = Bench(browser, served), Bench(second, served)
        for each in (bench, other):
            each.browser.size(1400, 900)
            each.open(served.url)
        bench.mistake()
        bench.run_and_debug()
        bench.lesson_and_grade()
        bench.panes()
        two_at_once(bench, other)
        bench.names()
        bench.tab_order()
        stumbles.all_of(bench)
        bench.show()
        bench.sizes(pictures)
        for each in (bench, other):
            each.quiet()
        return bench.steps + other.steps, bench.wrong + other.wrong
