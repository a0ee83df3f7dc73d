"""What readers of the page stumbled over, and what it does now: a step for each."""

from __future__ import annotations

import os
from typing import TYPE_CHECKING

from mm.tests.serving import Served
from mm.tests.support import read

if TYPE_CHECKING:
    from mm.tests.workbench import Bench

OWN = """\
; Mine.
.segment main 6
  ldi r1, 72
  out r1
  halt
.thread 0 0 none xu main
"""
LONG = ".segment main 10\n" + "  nop\n" * 46 + "  halt\n.thread 0 0 none xu main\n"
LEAKS = read("examples", "counter.asm").replace("  ldi r7, 0 ", "  nop       ")
# Where an element is, in letters of a line: how far its middle is from that of the line, and its left edge from the end
# of the text there.
BESIDE = """(() => {{ const said = document.querySelector('#over {kind}').getBoundingClientRect();
  const line = document.getElementById('ink').children[{line} - 1], text = document.createRange();
  text.selectNodeContents(line); const at = line.getBoundingClientRect(), end = text.getBoundingClientRect().right;
  return [Math.abs(said.top + said.height / 2 - at.top - at.height / 2) / at.height, said.left - end,
    (said.top - at.bottom) / at.height]; }})()"""
CARET_SEEN = """(() => { const line = document.getElementById('ink').children[caretLine() - 1].getBoundingClientRect();
  const box = document.getElementById('editor').getBoundingClientRect();
  return line.top >= box.top - 1 && line.bottom <= box.bottom + 1; })()"""
TIMELINE = """(() => { const inside = frame().contentDocument.getElementById('timeline').getBoundingClientRect();
  const { top } = frame().getBoundingClientRect();
  return [inside.width > 100, top + inside.bottom <= innerHeight]; })()"""


def messages(bench: Bench) -> None:
    """A message stands at its line, however far down that is; its hints do not cover it."""
    bench.type("\n" * 38 + OWN.replace("out r1", "outt r1"))
    bench.until("state.faults.length === 1", "a mistake far down")
    bench.run("document.activeElement.blur(); showMarks(); 1")
    off, room, _ = bench.run(BESIDE.format(kind=".short", line=42))
    if off > 0.2 or room < 2:
        bench.fail(f"the message of line 42 is {off:.1f} lines off, and {room:.0f} from the end of its text")
    bench.caret(42)
    bench.until("document.querySelector('#over .said')", "hints at a line far down")
    hints = bench.run("[...document.querySelectorAll('#over .said > div')].map((it) => it.textContent)")
    bench.same("the hints", hints, ["→ do you mean `out`?"])
    _, _, below = bench.run(BESIDE.format(kind=".said", line=42))
    if not -0.1 < below < 0.5:
        bench.fail(f"the hints of line 42 are {below:.1f} lines below it")
    bench.same("the mark of a tab with mistakes", bench.run(
        "getComputedStyle(document.querySelector('#files .wrong'), '::after').content.includes('\\u2715')"), False)


def nothing_is_lost(bench: Bench) -> None:
    """What somebody wrote goes only after a question, and can be brought back."""
    text = "file().text"
    bench.type(OWN)
    bench.run("document.getElementById('examples').focus(); 1")
    bench.press("ArrowDown")
    bench.choose("examples", "race.asm")
    bench.same("a choice alone", bench.run(text), OWN)
    bench.click("#take")
    bench.answer("")
    bench.same("the program after Cancel", bench.run(text), OWN)
    bench.click("#take")
    bench.answer("yes")
    bench.until("file().name === 'race.asm'", "the example")
    bench.same("the caret in an example", bench.run("document.getElementById('text').selectionStart"), 0)
    bench.click("#before")
    bench.click("#help [data-before='0']")
    bench.same("what was here before", bench.run(text), OWN)
    bench.choose("exercises", "lab-5")
    bench.click("[data-start]")
    bench.answer("yes")
    bench.until("file().name === 'lab-5.asm'", "the beginning of an exercise")
    bench.click("#take")
    bench.until("file().name === 'race.asm'", "no question for what is not one's own")
    bench.run("chooseExercise(''); 1")


def tabs_and_files(bench: Bench) -> None:
    """Remove asks; Save and Open say what they do."""
    bench.run("takeProgram([{ name: 'a.asm', text: 'nop' }, { name: 'b.asm', text: '' }]); chooseFile(1); 1")
    bench.type("; a part of mine\n")
    bench.click("#remove")
    bench.answer("")
    bench.same("the tabs after Cancel", bench.run("state.files.length"), 2)
    bench.click("#remove")
    bench.answer("yes")
    bench.until("state.files.length === 1", "a tab that is removed")
    bench.same("the tab that was removed", bench.run("programsBefore()[0].files[0].text"), "; a part of mine\n")
    bench.click("#save")
    bench.same("Save says", bench.text("#told"), "a.asm is saved")
    bench.run("openFiles([new File(['; of a file\\n'], 'read.asm')]); 1")
    bench.answer("beside")
    bench.until("state.files.length === 2 && file().name === 'read.asm'", "a file beside the program")
    bench.run("openFiles([new File(['; another\\n'], 'alone.txt'), new File(['x'], 'noise.bin')]); 1")
    bench.answer("alone")
    bench.until("state.files.length === 1 && file().name === 'alone.asm'", "a file in place of the program")
    if "noise.bin is not taken" not in bench.text("#busy"):
        bench.fail(f"of a file that is no source it says {bench.text('#busy')!r}")


def links(bench: Bench) -> None:
    """After a letter typed in a linked program the address is that of the page, so a reload shows what was written. A
    link can be copied without the clipboard of a page over HTTPS."""
    bench.type(OWN)
    bench.run("state.base = baseOf(state.files); keep(); 1")
    bench.open(bench.served.url + bench.run("linkOf()"))
    bench.until("location.hash && file().text.startsWith('; Mine.')", "a linked program")
    bench.type(OWN + "; more\n")
    bench.same("the address after a letter", bench.run("location.hash"), "")
    bench.browser.call("Page.reload")
    bench.until("document.documentElement.dataset.ready === '1' && file().text.endsWith('; more\\n')", "what I wrote")
    bench.run("Object.defineProperty(navigator, 'clipboard', { value: undefined, configurable: true }); 1")
    bench.click("#link")
    bench.until("document.querySelector('#help pre')", "a link")
    bench.click("#help pre + button")
    bench.same("Copy says", bench.text("#help pre + button"), "Copied")
    bench.run("document.getElementById('help').close(); 1")


def begun_with_files(bench: Bench) -> None:
    """What was written in a file that the server was started with is there after a reload."""
    with Served(os.path.join("examples", "hello.asm")) as served:
        bench.hosts.append(served.host)
        bench.open(served.url)
        bench.same("the file", bench.run("file().text"), read("examples", "hello.asm"))
        bench.type(OWN)
        bench.open(served.url)
        bench.same("the file after a reload", bench.run("file().text"), OWN)
    bench.open(bench.served.url)


def order(bench: Bench) -> None:
    """An example runs in round robin; its own order is offered, and a run that ends with its order says so."""
    bench.example("counter.asm")
    bench.press_run()
    bench.same("the run of counter.asm", bench.run("results.report[0]"), "36 cycles, round robin")
    bench.run("document.getElementById('order').open = true; results.report = null; 1")
    bench.click("#its-turns")
    bench.until("results.report && view.ready", "the program's own order")
    bench.same("the run in its own order", bench.run("inFrame().shown.TURNS.length"), 6)
    if "your order of turns ends, after 6 turns" not in bench.text("#notices"):
        bench.fail(f"a run that ends with its order says {bench.text('#notices')!r}")
    bench.run("results.report = null; setTurns('0*3 7'); 1")
    bench.until("results.report && view.ready", "a turn of a slot that is not there")
    if "did nothing" not in bench.text("#notices"):
        bench.fail(f"a turn of a slot that is not there says {bench.text('#notices')!r}")
    bench.type(OWN)
    bench.same("the order after another program", bench.run("state.turns"), "")
    bench.press_run()
    bench.same("what is said of round robin", bench.text("#notices"), "")


def line_in_sight(bench: Bench) -> None:
    """The line in which somebody types stays in sight when mistakes come below it."""
    for width, height in ((1366, 768), (390, 480)):
        bench.browser.size(width, height, 1, False, width < 500)
        bench.run("showSide('left'); 1")
        bench.type(LONG)
        bench.caret(47)
        for _ in range(6):
            bench.browser.call("Input.insertText", text="  outt r1\n")
        bench.until("state.faults.length === 6", "six mistakes")
        bench.browser.drawn()
        if not bench.run(CARET_SEEN):
            bench.fail(f"the line in which one types is out of sight at {width}x{height}")
    bench.browser.size(1400, 900)
    bench.type(LONG.replace("  nop", "  nop ; " + "wide " * 30, 1))
    bench.caret(3)
    bench.run("document.getElementById('editor').scrollLeft = 6; 1")
    bench.browser.call("Input.insertText", text=" ")
    bench.same("the source to the right", bench.run("document.getElementById('editor').scrollLeft"), 0)


def projector(bench: Bench) -> None:
    """With the largest letters at 1280x720, Run and the timeline are there without a search."""
    bench.type(OWN)
    bench.press_run()
    bench.browser.size(1280, 720)
    bench.run("setSize(1); setSize(1); setSize(1); 1")
    bench.browser.drawn()
    bench.same("Run in the window", bench.run("(({ top, bottom }) => top >= 0 && bottom <= innerHeight)"
        "(document.getElementById('run').getBoundingClientRect())"), True)
    bench.same("the timeline in the window", bench.run(TIMELINE), [True, True])
    high = bench.run("document.querySelector('.top').offsetHeight")
    if high > 110:
        bench.fail(f"the header takes {high} pixels")
    bench.run("setSize(-1); setSize(-1); setSize(-1); 1")
    bench.browser.size(1400, 900)


def breaks(bench: Bench) -> None:
    """A break where nothing is carried out is not set, and the cursor in such a line leads nowhere: both say so."""
    bench.type(OWN)
    bench.press_run()
    bench.click("#gutter button[data-line='2']")
    bench.same("a break at a directive", [bench.run("breaksOf(file().name)"), bench.text("#told")],
        [[], "line 2 has no instruction, so nothing stops there"])
    place = bench.place
    bench.run("goToLine(file().name, 1); 1")
    bench.click("[data-step='here']")
    bench.same("to the cursor in a comment", [bench.place, bench.text("#told")],
        [place, "line 1 has no instruction: no turn is there"])
    bench.click("#gutter button[data-line='4']")
    bench.click("[data-step='start']")
    bench.click("[data-step='resume']")
    bench.same("before a break", [bench.place, bench.line, bench.text("#stand")],
        [1, 4, "done: cycle 1, slot 0, line 3; next: cycle 2, slot 0, line 4"])
    bench.click("#gutter button[data-line='4']")


def answers(bench: Bench) -> None:
    """An answer about an older text is marked; questions offer what there is; an audit leads to what a kernel keeps."""
    bench.example("counter.asm")
    bench.click("[data-pane='audit']")
    bench.until("document.querySelector('#pane pre')", "the audit")
    bench.run("document.getElementById('text').focus(); 1")
    bench.browser.call("Input.insertText", text="; typed\n")
    if "before your last change" not in bench.text("#notices"):
        bench.fail(f"of an older audit it says {bench.text('#notices')!r}")
    bench.click("#notices button")
    bench.until("!document.querySelector('#notices button')", "the audit anew")
    bench.click("[data-pane='why']")
    bench.click("#pane form button")
    if "Say a word" not in bench.text("#pane .missing"):
        bench.fail(f"Why with nothing says {bench.text('#pane .missing')!r}")
    bench.click("#pane [data-name='count']")
    bench.run("document.getElementById('pane-group').value = '1'; 1")
    bench.click("#pane form button")
    bench.until("document.querySelector('#pane pre')", "why")
    bench.run("results.words.why = ['0', 'nowhere', 'write']; askPane('why'); 1")
    bench.until("results.panes.why.stopped", "why of a word that is not there")
    bench.same("why of a word that is not there", "`mm " in bench.text("#pane"), False)
    bench.click("[data-pane='audit']")
    bench.until("document.querySelector('#pane .notes button')", "the way to Keeps")
    bench.click("#pane .notes button")
    bench.until("results.pane === 'keeps' && document.querySelector('#pane .answer')", "Keeps")


def keeps(bench: Bench) -> None:
    """The answer comes first, its line is a button, and segments are guessed anew for each program."""
    bench.type(LEAKS)
    bench.click("[data-pane='audit']")
    bench.click("[data-pane='keeps']")
    bench.until("document.querySelector('#pane .answer.no') && !document.querySelector('#notices button')", "a leak")
    bench.same("the answer is first", bench.run(
        "document.querySelector('#pane .answer').compareDocumentPosition(document.querySelector('#pane img')) & 4"), 4)
    bench.same("the line of a leak in the source", bench.run("document.querySelectorAll('#under .leak').length"), 1)
    bench.click("#pane .goto")
    bench.same("the line of a leak", bench.run("linesOf(file().text)[caretLine() - 1].trim()"), "jmp r6")
    bench.run("window.scrollTo(0, 0); 1")
    bench.example("bank.asm")
    bench.click("[data-pane='audit']")
    bench.click("[data-pane='keeps']")
    bench.until("document.querySelector('#pane .answer')", "another kernel")
    bench.same("segments of another kernel", bench.run("document.getElementById('pane-words').value"), "gate account")
    bench.example("hello.asm")
    bench.click("[data-pane='keeps']")
    bench.until("document.querySelector('#pane .notes')", "a program without doors")
    if "only doors lead" not in bench.text("#pane .notes"):
        bench.fail(f"of a program without doors it says {bench.text('#pane .notes')!r}")


def exercises(bench: Bench) -> None:
    """A check has a word of explanation; a grade is marked when another program is there; a lesson has its pictures."""
    bench.choose("exercises", "lab-2")
    shown = bench.text("#pane")
    for said, there in (("executes SLOT OPERATION..: the slot", True), ("mm grade lab-2", False)):
        bench.same(f"{said!r} in an exercise", said in shown, there)
    bench.same("the button that grades", bench.text("#grade"), "Grade lab-2")
    bench.click("#grade")
    bench.until("results.marks", "a grade")
    bench.type(OWN)
    if "before your last change" not in bench.text("#notices"):
        bench.fail("the grade of another program has no mark")
    bench.run("chooseExercise(''); 1")
    bench.choose("lessons", "2")
    bench.until("document.querySelector('#pane .lesson img')?.naturalWidth", "the picture of a lesson")
    bench.choose("lessons", "")


def offers(bench: Bench) -> None:
    """Only what may stand at a place is offered there."""
    for begun, wanted in (("  ld r1, r2, 0, ", ["any", "full", "empty"]), (".thread 0 0 none ", ["xu", "xp"]),
                          ("  ld r1, r2, ", []), ("  br ", ["main"])):
        lines = [".segment main 6", begun]
        bench.type("\n".join(lines))
        bench.run("showOffers(true); 1")
        bench.same(f"what is offered after {begun!r}", bench.run("offered.list.map(([name]) => name)"), wanted)
    bench.run("hideOffers(); 1")


def instructions(bench: Bench) -> None:
    """The page lists all instructions, and says what the machine is."""
    bench.type("\n" + OWN)
    bench.caret(1)
    bench.click("#explains button")
    said = bench.text("#help")
    for wanted in ("bnz ra, LABEL", ".thread SLOT GROUP", "only privileged code makes a pointer"):
        bench.same(f"{wanted!r} in the list of instructions", wanted in said, True)
    bench.run("document.getElementById('help').close(); 1")


def one_list_of_keys(bench: Bench) -> None:
    """There is one button Keys, and it leads to those of the run too."""
    bench.type(OWN)
    bench.press_run()
    there = bench.run("frame().contentDocument.getElementById('keys').checkVisibility()")
    bench.same("a second button Keys", there, False)
    bench.click("#keys")
    bench.click("#keys-of-run")
    bench.same("the keys of the run", bench.run("frame().contentDocument.getElementById('help').open"), True)
    bench.run("frame().contentDocument.getElementById('help').close(); 1")


STEPS = (messages, nothing_is_lost, tabs_and_files, links, begun_with_files, order, line_in_sight, projector, breaks,
         answers, keeps, exercises, offers, instructions, one_list_of_keys)  # fmt: skip


def all_of(bench: Bench) -> None:
    """All of them. A step that breaks off is told with its name."""
    for step in STEPS:
        before = len(bench.wrong)
        step(bench)
        bench.run("document.querySelectorAll('dialog[open]').forEach((box) => box.close()); 1")
        bench.wrong[before:] = [f"{step.__name__}: {line}" for line in bench.wrong[before:]]
