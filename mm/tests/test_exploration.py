"""`mm explore`: what is found under every schedule, in words and in the form of --json."""

import json
import unittest

from mm.names.symbols import Symbols
from mm.outputs.exploration import read_exploration
from mm.tests.support import folder, mm, write
from mm.views.exploration import ExplorationView
from mm.views.exploreddata import ExploredForm

TEXT = """explored 12 more
group 0
touched 00000000100000 3
touched 00000000100040 1
wrote 00000000100040 1
group 2
fault 1 3
by 0 1*4
fault 1 11
by 0 1*5
outcome 2 ended
slot 0 halted
slot 1 faulted 3
group 0 output 3
o 41420a
group 2 output 0
by 0*3 1*4
outcome 1 stuck
slot 0 running
slot 1 halted
group 0 output 0
group 2 output 0
by
outcome 3 endless
slot 0 running
slot 1 busy
group 0 output 0
group 2 output 0
by 0 1
"""
NOBODY = "no outcome leaves a thread waiting"
# A thread that waits for a word for ever, one that goes round, one that stays at a branch, and one whose handler never looks.
ROUND = """.segment waits 4
  ld r2, r1, 0, full, empty
  halt
.segment round 4
again:
  nop
  br again
.segment stays 3
here:
  br here
.segment traps 4
  trap 7
  halt
.segment never 3
  .empty .int 0
.thread 0 0 none xu waits
.reg 1 ptr rw never
.thread 1 0 none xu round
.thread 2 0 none xu stays
.thread 3 1 1 xu traps
"""


def shown(text, meant=()):
    return list(ExplorationView(Symbols(), meant=set(meant)).lines(read_exploration(text)))


class Exploration(unittest.TestCase):
    def test_what_is_read(self):
        found = read_exploration(TEXT)
        self.assertEqual((found.count, found.all), (12, False))
        self.assertEqual([(g.group, g.touched, g.wrote) for g in found.groups],
                         [(0, [(0x100000, 3), (0x100040, 1)], [(0x100040, 1)]), (2, [], [])])  # fmt: skip
        self.assertEqual(found.faults, [(1, 3, "0 1*4"), (1, 11, "0 1*5")])
        first, second, third = found.outcomes
        self.assertEqual((first.ended, first.states, first.outputs, first.schedule),
                         (True, {0: "halted", 1: "faulted 3"}, {0: b"AB\n", 2: b""}, "0*3 1*4"))  # fmt: skip
        self.assertEqual((second.kind, second.schedule, second.waiting, second.busy), ("stuck", "", [0], []))
        self.assertEqual((third.kind, third.schedule, third.waiting, third.busy), ("endless", "0 1", [0], [1]))
        self.assertEqual([each.count for each in found.outcomes], [2, 1, 3])

    def test_what_is_shown(self):
        lines = shown(TEXT)
        for line in (
            "12 configurations, there are more: what is missing below may be in those",
            "  touches 0x100000 and the 2 words after it",
            "  writes  0x100040",
            "slot 1 can be stopped by fault 3 Bounds: the address is outside the pointer's segment",
            "  under the schedule 0 1*4",
            "outcome 1: it ends",
            '  group 0 prints "AB\\n"',
            "outcome 2: it is stuck: slots run, and nothing changes any more",
            "  under the schedule without turns",
            "outcome 3: it goes on for ever: slot 1 is busy, and slot 0 waits",
            "  slot 0 running",
            "  slot 1 busy",
        ):
            self.assertIn(line, lines)
        self.assertNotIn(NOBODY, lines)

    def test_where_nobody_waits(self):
        text = TEXT.replace(" more", " all").replace("slot 0 running", "slot 0 busy")
        self.assertEqual(shown(text)[-2:], ["", NOBODY])
        self.assertIn("outcome 3: it goes on for ever: slots 0 and 1 are busy", shown(text))
        self.assertNotIn(NOBODY, shown(text.replace(" all", " more")))
        for state in ("running", "waiting", "taken"):
            self.assertNotIn(NOBODY, shown(text.replace("slot 1 halted", f"slot 1 {state}")))

    def test_faults_that_are_meant(self):
        self.assertIn("1 fault is meant, and not shown", shown(TEXT, [11]))
        self.assertIn("2 faults are meant, and not shown", shown(TEXT, [11, 3]))
        for meant, there in (((), [True, True]), ((11,), [True, False]), ((3, 11), [False, False]), ((2,), [True, True])):
            text = "\n".join(shown(TEXT, meant))
            self.assertEqual([f"by fault {number} " in text for number in (3, 11)], there)
            self.assertEqual("meant" in text, False in there)

    def test_names_and_ends(self):
        ended = mm("explore", "docs/course/race.asm")
        self.assertEqual((ended.status, ended.err), (0, ""))
        for line in ("these are all", "touches code and the 4 words after it", 'prints "AB"', 'prints "AA"', f"\n{NOBODY}\n"):
            self.assertIn(line, ended.out)

    def test_places_of_faults(self):
        out = mm("explore", "examples/kernel.asm").out
        self.assertIn("slot 1 can be stopped at client_b+8 by fault 2 Perm", out)
        self.assertIn("  examples/kernel.asm:32: ld r4, r5, -16, any, keep", out)
        out = mm("explore", "examples/server.asm").out
        self.assertIn("slot 1 can be stopped at polite by fault 11 Trap", out)
        self.assertNotIn("Trap", mm("explore", "examples/server.asm", "--meant", "Trap").out)
        self.assertEqual(mm("explore", "examples/server.asm", "--meant", "Trip").status, 1)

    def test_a_slot_whose_handler_is_there(self):
        """It is stopped until the handler resumes it; at the end it may still wait for that."""
        with folder() as room:
            out = mm("explore", write(room, "k.asm", ".segment a 4\n trap 1\n halt\n.segment b 3\n halt\n"
                ".thread 0 0 1 xu a\n.thread 1 1 none xu b\n")).out
        self.assertIn("slot 0 can be stopped at a by fault 11 Trap: a trap instruction, and slot 1 serves it", out)
        self.assertIn("  slot 0 has faulted at a, and its handler has not looked yet", out)
        self.assertIn("  trap 1, which the handler has to answer", out)
        self.assertNotIn(NOBODY, out)

    def test_what_stuck_slots_wait_for(self):
        out = mm("explore", "docs/course/locks.asm").out
        self.assertIn("  slot 0 waiting at ld r4, r2, 0, full, empty for right to be full, for ever\n", out)

    def test_what_slots_wait_for_at_each_end(self):
        """Two threads print and then wait for ever: two ends, which differ in the order of what is printed."""
        text = ".segment a 4\n out r5\n ld r3, r1, 0, full, empty\n.segment never 3\n .empty .int 0\n"
        text += "".join(f".thread {slot} 0 none xu a\n.reg 1 ptr rw never\n.reg 5 int {65 + slot}\n" for slot in (0, 1))
        with folder() as room:
            out = mm("explore", write(room, "k.asm", text)).out
        ends = out.split("\noutcome ")[1:]
        self.assertEqual(len(ends), 2)
        for end, printed in zip(ends, ("AB", "BA")):
            for slot in (0, 1):
                self.assertIn(f"  slot {slot} waiting at ld r3, r1, 0, full, empty for never to be full, for ever\n", end)
            self.assertIn(f'group 0 prints "{printed}"', end)

    def test_what_goes_on_for_ever(self):
        with folder() as room:
            out = mm("explore", write(room, "k.asm", ROUND)).out
        self.assertIn(
            "outcome 1: it goes on for ever: slot 1 is busy, and slots 0 and 2 wait\n"
            "  slot 0 waiting at ld r2, r1, 0, full, empty for never to be full, for ever\n"
            "  slot 1 busy\n"
            "  slot 2 running at br stays, for ever\n"
            "  slot 3 has faulted at traps, and its handler has not looked yet\n"
            "  under the schedule 3\n",
            out,
        )
        self.assertNotIn(NOBODY, out)

    def test_states(self):
        self.assertIn("5 configurations, there are more", mm("explore", "docs/course/race.asm", "--states", "5").out)
        for number in ("0", "100000001", "many"):
            ended = mm("explore", "docs/course/race.asm", "--states", number)
            self.assertEqual(ended.status, 1)
            self.assertIn("--states is a number from 1 to 100000000", ended.err)


class Form(unittest.TestCase):
    """The form of --json."""

    def test_what_is_read(self):
        form = ExploredForm(Symbols(), 12, read_exploration(TEXT), {}, {("0 1", 0): "waiting"}, {11}, None).form()
        self.assertEqual((form["form"], form["states"], form["configurations"], form["all"], form["wrote"]), (1, 12, 12, False, None))
        self.assertEqual(form["groups"][0]["touched"], [{"address": "0x100000", "name": None, "words": 3},
                                                        {"address": "0x100040", "name": None, "words": 1}])  # fmt: skip
        self.assertEqual([(each["slot"], each["number"], each["fault"], each["meant"], each["schedule"]) for each in form["faults"]],
                         [(1, 3, "Bounds", False, "0 1*4"), (1, 11, "Trap", True, "0 1*5")])  # fmt: skip
        self.assertEqual((form["faults"][0]["address"], form["faults"][0]["source"]), (None, None))
        self.assertEqual([(each["outcome"], each["count"]) for each in form["outcomes"]], [("ended", 2), ("stuck", 1), ("endless", 3)])
        first, second, third = (each["slots"] for each in form["outcomes"])
        self.assertEqual(first[1], {"slot": 1, "state": "faulted", "fault": 3, "waits": None})
        self.assertEqual(second[0], {"slot": 0, "state": "running", "fault": None, "waits": None})
        self.assertEqual(third, [{"slot": 0, "state": "running", "fault": None, "waits": "waiting"},
                                 {"slot": 1, "state": "busy", "fault": None, "waits": None}])  # fmt: skip
        self.assertEqual(form["outcomes"][0]["groups"][0], {"group": 0, "output": {"hex": "41420a", "text": "AB\n"}})

    def test_places(self):
        form = json.loads(mm("explore", "examples/kernel.asm", "--json").out)
        fault = form["faults"][0]
        self.assertEqual((fault["slot"], fault["fault"], fault["name"], fault["instruction"], fault["source"], fault["handler"]),
                         (1, "Perm", "client_b+8", "ld r4, r5, -16, any, keep", {"file": "examples/kernel.asm", "line": 32}, None))  # fmt: skip
        self.assertTrue(any("r5 is eu" in line for line in fault["why"]), fault["why"])
        self.assertEqual((form["states"], form["configurations"], form["all"]), (100_000, 574, True))

    def test_what_slots_wait_for(self):
        with folder() as room:
            form = json.loads(mm("explore", write(room, "k.asm", ROUND), "--json", "--meant", "11").out)
        fault, slots = form["faults"][0], form["outcomes"][0]["slots"]
        self.assertEqual((fault["meant"], fault["address"], fault["why"]), (True, None, ["a trap instruction"]))
        self.assertEqual([slot["state"] for slot in slots], ["running", "busy", "running", "waiting"])
        self.assertEqual([slot["waits"] for slot in slots][1:3], [None, "running at br stays, for ever"])


if __name__ == "__main__":
    unittest.main()
