"""`mm explore`: what it asks of `mmachine explore`, and what it adds to the answer."""

import io
import json
import os
import signal
import time
import unittest
from types import SimpleNamespace
from unittest import mock

from mm.explore.asked import USUAL, meant_of, states_of
from mm.explore.breadth import Breadth
from mm.explore.looking import STAGES, explored
from mm.explore.places import can_run
from mm.explore.progress import ANEW, Progress
from mm.explore.wrote import first_writes, writers
from mm.formats.image import read_image
from mm.machine.program import Answer, find_program
from mm.outputs.exploration import read_exploration
from mm.status import SIGNALLED, Refused, Status, Stop
from mm.tests.searched import Search
from mm.tests.support import folder, mm, needs_program, path_of, read_bytes, write

BUILT = SimpleNamespace(path="k.img", file=None)
LINE = {"TERM": "xterm"}


class Terminal(io.StringIO):
    def isatty(self):
        return True


class Short:
    """A console whose program has memory for so many configurations, and finds so many if they are asked for."""

    def __init__(self, room=10**9, there=10**9, status=Status.NO_MEMORY, err=None):
        self.room, self.there, self.status, self.err = room, there, status, err or io.StringIO()
        self.asked, self.told = [], []

    def ask(self, words, files):
        states = int(words[2])
        self.asked.append(states)
        if states > self.room:
            raise Refused(self.status, [])
        extent = "all" if states >= self.there else "more"
        return Answer(0, f"explored {min(states, self.there)} {extent}\n".encode(), "")

    def tell(self, *lines):
        self.told += lines


class Asked(unittest.TestCase):
    def test_states(self):
        self.assertEqual([states_of(text) for text in (None, "1", "0x10", "100000000")], [USUAL, 1, 16, 100_000_000])
        for text in ("0", "100000001", "-1", "many", ""):
            with self.assertRaises(Stop) as stop:
                states_of(text)
            self.assertEqual(stop.exception.lines, (f"mm: explore: --states is a number from 1 to 100000000, not `{text}`",))

    def test_meant(self):
        self.assertEqual(meant_of(["Trap, 2", "divzero"]), {11, 2, 9})
        self.assertEqual(meant_of([]), frozenset())
        for text in ("0", "14", "Trip", "", "Trap,"):
            with self.assertRaises(Stop) as stop:
                meant_of([text])
            self.assertIn("--meant is a fault by its number or its name", stop.exception.lines[0])


class Looking(unittest.TestCase):
    def test_where_memory_runs_out(self):
        for status in (Status.NO_MEMORY, SIGNALLED + signal.SIGKILL):
            console = Short(room=30, status=status)
            found, states = explored(console, BUILT, 100)
            self.assertEqual((console.asked, found.count, states), ([100, 50, 25], 25, 25))
            self.assertEqual(console.told, [
                "mm: note: memory ran out: in place of 100 configurations at most 50 are looked at",
                "mm: note: memory ran out: in place of 50 configurations at most 25 are looked at",
            ])  # fmt: skip

    def test_where_it_does_not_help(self):
        for room, status, asked in ((0, Status.NO_MEMORY, [3, 1]), (0, Status.REFUSED, [3]), (0, SIGNALLED + signal.SIGTERM, [3])):
            console = Short(room=room, status=status)
            with self.assertRaises(Refused) as stop:
                explored(console, BUILT, 3)
            self.assertEqual((stop.exception.status, console.asked), (status, asked))

    def test_stages_are_for_who_looks_on(self):
        most = 100_000_000
        console = Short()
        explored(console, BUILT, most)
        self.assertEqual((console.asked, console.err.getvalue()), ([most], ""))
        with mock.patch.dict(os.environ, LINE):
            for there, states, asked in ((10**9, most, [*STAGES, most]), (5, most, [STAGES[0]]), (10**9, STAGES[0], [STAGES[0]]),
                                         (10**9, 70, [70])):  # fmt: skip
                console = Short(there=there, err=Terminal())
                self.assertEqual(explored(console, BUILT, states)[0].count, min(states, there))
                self.assertEqual(console.asked, asked)
            console = Short(room=STAGES[0], err=Terminal())
            self.assertEqual(explored(console, BUILT, most)[1], STAGES[1] // 16)
            self.assertEqual(console.asked, [STAGES[0], *(STAGES[1] // part for part in (1, 2, 4, 8, 16))])


class Line(unittest.TestCase):
    """The line of a search that takes long."""

    def shown(self, stream, variables=LINE):
        with mock.patch.dict(os.environ, variables), Progress(stream, 0.005) as progress:
            progress.say("5 configurations so far")
            for _ in range(400):
                if "so far" in stream.getvalue():
                    break
                time.sleep(0.005)
        return stream.getvalue()

    def test_a_terminal(self):
        text = self.shown(Terminal())
        self.assertIn(f"{ANEW}mm: 5 configurations so far, 0 s", text)
        self.assertTrue(text.endswith(ANEW))

    def test_what_is_none(self):
        with mock.patch.object(time, "sleep"):
            self.assertEqual(self.shown(io.StringIO()), "")
            self.assertEqual(self.shown(Terminal(), {"TERM": "dumb"}), "")

    def test_a_terminal_that_has_gone(self):
        stream = Terminal()
        stream.write = mock.Mock(side_effect=OSError)
        with mock.patch.dict(os.environ, LINE), Progress(stream, 0.005) as progress:
            self.assertTrue(progress.ended.wait(2))
        stream.write.assert_called_once()


class Places(unittest.TestCase):
    def test_schedules_that_are_too_long_for_a_run(self):
        self.assertEqual([can_run(text) for text in ("", "0*999999 1", "0*1000000 1", "0*12345678")], [True, True, False, False])


@needs_program
class Second(unittest.TestCase):
    """The second machine and its search."""

    def test_examples(self):
        for name, most in (("counter", 192), ("kernel", 1000), ("server", 1000), ("letterbox", 2000), ("long", 50)):
            path = path_of("examples", f"{name}.img")
            told = find_program().run(["explore", path, str(most)]).text
            self.assertEqual(Search(read_image(read_bytes("examples", f"{name}.img")), most).lines(), told.splitlines(), name)

    def test_room(self):
        image = read_image(read_bytes("examples", "counter.img"))
        for most, there, everything in ((192, 192, True), (191, 191, False), (1, 1, False), (1000, 192, True)):
            breadth = Breadth(image, most)
            moves = list(breadth.moves())
            self.assertEqual((len(breadth.found), breadth.all), (there, everything))
            self.assertEqual(any(to is None for *_, to in moves), not everything)


# A slot of group 0 waits until the word is empty, and then fills it; one of group 2 empties it, and stores into the next one of a table.
BOX = """.segment puts 4
  st r1, r2, 0, empty, full
  halt
.segment takes 5
  ld r3, r1, 0, full, empty
again:
  st r2, r3, 0, any, keep
  leai r2, r2, 8
  bz r4, again
.segment tries 4
  st r1, r2, 0, empty, full
  st r1, r2, 8, any, keep
.segment box 3
  .int 5
.segment table 4
  .int 0
  .int 0
.segment kept 3
  .int 1
.thread 0 0 none xu puts
.reg 1 ptr rw box
.thread 1 2 none xu takes
.reg 1 ptr rw box
.reg 2 ptr rw table
.thread 2 3 none xu tries
.reg 1 ptr rw kept
"""


@needs_program
class Wrote(unittest.TestCase):
    def ask(self, word, *words):
        with folder() as room:
            return mm("explore", write(room, "k.asm", BOX), "--wrote", word, *words)

    def test_after_a_turn_that_was_blocked(self):
        """Its first turn only tries; the least schedule has the other slot's turn before it."""
        out = self.ask("box").out
        self.assertIn("group 0 writes box, first in a turn of slot 0 at puts\n", out)
        self.assertIn("k.asm:2: st r1, r2, 0, empty, full\n  under the schedule 1 0\n", out)
        self.assertIn("group 2 writes box, first in a turn of slot 1 at takes\n", out)
        self.assertIn("  under the schedule 1\n", out)
        self.assertTrue(out.endswith("\nno other group writes box\n"), out)

    def test_the_second_time_that_an_instruction_is_carried_out(self):
        out = self.ask("table+8").out
        self.assertIn("group 2 writes table+8, first in a turn of slot 1 at again\n", out)
        self.assertIn("k.asm:7: st r2, r3, 0, any, keep\n  under the schedule 1*5\n", out)

    def test_who_only_tries_and_who_does_not(self):
        self.assertIn("\ngroup 3 tries to write kept: each such turn is blocked or has a fault\n\nno other group", self.ask("kept").out)
        out = self.ask("puts").out
        self.assertEqual(out.splitlines()[1:], ["", "no group writes puts"])

    def test_what_is_no_word(self):
        for word in ("box+4", "nowhere", "-8"):
            ended = self.ask(word)
            self.assertEqual((ended.status, ended.out), (1, ""))

    def test_form(self):
        form = json.loads(self.ask("kept", "--json").out)
        self.assertEqual(form["wrote"]["name"], "kept")
        self.assertEqual((form["wrote"]["writes"], form["wrote"]["tries"], form["wrote"]["later"]), ([], [3], []))
        write = json.loads(self.ask("table+8", "--json").out)["wrote"]["writes"][0]
        self.assertEqual((write["group"], write["slot"], write["name"], write["instruction"], write["schedule"], write["source"]["line"]),
                         (2, 1, "again", "st r2, r3, 0, any, keep", "1*5", 7))  # fmt: skip

    def test_what_is_too_far(self):
        """Of two writers one is within what the second machine looks at."""
        with folder() as room:
            image = read_image(mm("link", write(room, "k.asm", BOX)).data)
            path = write(room, "k.asm", BOX)
            with mock.patch("mm.explore.wrote.MOST_LOOKED", 1):
                out = mm("explore", path, "--wrote", "box").out
                far = mm("explore", path, "--wrote", "table+8").out
        self.assertIn("group 2 writes box, first in a turn of slot 1", out)
        self.assertIn("group 0 writes box or tries to, too late for a schedule to be looked for", out)
        self.assertIn("group 2 writes table+8 or tries to, too late", far)
        box = next(address for address, cell in image.cells() if cell.word.bits == 5 and not cell.word.tagged)
        self.assertEqual(first_writes(image, box, [], 100, Progress(io.StringIO())), {})
        self.assertEqual(first_writes(image, box, [0, 2], 2, Progress(io.StringIO())), {2: "1", 0: "1 0"})
        self.assertEqual(first_writes(image, box, [0], 100, Progress(io.StringIO())), {0: "1 0"})

    def test_writers(self):
        found = read_exploration("explored 9 all\ngroup 0\nwrote 00000000100000 2\ngroup 3\ntouched 00000000100000 4\n")
        self.assertEqual([writers(found, word) for word in (0xFFFF8, 0x100000, 0x100008, 0x100010)], [[], [0], [0], []])

    def test_a_write_that_is_none_is_not_told(self):
        """What the second machine finds is held against a run."""
        with folder() as room:
            with mock.patch("mm.explore.wrote.first_writes", return_value={0: "0"}):
                ended = mm("explore", write(room, "k.asm", BOX), "--wrote", "box")
        self.assertEqual(ended.status, Status.OWN_FAULT)
        self.assertIn("no turn of group 0 writes", ended.err)


if __name__ == "__main__":
    unittest.main()
