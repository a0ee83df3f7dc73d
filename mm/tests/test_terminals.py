"""What is written at a terminal: a real one, of a certain width, at which somebody types."""

from __future__ import annotations

import contextlib
import fcntl
import os
import pty
import re
import select
import signal
import struct
import subprocess
import sys
import termios
import time
import unittest

from mm.explore.progress import ANEW
from mm.machine.program import find_program
from mm.shown import OURS
from mm.tests.support import folder, needs_program, path_of, read, write

MM = [sys.executable, path_of("bin", "mm")]
COLOURS = re.compile(OURS.encode())
# Puts out ESC, a bracket, `2J`, a line end and `A`.
CLEARS = ".segment code 8\n" + "".join(f"  ldi r1, {byte}\n  out r1\n" for byte in b"\033[2J\nA") + "  halt\n.thread 0 0 none xu code\n"
ENDLESS = ".segment code 4\nagain: addi r1, r1, 1\n  br again\n.thread 0 0 none xu code\n"
CONTROL_C, CONTROL_D = b"\x03", b"\x04"
MOST_SECONDS = 120
# `mm` and lockstep, but that what is told each second or each few seconds is told at once.
HASTY = "import sys, mm.explore.progress as it; it.Progress.__init__.__defaults__ = (0.001,); "
HASTY += "from mm.main import main; sys.exit(main(sys.argv[1:]))"
HASTY_CASES = "import sys, mm.lockstep.results as it; it.EVERY_SECONDS = 0; "
HASTY_CASES += "from mm.lockstep.main import main; sys.exit(main(sys.argv[1:]))"


class Terminal:
    """A program at a terminal that is its own, and does not change what it writes."""

    def __init__(self, words, columns=80, **env):
        self.ours, theirs = pty.openpty()
        how = termios.tcgetattr(theirs)
        how[1] &= ~termios.OPOST
        how[3] &= ~termios.ECHO
        termios.tcsetattr(theirs, termios.TCSANOW, how)
        fcntl.ioctl(theirs, termios.TIOCSWINSZ, struct.pack("HHHH", 24, columns, 0, 0))
        kept = {name: value for name, value in os.environ.items() if name not in ("COLUMNS", "NO_COLOR")}
        self.running = subprocess.Popen(
            words, stdin=theirs, stdout=theirs, stderr=theirs, cwd=path_of(), env={**kept, "TERM": "xterm", **env},
            start_new_session=True, preexec_fn=self._begin,
        )
        os.close(theirs)
        self.text, self.seen = b"", 0

    @staticmethod
    def _begin():
        """In the new process: the terminal is its own, and Control-C ends it, also where these tests run in the background."""
        fcntl.ioctl(0, termios.TIOCSCTTY, 0)
        signal.signal(signal.SIGINT, signal.SIG_DFL)

    def _more(self, seconds):
        """Whether there is more; at the end of the program there is none."""
        if not select.select([self.ours], [], [], seconds)[0]:
            self.running.kill()
            self.running.wait()
            raise AssertionError(f"nothing more in {seconds} seconds after {self.text[-200:]!r}")
        try:
            piece = os.read(self.ours, 4096)
        except OSError:
            piece = b""  # On Linux its end is a failure.
        self.text += piece
        return bool(piece)

    def until(self, wanted):
        """Waits for a text after what was waited for before."""
        began = time.monotonic()
        while (at := self.text.find(wanted, self.seen)) < 0:
            if not self._more(MOST_SECONDS) or time.monotonic() - began > 3 * MOST_SECONDS:
                self.running.kill()
                raise AssertionError(f"no {wanted!r} in {self.text[self.seen:]!r}")
        self.seen = at + len(wanted)

    def type(self, text):
        os.write(self.ours, text)

    def end(self):
        """The status, and all that was written."""
        while self._more(MOST_SECONDS):
            pass
        os.close(self.ours)
        return self.running.wait(), self.text


def at_terminal(words, typed=b"", **env):
    """The status of a program for which somebody types, and what it writes."""
    terminal = Terminal(words, **env)
    terminal.type(typed + CONTROL_D)
    return terminal.end()


def piped(*words):
    """The status, and what is written, where no stream is a terminal."""
    ended = subprocess.run(words, cwd=path_of(), capture_output=True, stdin=subprocess.DEVNULL, check=False)
    return ended.returncode, ended.stdout + ended.stderr


@needs_program
class Texts(unittest.TestCase):
    def test_the_program_writes_the_same(self):
        program, image = find_program(), path_of("examples", "counter.img")
        for words in (["run", image, "99"], ["trace", image, "99"], ["grants", image], ["walk"], ["run", "none", "1"]):
            answer = program.run(words)
            wanted = answer.out + (answer.line + "\n" if answer.line else "").encode()
            self.assertEqual(at_terminal([program.path, *words]), (answer.status, wanted), words)
        typed = b"step 3\nregs 0\nback 1\nquit\n"
        answer = program.run(["debug", image], typed)
        self.assertEqual(at_terminal([program.path, "debug", image], typed), (0, answer.out))

    def test_the_program_debugs_when_the_input_ends(self):
        words, typed = ["debug", path_of("examples", "counter.img")], b"step 3\n"
        terminal = Terminal([find_program().path, *words])
        terminal.type(typed)
        self.assertFalse(select.select([terminal.ours], [], [], 1)[0])
        terminal.type(CONTROL_D)
        self.assertEqual(terminal.end()[1], find_program().run(words, typed).out)

    def test_mm_writes_the_same_with_colours(self):
        for words in (["run", "examples/counter.asm"], ["audit", "examples/kernel.asm"], ["trace", "examples/hello.asm"],
                      ["run", "examples/none.asm"], ["explore", "docs/course/race.asm"]):
            with_colours = at_terminal([*MM, *words])
            status, text = with_colours[0], re.sub(ANEW.encode().replace(b"[", rb"\[") + b"[^\r]*", b"", with_colours[1])
            self.assertEqual((status, COLOURS.sub(b"", text)), piped(*MM, *words))
            self.assertEqual(b"\033[" in text, words[0] != "explore", words)

    def test_no_colours_if_nobody_wants_them(self):
        for words in (["run", "examples/counter.asm"], ["run", "examples/none.asm"]):
            without = piped(*MM, *words)
            self.assertEqual(at_terminal([*MM, *words], NO_COLOR="1"), without)
            self.assertEqual(at_terminal([*MM, *words], TERM="dumb"), without)
            self.assertIn(b"\033[", at_terminal([*MM, *words], NO_COLOR="")[1])

    def test_what_acts_on_a_terminal_is_shown(self):
        with folder() as room:
            status, text = at_terminal([*MM, "run", write(room, "p.asm", ".segment a 6\n out r1 \033]0;x\007\n")])
            self.assertIn(b"out r1 <U+001B>]0;x<U+0007>", COLOURS.sub(b"", text))
            self.assertNotIn(b"\033", COLOURS.sub(b"", text))
            self.assertEqual(status, 2)

    def test_plain(self):
        with folder() as room:
            words = [*MM, "run", "--plain", write(room, "clears.asm", CLEARS)]
            self.assertEqual(piped(*words), (0, b"\033[2J\nA"))
            self.assertEqual(at_terminal(words), (0, b"<U+001B>[2J\nA"))

    def test_no_bytes(self):
        for words in (["asm", "examples/hello.asm"], ["gen", "1", "1"], ["extract", "examples/counter.asm", "1"]):
            status, text = at_terminal([*MM, *words])
            self.assertEqual(status, 1)
            self.assertRegex(COLOURS.sub(b"", text), rb"^mm: this would write bytes to the terminal: say where to with --output FILE")
            self.assertEqual(piped(*MM, *words)[1][:2], b"MM")

    def test_help_is_as_wide_as_the_terminal(self):
        for columns, env, most in ((60, {}, 60), (79, {}, 79), (300, {}, 100), (20, {}, 60), (100, {"COLUMNS": "70"}, 70)):
            lines = Terminal([*MM, "help", "run"], columns, **env).end()[1].decode().splitlines()
            longest = max(map(len, lines))
            self.assertTrue(most - 12 <= longest <= most, (columns, env, longest))


@needs_program
class Searches(unittest.TestCase):
    def test_a_search_tells_how_far_it_is(self):
        with folder() as room:
            words = ["explore", "--states", "200000", write(room, "counts.asm", ENDLESS)]
            status, text = at_terminal([sys.executable, "-c", HASTY, *words])
            told = text.split(ANEW.encode())
            self.assertGreater(len(told), 2)
            for line in told[1:-1]:
                self.assertRegex(line, rb"^mm: (looking|[\d,]+ configurations? so far, with .*), \d+ s$")
            self.assertEqual((status, told[0] + COLOURS.sub(b"", told[-1])), piped(*MM, *words))
            self.assertNotIn(b"\r", at_terminal([sys.executable, "-c", HASTY, *words], TERM="dumb")[1])

    @needs_program
    def test_cases_tell_how_far_they_are(self):
        words = ["--count", "3", find_program().path, "log", "{image}", "{cycles}", "{schedule}"]
        lines = at_terminal([sys.executable, "-c", HASTY_CASES, *words])[1].decode().splitlines()
        self.assertEqual([line.split(", ")[:2] for line in lines[:3]],
                         [[f"lockstep: {number} of 3 cases", "0 differ"] for number in (1, 2, 3)])
        self.assertNotIn(b" of 3 cases", piped(sys.executable, "-c", HASTY_CASES, *words)[1])


@needs_program
class Typing(unittest.TestCase):
    """Somebody types to the debugger. What stands on the line is sent by the terminal's editor, with commands of its own."""

    @contextlib.contextmanager
    def debugging(self, source):
        with folder() as room:
            terminal = Terminal([*MM, "debug", write(room, "typed.asm", source)], NO_COLOR="1")
            terminal.until(b"(mm) ")
            yield terminal
            self.assertEqual(terminal.end()[0], 0)

    def test_tab_completes_names(self):
        with self.debugging(read("examples", "counter.asm")) as terminal:
            terminal.type(b"print cou\t\n")
            terminal.until(b"count = 0")
            terminal.until(b"(mm) ")
            terminal.type(b"cont\t\n")
            terminal.until(b"cycle ")
            terminal.until(b"(mm) ")
            terminal.type(CONTROL_D)

    def test_an_empty_line_repeats(self):
        with self.debugging(ENDLESS) as terminal:
            for typed, cycle in ((b"step\n", b"cycle 1"), (b"\n", b"cycle 2"), (b"\n", b"cycle 3")):
                terminal.type(typed)
                terminal.until(cycle)
                terminal.until(b"(mm) ")
            terminal.type(b"quit\n")

    def test_control_c_stops_where_the_run_is(self):
        with self.debugging(ENDLESS) as terminal:
            # The run takes a second of a quick computer; a busy one may not have begun after ten.
            for seconds in (0.1, 0.2, 0.4, 1, 10, 60):
                terminal.type(b"continue\n")
                time.sleep(seconds)
                terminal.type(CONTROL_C)
                terminal.until(b"cycle ")
                terminal.until(b"(mm) ")
                cycle = int(re.findall(rb"cycle (\d+)", terminal.text)[-1])
                if cycle:
                    break
            self.assertGreater(cycle, 0)
            terminal.type(CONTROL_D)

    def test_control_c_ends_a_run(self):
        with folder() as room:
            terminal = Terminal([*MM, "explore", "--states", "50000000", write(room, "endless.asm", ENDLESS)])
            terminal.until(b"mm: ")  # how far it is, after a second or, on a busy computer, later
            terminal.type(CONTROL_C)
            self.assertEqual(terminal.end()[0], 130)
            self.assertEqual(os.listdir(room), ["endless.asm"])


if __name__ == "__main__":
    unittest.main()
