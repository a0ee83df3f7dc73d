"""Files that `mm` writes: whole or not at all, never over one that it reads; and what it leaves if a signal ends it."""

import os
import shutil
import signal
import stat
import subprocess
import sys
import time
import unittest
from unittest import mock

from mm.main import Ended, _catch_signals
from mm.outfile import write_whole
from mm.tests.support import folder, mm, needs_program, path_of, write
from mm.tests.test_holds import GOOD


@needs_program
class Outputs(unittest.TestCase):
    def test_an_input_is_no_output(self):
        with folder() as room:
            source = write(room, "p.asm", GOOD)
            for name in (source, os.path.join(room, ".", "p.asm")):
                ended = mm("link", source, "-o", name)
                self.assertEqual(ended.status, 1)
                self.assertIn("is a file that is read here", ended.err)
            with open(source, encoding="utf-8") as file:
                self.assertEqual(file.read(), GOOD)

    def test_what_else_is_read_is_no_output(self):
        """The source that gave an image its names, a header, a part of a testbench that is a source."""
        with folder() as room:
            source = write(room, "q.asm", GOOD)
            image = os.path.join(room, "q.img")
            self.assertEqual(mm("link", source, "-o", image).status, 0)
            frames = write(room, "a.frames", GOOD)
            for words in (("view", image, "-o", source), ("migrate", image, "split", "-o", source),
                          ("hex", frames, "--part", "all", "-o", os.path.join(room, "a"))):
                with self.subTest(words[0]):
                    ended = mm(*words)
                    self.assertEqual(ended.status, 1, ended.err)
                    self.assertIn("is a file that is read here", ended.err)
            for name in (source, frames):
                with open(name, encoding="utf-8") as file:
                    self.assertEqual(file.read(), GOOD)

    def test_a_file_of_c_is_no_output(self):
        with folder() as room:
            header, source = write(room, "h.h", "int f(void);\n"), write(room, "m.c", "int main(void) { return 0; }\n")
            ended = mm("cc", source, "-o", header)
            self.assertEqual(ended.status, 1, ended.err)
            self.assertIn("a C source may include", ended.err)
            with open(header, encoding="utf-8") as file:
                self.assertEqual(file.read(), "int f(void);\n")

    def test_the_program_is_no_output(self):
        with folder() as room:
            program = os.path.join(room, "mymm")
            shutil.copy(os.environ["MMACHINE"] if "MMACHINE" in os.environ else path_of("crates", "mmachine", "out", "mmachine"), program)
            ended = mm("link", write(room, "p.asm", GOOD), "-o", program, "--program", program)
            self.assertEqual(ended.status, 1, ended.err)
            self.assertIn("is a file that is read here", ended.err)

    def test_parts_are_written_whole(self):
        with folder() as room:
            ended = mm("hex", write(room, "p.asm", GOOD), "--part", "all", "-o", os.path.join(room, "b"))
            self.assertEqual(ended.status, 0, ended.err)
            self.assertEqual(sorted(os.listdir(room)), ["b.frames", "b.pages", "b.slots", "p.asm"])

    def test_whole_or_not_at_all(self):
        with folder() as room:
            path = write(room, "out", "old")
            os.chmod(path, 0o640)
            with mock.patch("mm.outfile.os.replace", side_effect=OSError(28, "No space left on device")):
                with self.assertRaises(OSError):
                    write_whole(path, b"new")
            with open(path, encoding="utf-8") as file:
                self.assertEqual(file.read(), "old")
            self.assertEqual(os.listdir(room), ["out"])
            write_whole(path, b"new")
            with open(path, encoding="utf-8") as file:
                self.assertEqual(file.read(), "new")
            self.assertEqual(stat.S_IMODE(os.stat(path).st_mode), 0o640)
            os.symlink("out", os.path.join(room, "link"))
            write_whole(os.path.join(room, "link"), b"by the link")
            self.assertTrue(os.path.islink(os.path.join(room, "link")))

    def test_full_device(self):
        with folder() as room:
            ended = mm("link", write(room, "p.asm", GOOD), "-o", "/dev/full")
        self.assertEqual(ended.status, 4)

    def test_signals_leave_nothing(self):
        """Of a run that is ended its folder and the program that works for it go."""
        for number in (signal.SIGTERM, signal.SIGHUP):
            with self.subTest(number), folder() as room:
                program = write(room, "slow", "#!/bin/sh\necho $$ >started\nexec sleep 60\n")
                os.chmod(program, 0o755)
                source, rooms = write(room, "p.asm", GOOD), os.path.join(room, "rooms")
                os.mkdir(rooms)
                words = [sys.executable, path_of("bin", "mm"), "--program", program, "run", source]
                ended = subprocess.Popen(words, cwd=room, env={**os.environ, "TMPDIR": rooms}, stderr=subprocess.DEVNULL)
                child = self.started(os.path.join(room, "started"))
                ended.send_signal(number)
                self.assertEqual(ended.wait(20), 128 + number)
                self.assertEqual(os.listdir(rooms), [])
                self.assertTrue(self.gone(child), "the program goes on")

    def gone(self, process):
        """Whether a process goes, which a busy machine may take a moment to see."""
        for _ in range(100):
            try:
                os.kill(process, 0)
            except ProcessLookupError:
                return True
            time.sleep(0.05)
        return False

    def test_a_second_signal_changes_nothing(self):
        """`timeout` sends one to the process and one to its group: the second comes while the first ends the command."""
        before = _catch_signals()
        try:
            with self.assertRaises(Ended):
                signal.raise_signal(signal.SIGTERM)
            signal.raise_signal(signal.SIGTERM)
            signal.raise_signal(signal.SIGHUP)
        finally:
            for number, handler in before.items():
                signal.signal(number, handler)

    def test_a_signal_between_two_steps(self):
        """It is the end of the command too where nothing is begun yet, and where all is done."""
        class Numbers(dict):
            def __iter__(self):
                raise Ended(signal.SIGTERM)

        for given in ({"side_effect": Ended(signal.SIGTERM)}, {"return_value": Numbers()}):
            with mock.patch("mm.main._catch_signals", **given), mock.patch("mm.console.Console.close") as close:
                self.assertEqual(mm("help").status, 128 + signal.SIGTERM)
            close.assert_called()

    def started(self, path):
        for _ in range(200):
            if os.path.isfile(path) and os.path.getsize(path):
                with open(path, encoding="ascii") as file:
                    return int(file.read())
            time.sleep(0.05)
        self.fail("the program was not started")


if __name__ == "__main__":
    unittest.main()
