"""The C library against the host's: one program that prints what each function answers. Left out where there is no
Clang."""

import os
import unittest

from mm.cc.driver import source_of
from mm.cc.options import Options
from mm.machine.program import find_program
from mm.tests.cruns import Machine, on_host
from mm.tests.support import folder, needs_program, path_of
from mm.tests.test_cc_clang import needs_clang

SOURCE = path_of("mm", "tests", "library.c")
FLAGS = ["-w", "-fno-builtin"]
# The parts of the program, each with the level at which it is translated and how many lines it prints at least.
PARTS = ((0, "1", 150), (1, "2", 350), (2, "1", 40), (3, "0", 30), (4, "2", 40), (5, "1", 30), (6, "2", 220), (7, "1", 150))
STATUS = 7


@needs_clang
@needs_program
class Library(unittest.TestCase):
    def test_each_answer_is_the_hosts(self):
        for part, level, least in PARTS:
            with self.subTest(part), folder() as room:
                flags = [*FLAGS, f"-DPART={part}"]
                host = on_host(SOURCE, [*flags, "-D_GNU_SOURCE"], os.path.join(room, "host"))
                made = source_of([SOURCE], Options(level, flags, stack=16, heap=12, lines=False))
                ended, why = Machine(find_program(), room).run(made)
                self.assertEqual((why, ended and ended.status, host.status), ("", STATUS, STATUS))
                told, wanted = ended.output.split(b"\n"), host.output.split(b"\n")
                self.assertGreaterEqual(len(wanted), least)
                for line, of_host in zip(told, wanted):
                    self.assertEqual(line, of_host)
                self.assertEqual(len(told), len(wanted))


if __name__ == "__main__":
    unittest.main()
