"""Forms of C that few programs have: what the machine prints is what the host prints. Left out where there is no Clang."""

import os
import unittest

from mm.cc.driver import source_of
from mm.cc.options import Options
from mm.machine.program import find_program
from mm.tests.cruns import Machine, on_host
from mm.tests.support import folder, needs_program, path_of
from mm.tests.test_cc_clang import needs_clang

SOURCE = path_of("mm", "tests", "seldom.c")
FLAGS = ["-w", "-fwrapv"]
# The parts of the program, each with the levels at which it is translated and how many lines it prints.
PARTS = ((0, "012", 10), (1, "01", 94), (2, "01", 25), (3, "1", 59), (4, "02", 10), (5, "1", 54))


@needs_clang
@needs_program
class Seldom(unittest.TestCase):
    def test_what_is_printed_is_the_hosts(self):
        for part, levels, lines in PARTS:
            for level in levels:
                with self.subTest((part, level)), folder() as room:
                    flags = [*FLAGS, f"-DPART={part}"]
                    host = on_host(SOURCE, ["-O0", *flags], os.path.join(room, "host"))
                    made = source_of([SOURCE], Options(level, flags, stack=16, heap=12, lines=False))
                    ended, why = Machine(find_program(), room).run(made)
                    self.assertEqual((why, ended and ended.status), ("", 0))
                    told, wanted = ended.output.decode().splitlines(), host.output.decode().splitlines()
                    self.assertEqual((told, len(wanted)), (wanted, lines))


if __name__ == "__main__":
    unittest.main()
