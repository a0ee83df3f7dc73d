"""The tally of random cases: in which ways turns came to their outcomes."""

import os
import unittest

from mm.formats.image import read_image
from mm.lockstep.tally import Tally
from mm.log.read import LogReader
from mm.log.replay import Machine
from mm.machine.program import find_program
from mm.tests.support import folder, mm, needs_program, write


@needs_program
class Ways(unittest.TestCase):
    def test_ways_in_the_tally(self):
        """A branch that is taken, two that are not, and the end of a segment."""
        source = ".segment a 5\n bz r1, on\n nop\non: bnz r1, on\n bz r2, on\n.thread 0 0 none xu a\n.reg 2 int 1\n"
        with folder() as room:
            image = mm("asm", write(room, "ways.asm", source), "-o", os.path.join(room, "ways.obj")).status or \
                mm("link", os.path.join(room, "ways.obj"), "-o", os.path.join(room, "ways.img")).status or os.path.join(room, "ways.img")
            tally, log = Tally(), find_program().run(["log", image, "9"]).text
            with open(image, "rb") as file:
                tally.count(Machine(read_image(file.read())), LogReader(log.splitlines()).steps())
        self.assertEqual(list(tally.lines())[-3:], ["(fetch): Bounds, past 1", "bz: not taken 1; taken 1", "bnz: not taken 1"])


if __name__ == "__main__":
    unittest.main()
