"""Machines whose loads arrive later: what `mm` says of slots that wait in them."""

import json
import os
import unittest

from mm.tests.support import folder, mm, needs_program, write


@needs_program
class Waits(unittest.TestCase):
    def test_a_handler_waits_for_the_loads_of_two(self):
        """In a split machine `rreg` waits for 16 loads of its own slot, and then for 15 of the slot that it reads."""
        loads = "".join(f" ld r{number}, r15, 0, any, keep\n" for number in range(13))
        source = (f".segment k 8\n evt r8\n mov r15, r14\n{loads} ld r13, r15, 8, any, keep\n rreg r14, r13, 14\n halt\n"
            f".segment b 8\n{loads} ld r13, r15, 0, any, keep\n ld r14, r15, 0, any, keep\n trap 1\n halt\n"
            ".segment d 4\n .int 65\n .int 1\n.thread 0 0 none xu k\n.reg 14 ptr rw d\n.thread 1 1 0 xu b\n.reg 15 ptr rw d\n")
        with folder() as room:
            image = os.path.join(room, "w.img")
            self.assertEqual(mm("migrate", write(room, "w.asm", source), "split", "-o", image).status, 0)
            early, late = mm("run", image, "--cycles", "70").out, mm("run", image, "--cycles", "78").out
        self.assertNotIn("for ever", early)
        self.assertNotIn("nothing can change", early)
        self.assertIn("78 cycles", late)

    def test_what_a_split_store_waits_for(self):
        source = (".segment a 7\n ld r2, r1, 0, any, keep\n ld r3, r1, 0, any, keep\n ld r4, r1, 0, any, keep\n"
            " st r1, r4, 8, any, keep\n halt\n.segment d 4\n .int 65\n.thread 0 0 none xu a\n.reg 1 ptr rw d\n")
        with folder() as room:
            image, named = os.path.join(room, "s.img"), write(room, "s.asm", source)
            self.assertEqual(mm("migrate", named, "split", "-o", image).status, 0)
            words = ("run", image, "--names", named, "--cycles", "5")
            self.assertIn("waiting at st r1, r4, 8, any, keep for the load of r4", mm(*words).out)
            self.assertIn("for the load of r4", json.loads(mm(*words, "--json").out)["slots"][0]["waits"]["what"])


if __name__ == "__main__":
    unittest.main()
