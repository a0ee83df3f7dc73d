"""A `main` beside the doors of its program: `mm cc` warns if both ask for blocks."""

import unittest

from mm.tests.support import folder, mm, needs_program, write
from mm.tests.test_cc_clang import needs_clang

# A `main` beside a door; each line says what the two do, and whether `mm cc` warns of it.
BESIDE = """#include <mm.h>
#include <stdlib.h>
static void *volatile held;
static void hold(long n) { held = calloc(n, 8); }
long take(long n) MM_DOOR(take);
long take(long n) { DOOR return n; }
int main(void) { MAIN return 0; }
"""
BOTH = (("hold(n);", "held = malloc(8);", True), ("free(held);", "hold(1);", True), ("hold(n);", "", False), ("", "hold(1);", False))


@needs_program
class Beside(unittest.TestCase):
    @needs_clang
    def test_blocks_for_main_and_for_a_door(self):
        with folder() as room:
            for door, main, is_warned in BOTH:
                for level in "02":
                    ended = mm("cc", f"-O{level}", write(room, "beside.c", BESIDE.replace("DOOR return", f"{door} return").replace("MAIN", main)))
                    said = "beside.c: warning: `main` and the door `take` both ask for blocks"
                    self.assertEqual((ended.status, said in ended.err), (0, is_warned), f"{door} {main} {level} {ended.err}")


if __name__ == "__main__":
    unittest.main()
