"""What the debugger says of names of C that have no place, and of constants of enumerations."""

import os
import unittest

from mm.tests.support import folder, mm, needs_program, write
from mm.tests.test_debugger import answers

FILE = """#define LIMIT 3
enum colour { RED = -2, BLUE = 7 };
int main(void) {
    int i = -5, gone = 2;
    struct pair { int neg, pos; } x = {5, 0};
    return f(i + gone);  // \u2192 \u00e9
}
int f(void) {
    return 0;
}
"""
# `x` of the segment `first` is what `x` of main has at first. The frame of main is its stack pointer.
SOURCE = """.segment text 7
;@ type 1 base i4 int
;@ type 2 enum i4 colour RED=-2 BLUE=7
;@ type 3 struct 8 pair neg:0:1 pos:32:1
main:
;@ function main at FILE:3
;@ local x 8 at 0 log 3 type 3
;@ line FILE:4
  ldi r1, -5
;@ var i 1 r1
;@ var c 2 -2
  nop
  br f
f:
;@ function f at FILE:8
;@ line FILE:9
  nop
  halt
.segment stack 6
  .int 0x00000006fffffff8
  .fill 7
.segment first 3
;@ global x 8 at 0 constant
  .int 5
.thread 0 0 none xu main
.reg 15 ptr rw stack
"""


@needs_program
class Places(unittest.TestCase):
    def answers_of(self, *lines):
        with folder() as room:
            path = write(room, "c.c", FILE)
            ended = mm("debug", write(room, "c.asm", SOURCE.replace("FILE", path)), lines="\n".join(lines) + "\n")
            self.assertEqual((ended.status, ended.err), (0, ""))
        return [said.replace(room + os.sep, "") for _, said in answers(ended)]

    def test_a_function_that_is_left(self):
        said = self.answers_of("b main+8", "c", "display i", "display x.neg", "b f", "c", "p x", "watch i", "p i + 1",
                               "p/d x.pos", "b f+8 if i == 1")
        self.assertEqual(said[2:4], ["i = -5   (int)", "x.neg = -8   (int)"])
        for name, answer in zip("ixxiix", [said[5], *said[5:10]]):
            self.assertIn(f"`{name}` of main has no place here, where no such function is carried out", answer)
        self.assertNotIn("void", "".join(said))

    def test_values_that_are_in_no_memory(self):
        said = self.answers_of("b main+8", "c", "watch i", "x c", "p &i", "p gone", "p LIMIT", "p nowhere", "p colour")
        for name, answer in zip(("i", "c", "i"), said[2:5]):
            self.assertIn(f"`{name}` is in no memory: it is in a register, or is a constant", answer)
        for name, answer in (("gone", said[5]), ("LIMIT", said[6]), ("colour", said[8])):
            self.assertEqual(answer, f"`{name}` is in c.c, but has no place: its value was put into the code that uses "
                                     "it, or it is not a variable")
        self.assertIn("there is no label or segment `nowhere`", said[7])

    def test_constants_of_enumerations(self):
        said = self.answers_of("p RED", "p/d RED", "p BLUE + 1", "b main+8 if c == RED", "c", "p c", "p c == BLUE")
        self.assertEqual(said[:3], ["RED = RED   (enum colour)", "RED = -2", "BLUE + 1 = 8   (0x8)"])
        self.assertIn("break 1: main+8\n", said[4])
        self.assertNotIn("cannot be reckoned", said[4])
        self.assertEqual(said[5:], ["c = RED   (enum colour)", "c == BLUE = 0   (0x0)"])

    def test_lists_of_c(self):
        said = self.answers_of("list 10", "list c.c:1", "list 11", "list 4")
        self.assertEqual(said[0].splitlines()[0], "c.c:10")
        self.assertEqual(said[0].splitlines()[-1], "=>   10  }")
        self.assertIn("=>    1  #define LIMIT 3\n", said[1])
        self.assertIn("c.c has 10 lines", said[2])
        self.assertIn("=>    4      int i = -5, gone = 2;", said[3])
        self.assertIn("// \u2192 \u00e9", said[3])
        self.assertIn("// \u2192 \u00e9", self.answers_of("b main+8", "c", "list")[2])


# Globals of many types, whose words are as C lays them out.
GLOBALS = """.segment text 5
;@ type 1 base i4 int
;@ type 2 base i1 char
;@ type 3 base x4 float
;@ type 4 base x8 double
;@ type 5 array 6 2
;@ type 6 array 40 1
;@ type 7 array 32 1
;@ type 8 struct 16 both part:0:3 whole:64:4
;@ type 9 array 2 4
main:
;@ function main at FILE:3
;@ line FILE:4
  nop
  halt
.segment half 3
;@ global half 4 at 0 type 3
  .int 0x3fc00000
.segment real 3
;@ global real 8 at 0 type 4
  .int 0x400921fb54442d18
.segment both 4
;@ global both 16 at 0 type 8
  .int 0x123456783fc00000
  .int 0x8000000000000001
.segment reals 4
;@ global reals 16 at 0 type 9
  .int 0x3ff0000000000000
  .int 0x4000000000000000
.segment letters 3
;@ global letters 6 at 0 type 5
  .int 0x0000006300620061
.segment many 8
;@ global many 160 at 0 type 6
  .int 0x0000000200000001
  .fill 19
.segment few 7
;@ global few 128 at 0 type 7
  .int 0x0000000400000003
  .fill 15
.thread 0 0 none xu main
"""


@needs_program
class Values(unittest.TestCase):
    def answers_of(self, *lines):
        with folder() as room:
            path = write(room, "c.c", FILE)
            ended = mm("debug", write(room, "c.asm", GLOBALS.replace("FILE", path)), lines="\n".join(lines) + "\n")
            self.assertEqual((ended.status, ended.err), (0, ""))
        return [said for _, said in answers(ended)]

    def test_floating_numbers_have_their_width(self):
        self.assertEqual(self.answers_of("p half", "p real", "p both", "p reals"), [
            "half = the bits 0x3fc00000   (float)",
            "real = the bits 0x400921fb54442d18   (double)",
            "both = {part = the bits 0x3fc00000, whole = the bits 0x8000000000000001}   (struct both)",
            "reals = {the bits 0x3ff0000000000000, the bits 0x4000000000000000}   (double[2])",
        ])

    def test_texts_with_zeros(self):
        self.assertEqual(self.answers_of("p letters"), ['letters = "a\\x00b\\x00c"   (char[6])'])

    def test_arrays_that_are_cut_say_so(self):
        zeros = ", 0" * 30
        self.assertEqual(self.answers_of("p many", "p few"),
                         [f"many = {{1, 2{zeros}, ..}}   (int[40])", f"few = {{3, 4{zeros}}}   (int[32])"])


if __name__ == "__main__":
    unittest.main()
