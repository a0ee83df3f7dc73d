"""Every fault is told with its reason, from the registers and the instruction."""

import unittest

from mm.machine.causes import Cause
from mm.tests.support import folder, mm, needs_program, write

DATA = ".segment box 4\n .int 1\n .int 2\n.segment lone 3\n .int 0\n"
THREAD = ".thread 0 0 none xu main\n.reg 1 ptr rw box\n.reg 2 ptr ro box\n.reg 3 ptr eu main\n.reg 4 ptr key box\n.reg 5 int 9\n"


def code(*lines, size=6):
    return f".segment main {size}\n" + "".join(f"  {line}\n" for line in lines) + DATA + THREAD


# fmt: off
ROWS = [
    (1, code("ld r7, r6, 0, any, keep"), "r6 is the integer 0", "a register is 0 until something is put into it"),
    (1, code("st r5, r1, 0, any, keep").replace(".reg 5 int 9", ""), "r5 is the integer 0", "`st` takes the pointer first, and then the word to store: `st r1, r5, ..`"),
    (1, code("addi r6, r1, 0", "ld r7, r6, 0, any, keep"), "its bits are those of rw 2^4 box", "arithmetic"),
    (2, code("ld r7, r3, 0, any, keep"), "r3 is eu 2^6 main: enter-user", "only the right to be jumped to"),
    (2, code("st r2, r5, 0, any, keep"), "`st` needs the right to store", "only the right to load"),
    (2, code("ld r7, r2, 0, any, empty"), "since this load sets the bit", "only the right to load"),
    (2, code("ldi r6, 2", "restrict r7, r2, r6"), "it may become key", "rw is asked for"),
    (2, code("jmp r1"), "r1 is rw 2^4 box", "a jump needs a pointer that executes"),
    (2, code("leai r7, r4, 8"), "r4 is key 2^4 box", "cannot be moved"),
    (3, code("ld r7, r1, 16, any, keep"), "the access is at lone", "it reaches all 16 bytes of box, and no further"),
    (3, code("ldi r6, 2", "subseg r7, r1, r6", "ld r8, r7, 0, any, keep"), "the access is to the 8 bytes from box on", "it reaches 4 bytes from box on, and no further"),
    (3, code("leai r7, r1, 16"), "+16 bytes would lead to lone", "not even just past its end"),
    (3, code("leab r7, r1, r5", "leab r7, r1, r5", "ldi r5, -8", "leab r7, r1, r5"), "-8 bytes from its base", "no pointer points outside"),
    (3, code("subseg r7, r1, r5"), "2^9 bytes is not shorter than its 2^4", ""),
    (3, code("br 100"), "is outside the code, which has all 64 bytes of main", "a branch stays in its segment"),
    (3, code("jal r6, r3", size=3).replace(".reg 3 ptr eu main", ".reg 3 ptr xu main"), "leave a word after a call", "which has all 8 bytes of main"),
    (3, code("nop", size=3), "main was its last word, ", "mine.asm:2: nop"),
    (4, code("ld r7, r1, 4, any, keep"), "box+4 is 4 bytes past a word", ""),
    (5, code("ldi r6, 0x20c00000", "ldhi r6, 0x00500000", "setptr r6, r6", "ld r7, r6, 0, any, keep").replace("none xu", "none xp"), "no page is mapped at 0x500000", ""),
    (7, code(".int 1"), "is not an instruction: 1", ""),
    (7, code(".ptr rw box"), "is not an instruction: rw 2^4 box", "a pointer is never an instruction"),
    (8, code("map r6, r5"), "this runs with xu 2^6 main", "`.thread .. xp NAME`"),
    (9, code("divu r6, r5, r7"), "the divisor r7 is 0", ""),
    (10, code("restrict r6, r1, r5"), "r5 is 9, and permissions are 1 (ro) to 7 (key)", ""),
    (10, code("setptr r6, r5").replace("none xu", "none xp"), "the bits 0x9 of r5 do not spell a pointer", ""),
    (11, code("trap 7"), "trap 7, and the slot has no handler", ""),
    (12, code("resume r5, skip"), "r5 is 9", "whose event it has read with `evt`"),
    (13, code("out r5", "br -1"), "the group has printed 4096 bytes", "mm migrate"),
]
# fmt: on


@needs_program
class Why(unittest.TestCase):
    def test_each_fault(self):
        self.assertEqual({row[0] for row in ROWS}, {cause.number for cause in Cause} - {Cause.SYNC.number})
        with folder() as room:
            for number, source, first, second in ROWS:
                with self.subTest(first):
                    out = mm("run", write(room, "mine.asm", source)).out
                    self.assertIn(f"by fault {number} {Cause.of_number(number).title}", out)
                    self.assertIn(first, out)
                    self.assertIn(second, out)


if __name__ == "__main__":
    unittest.main()
