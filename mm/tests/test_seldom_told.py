"""What `mm` tells of things that few programs have: several groups, a fault in a later node, loads that set a bit."""

import os
import unittest

from mm.formats.hex import PARTS
from mm.formats.image import Image, Slot, image_bytes, page_of
from mm.grading.sheet import read_sheet
from mm.grading.told import CALCULATED, as_csv
from mm.grading.worker import Graded
from mm.machine.words import Cell, Permission, Pointer, Word
from mm.tests.support import folder, mm, needs_program, write
from mm.tests.test_hex import read_hex

HALTS = ".segment main 4\n  ldi r3, 5\n  halt\n"
BOX = ".segment box 3\n  .int 7\n"
MAIN = ".thread 0 0 none xu main\n"
# Two groups that read a word, and one that writes it.
SHARED = HALTS + BOX + "".join(f".thread {n} {n} none xu main\n.reg 1 ptr {perm} box\n" for n, perm in enumerate(("ro", "ro", "rw")))
# Loads through an integer.
FAULTS = ".segment main 4\n  ld r2, r1, 0, any, keep\n  halt\n" + MAIN
# Empties a word by a load.
TAKES = ".segment main 4\n  ld r2, r1, 0, any, empty\n  halt\n" + BOX + MAIN + ".reg 1 ptr rw box\n"
# Stores into 70 words, and prints as many bytes as its register 4 says.
LONG = """\
.segment main 7
  ldi r2, 70
more: st r1, r2, 0, any, keep
  leai r1, r1, 8
  addi r2, r2, -1
  bnz r2, more
print: out r4
  addi r4, r4, -1
  bnz r4, print
  halt
.segment data 10
""" + MAIN + ".reg 1 ptr rw data\n.reg 4 int 300\n"


@needs_program
class Told(unittest.TestCase):
    def test_several_groups_and_who_writes(self):
        with folder() as room:
            ended = mm("audit", write(room, "p.asm", SHARED), "--groups", "0,1,5,9")
        self.assertIn("groups 0, 1, 5, 9 do not stand apart: group 2 can write box, which they can read", ended.out)
        self.assertEqual(ended.err, "mm: note: no thread is in group 5, 9\n")

    def test_a_fault_of_a_later_node(self):
        with folder() as room:
            files = [write(room, name, text + BOX) for name, text in (("a.asm", HALTS + MAIN), ("b.asm", FAULTS))]
            events = write(room, "events", "0:0*3 1:0*3")
            out = mm("net", write(room, "links", ""), events, *files).out
            self.assertIn("r1 is the integer 0, and `ld` wants a pointer there", out.split("node 1")[1])
            self.assertNotIn("wants a pointer", out.split("node 1")[0])
            for text, said in (("0.8>1.8\n0.16>1.16\n  0.24>1.8\n", "links:3:3: error: `0.24>1.8` is not an item"),
                    ("# none\n0.8>1.8\n  0.nothing>1.8\n", "links:3:3: link 0.nothing: there is no label")):
                self.assertIn(said, mm("net", write(room, "links", text), events, *files).err)

    def test_a_watch_of_a_load_that_sets_the_bit(self):
        with folder() as room:
            path = write(room, "p.asm", TAKES)
            for word in ("watch", "rwatch", "awatch"):
                self.assertIn(f"{word} 1: box", mm("debug", path, lines=f"{word} box\nc\n").out.split("(mm)")[2], word)

    def test_how_much_more_there_is(self):
        with folder() as room:
            path = write(room, "p.asm", LONG)
            self.assertIn(".. and 6 words more", mm("run", path).out)
            out = mm("debug", path, lines="c\ninfo output\nx data\n").out
        self.assertIn(".. 44 more bytes", out)
        self.assertEqual(sum(f"data+{8 * at}" in out for at in range(1, 128)), 15)

    def test_what_an_image_is(self):
        pointer = Word(Pointer(Permission.RW, 3, 0x100008).bits, True)
        page = page_of(0x100, {0: Cell(pointer, False)})
        slot = Slot(0, 0, None, False, Pointer(Permission.XU, 12, 0x100000), (Word(0),) * 16)
        with folder() as room:
            path = os.path.join(room, "p.img")
            with open(path, "wb") as file:
                file.write(image_bytes(Image(2, 9, True, (slot,), {0x100: page})))
            out = mm("dis", path).out
        self.assertIn("image of version 2, split: 1 slot, 1 page, 9 frames", out)
        self.assertRegex(out, r"0x100000 .* pointer rw .*  \(empty\)\n")


class Written(unittest.TestCase):
    def test_as_many_pages_as_frames(self):
        for frames in (1, 200, 256, 4096):
            self.assertEqual(len(read_hex(PARTS["pages"](Image(2, frames, False, (), {})))[0]), frames)

    def test_no_name_is_calculated(self):
        self.assertEqual(set("=+-@\t\r"), set(CALCULATED))
        rows = as_csv(read_sheet("sheet", "says 0 A\n"), [Graded(f"{sign}ann") for sign in "=+-@"])
        self.assertEqual([row.split(",")[0] for row in rows.splitlines()[1:]], [f"'{sign}ann" for sign in "=+-@"])


if __name__ == "__main__":
    unittest.main()
