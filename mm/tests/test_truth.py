"""That `mm` tells what the program did: of pages that come and go, of code that changes itself, of fetches that fault, and of runs whose
turns no trace has. `.ci/truth` looks at the same in random programs."""

import io
import json
import os
import re
import unittest
import zipfile

from mm.formats.image import PAGE_BYTES, Image, page_of
from mm.formats.schedule import read_schedule
from mm.machine.memory import Memory
from mm.machine.words import Cell, Permission, Pointer, Word
from mm.machine.program import CHECKOUT
from mm.log.read import Step
from mm.outputs.trace import Turn, cycles_of, item_of
from mm.packing.tree import of_folder
from mm.packing.vsix import vsix
from mm.tests.support import folder, mm, needs_program, write
from mm.view.data import step_form
from mm.why.ask import asked

UNMAP = """\
.segment code 12
  ldi r1, 0x101
  unmap r2, r1
  ld r3, r5, 0, any, keep
  halt
.segment data 12
  .int 77
.thread 0 0 none xp code
.reg 5 ptr rw data
"""
# It stores `halt` into a page that it maps, and jumps there.
MAP = """\
.segment code 12
  map r2, r1
  setptr r4, r3
  jmp r4
.thread 0 0 none xp code
.reg 1 int 0x500
.reg 3 int 0x4300000000500000
.spare 1
"""
# A kernel that removes the page that it runs on.
OWN_PAGE = """\
.segment code 12
  ldi r1, 0x100
  unmap r2, r1
  st r5, r2, 0, any, keep
  halt
.segment data 12
  .int 1
.thread 0 0 none xp code
.reg 5 ptr rw data
"""
ODD = """\
.segment code 6
  lip r1, target
  leai r1, r1, 4
  jmp r1
target: ld r3, r2, 0, any, keep
  halt
.segment data 6
  .int 7
.thread 0 0 none xu code
.reg 2 ptr rw data
"""
# The word at `target` is another one for one turn alone.
CHANGES = """\
.segment code 12
  ld r1, r5, 8, any, keep
  st r5, r2, 24, any, keep
  nop
target: ldi r3, 1
  st r5, r4, 24, any, keep
  halt
.thread 0 0 none xu code
.reg 5 ptr rw code
.reg 2 int 0x0230000000000063
.reg 4 int 0x0230000000000001
"""
SHORT = """\
.segment code 6
  subseg r1, r3, r2
  jmp r1
  halt
.thread 0 0 none xu code
.reg 3 ptr xu code
.reg 2 int 2
"""
WAIT = """\
.segment a 6
again: ld r2, r1, 0, full, empty
  halt
.segment d 6
  .empty .int 0
.thread 0 0 none xu a
.reg 1 ptr rw d
"""
LOOP = ".segment a 4\nagain: nop\n br again\n.thread 0 0 none xu a\n.thread 1 1 none xu a\n"
# Slot 0 has halted while its load is on its way; slot 1 waits for a word that nobody fills.
ARRIVING = """\
.segment a 6
  ld r2, r1, 0, any, keep
  halt
.segment b 6
  ld r2, r1, 8, full, empty
  halt
.segment d 6
  .int 5
  .empty .int 0
.thread 0 0 none xu a
.reg 1 ptr rw d
.thread 1 0 none xu b
.reg 1 ptr rw d
"""


class Pages(unittest.TestCase):
    def image(self):
        return Image(1, 4, False, (), {1: page_of(1, {0: Cell(Word(77))}), 2: page_of(2, {})})

    def test_what_a_pointer_covers(self):
        pointer = Pointer(Permission.RW, 4, 0x1008)
        covered = [pointer.covers(*place) for place in ((0x1000,), (0x1008, 8), (0x1009, 8), (0xFFF,), (0x1010,))]
        self.assertEqual(covered, [True, True, False, False, False])

    def test_items_of_turns(self):
        self.assertEqual([item_of("t 3 1 did"), item_of("m 3 7")], [3, 131])
        schedule = read_schedule(b"3 131 3 131")
        self.assertEqual(list(cycles_of([131, 131], schedule)), [2, 4])

    def test_a_step_of_a_page_for_a_browser(self):
        turn = Turn(2, 7, "did", None, 0x1000, "store", 0x2000)
        self.assertEqual(step_form(9, Step(turn)), [9, 2, 7, 0, 0, 0x1000, 3, 0x2000, None, []])

    def test_modes_in_the_extension(self):
        _, data = vsix(of_folder(CHECKOUT))
        with zipfile.ZipFile(io.BytesIO(data)) as archive:
            self.assertEqual({about.external_attr >> 16 for about in archive.infolist()}, {0o100644})

    def test_cells_of_a_page(self):
        cells = {0: Cell(Word(5), False), 3: Cell(Word(1 << 63, True)), 511: Cell(Word(7), False)}
        page = page_of(1, cells)
        self.assertEqual([page.cell(place) for place in (0, 1, 3, 511)], [cells[0], Cell(), cells[3], cells[511]])

    def test_pages_that_come_and_go(self):
        memory = Memory(self.image(), {3 * PAGE_BYTES: Cell(Word(5), False)}, [(1, False), (3, True)])
        self.assertIsNone(memory.cell(PAGE_BYTES))
        self.assertEqual(memory.cell(2 * PAGE_BYTES), Cell())
        self.assertEqual(memory.cell(3 * PAGE_BYTES), Cell(Word(5), False))
        self.assertEqual(memory.cell(3 * PAGE_BYTES + 8), Cell())
        self.assertIsNone(memory.cell(4 * PAGE_BYTES))
        self.assertFalse(memory.is_images(PAGE_BYTES))
        self.assertTrue(memory.is_images(2 * PAGE_BYTES))

    def test_a_page_that_was_removed_and_mapped_again(self):
        memory = Memory(self.image())
        memory.set_cell(PAGE_BYTES + 8, Cell(Word(9)))
        self.assertEqual(memory.changed(), {PAGE_BYTES + 8: Cell(Word(9))})
        memory.set_page(1, False)
        self.assertIsNone(memory.cell(PAGE_BYTES + 8))
        memory.set_page(1, True)
        self.assertEqual((memory.cell(PAGE_BYTES), memory.cell(PAGE_BYTES + 8)), (Cell(), Cell()))
        self.assertEqual(memory.changed(), {PAGE_BYTES: Cell()})


@needs_program
class Told(unittest.TestCase):
    def ask(self, source, command, *words, lines=None):
        with folder() as room:
            return mm(command, write(room, "p.asm", source), *words, lines=lines).out

    def form(self, source, command, *words):
        return json.loads(self.ask(source, command, *words, "--json"))

    def test_a_page_that_is_gone(self):
        out = self.ask(UNMAP, "run")
        self.assertIn("no page is mapped at data: the run has removed it", out)
        session = self.ask(UNMAP, "debug", lines="step 2\nx/1 data\np data\nquit\n")
        self.assertIn("data  on no page", session)
        self.assertIn("no page is at data", session)
        with folder() as room:
            sheet = write(room, "s.txt", "word data 77\n")
            self.assertIn("there is no memory at data", mm("grade", sheet, write(room, "p.asm", UNMAP)).out)

    def test_a_page_that_is_new(self):
        self.assertIn("0x500000: halt", self.ask(MAP, "run"))
        self.assertEqual(self.form(MAP, "run")["slots"][0]["instruction"], "halt")
        self.assertIn("0x500000        halt (changed by the run)", self.ask(MAP, "trace"))
        self.assertIn("0x500000  0", self.ask(MAP, "debug", lines="goto 4\nx/1 0x500000\nquit\n"))

    def test_the_page_of_the_code_is_gone(self):
        said = "no page is mapped at code+16, where the thread is: the run has removed it"
        self.assertIn(said, self.ask(OWN_PAGE, "run"))
        form = self.form(OWN_PAGE, "trace")["report"]["slots"][0]
        self.assertEqual((form["fault"]["why"], form["instruction"]), ([said], None))
        self.assertIn(said, self.ask(OWN_PAGE, "debug", lines="continue\nquit\n"))
        self.assertIn(said, self.ask(OWN_PAGE, "explore"))
        with folder() as room:
            page = os.path.join(room, "p.html")
            mm("view", write(room, "p.asm", OWN_PAGE), "-o", page)
            with open(page, encoding="utf-8") as file:
                self.assertIn(said, file.read())

    def test_a_fetch_that_faults(self):
        out = self.ask(ODD, "run")
        self.assertIn("target+4 is 4 bytes past a word, and the thread is there", out)
        self.assertNotIn("data is", out)
        out = self.ask(SHORT, "run")
        self.assertIn("an instruction has 8 bytes, and those from code on are not all in the segment of the code", out)
        self.assertNotIn("past the end", out)
        self.assertIn("ran past the end of its segment", self.ask(".segment a 3\n nop\n.thread 0 0 none xu a\n", "run"))

    def test_the_instruction_of_a_turn_is_the_one_carried_out(self):
        rows = self.ask(CHANGES, "trace").splitlines()
        self.assertRegex(rows[4], r"target +ldi r3, 99 \(changed by the run\)$")
        self.assertRegex(rows[1], r"ld r1, r5, 8, any, keep +loads code\+8$")
        turns = self.form(CHANGES, "trace")["turns"]
        self.assertEqual(turns[3]["instruction"], "ldi r3, 99")
        self.assertIn("slot 0 did ldi r3, 99", self.ask(CHANGES, "debug", lines="step 4\nquit\n"))

    def test_a_fault_is_told_from_its_moment(self):
        """The page at which a slot has faulted is mapped later, and its instruction is another one later."""
        source = (
            ".segment code 12\n  ld r3, r5, 0, any, keep\n  halt\n.segment other 12\n  nop\n  map r2, r1\n"
            "  st r4, r6, 0, any, keep\n  halt\n.thread 0 0 none xp code\n.reg 5 ptr rw other\n.reg 5 int 0\n"
            ".thread 1 1 none xp other\n.reg 1 int 0x500\n.reg 4 ptr rw code\n.spare 1\n"
        ).replace(".reg 5 ptr rw other\n.reg 5 int 0\n", ".reg 5 int 0\n")
        out = self.ask(source, "run")
        self.assertIn("r5 is the integer 0, and `ld` wants a pointer there", out)
        self.assertIn("0x100000: halt", out)

    def test_decimal_words(self):
        with folder() as room:
            source = write(room, "p.asm", ".segment a 5\n ldi r1, 0x918\n ldhi r1, 0x4e72a000\n halt\n.thread 0 0 none xu a\n")
            sheet = write(room, "s.txt", "register 0 r1 10000000000000\n")
            self.assertIn("  yes  register 0 r1 10000000000000", mm("grade", sheet, source).out)
            self.assertIn("3 cycles", mm("run", source, "--cycles", "00000000000003").out)
        self.assertEqual(asked("3", "12561543266008", "write").address, 12561543266008)
        self.assertEqual(asked("3", "12561543266008", "write").words, ["3", "12561543266008", "write"])

    def test_solo_runs_as_long_as_it_is_said(self):
        out = self.ask(LOOP, "solo", "0", "--cycles", "240000")
        self.assertIn("120000 cycles, group 0 alone", out)

    def test_waits_of_solo_and_continue(self):
        wanted = {"turns": 50, "for_ever": True, "what": "waiting at ld r2, r1, 0, full, empty for d to be full"}
        self.assertEqual(self.form(WAIT, "run", "-n", "50")["slots"][0]["waits"], wanted)
        self.assertEqual(self.form(WAIT, "solo", "0", "-n", "50")["slots"][0]["waits"], wanted)
        with folder() as room:
            source, path = write(room, "p.asm", WAIT), os.path.join(room, "p.mms")
            mm("save", source, "-n", "20", "-o", path)
            waits = json.loads(mm("continue", source, path, "-n", "30", "--json").out)["slots"][0]["waits"]
            self.assertEqual((waits["for_ever"], waits["what"]), (True, wanted["what"]))
            mm("save", write(room, "q.asm", LOOP), "-n", "20", "-o", path)
            form = json.loads(mm("continue", os.path.join(room, "q.asm"), path, "-n", "30", "--json").out)
            self.assertEqual([slot["waits"] for slot in form["slots"]], [None, None])

    def test_a_fault_after_a_checkpoint(self):
        with folder() as room:
            source, path = write(room, "p.asm", UNMAP), os.path.join(room, "p.mms")
            mm("save", source, "-n", "1", "-o", path)
            self.assertIn("no page is mapped at data: the run has removed it", mm("continue", source, path).out)
            mm("save", source, "-n", "9", "-o", path)
            self.assertIn("this came before the checkpoint", mm("continue", source, path).out)

    def test_loads_on_their_way(self):
        with folder() as room:
            source, image = write(room, "p.asm", ARRIVING), os.path.join(room, "p.img")
            mm("migrate", source, "split", "-o", image)
            out = mm("run", image, "--names", source).out
        self.assertIn("a load of r2 has not arrived: 5", out)
        self.assertIn("no slot can go on any more: each slot that runs waits; loads that have not arrived can still", out)
        self.assertNotIn("nothing can change", out)

    def test_a_jump_through_an_integer(self):
        """The hint is about the call that kept no way back."""
        source = ".segment a 5\n jmp r5\n.segment b 5\n jmp r6\n.thread 0 0 none xu a\n.reg 5 ptr xu b\n"
        self.assertIn("no way back was kept in r6: a call is `jal r6, r5`", self.ask(source, "run"))
        self.assertIn("do you mean `jal r6, r5`?", self.ask(source.replace(" jmp r5", " jal r5, r6"), "run"))

    def test_a_halt_that_was_forgotten(self):
        out = self.ask(".segment main 6\n nop\n.thread 0 0 none xu main\n", "run")
        self.assertIn("0x100008: halt  (after the last line of main: a word that holds 0 is `halt`)", out)
        self.assertNotIn("after the last line", self.ask(LOOP.replace(" br again", " halt"), "run"))

    def test_a_branch_to_a_segment(self):
        with folder() as room:
            err = mm("run", write(room, "p.asm", ".segment main 6\n nop\n br main\n.thread 0 0 none xu main\n")).err
        self.assertIn("it is this segment itself: put a label before its first word", err)

    def test_read_is_touch(self):
        self.assertIn("group 0 can read d", self.ask(WAIT, "why", "0", "d", "read"))

    def test_a_checkpoint_of_another_program(self):
        with folder() as room:
            one, other, path = write(room, "p.asm", WAIT), write(room, "q.asm", LOOP), os.path.join(room, "p.mms")
            mm("save", write(room, "r.asm", WAIT.replace("full, empty", "any, keep")), "-n", "2", "-o", path)
            ended = mm("continue", one, path)
            self.assertEqual(ended.status, 2)
            self.assertIn("which no run of it can change", ended.err)
            mm("save", one, "-n", "2", "-o", path)
            self.assertEqual(mm("continue", one, path, "-n", "9").status, 0)
            self.assertEqual(mm("continue", other, path).status, 2)

    def test_slots_of_a_group(self):
        source = LOOP.replace(".thread 0 0", ".thread 5 0").replace(".thread 1 1", ".thread 7 0")
        self.assertIn("group 0 (slots 5, 7) can", self.ask(source, "audit"))

    def test_hints_at_files(self):
        with folder() as room:
            source = write(room, "p.asm", LOOP)
            self.assertIn("numbers have no leading zero: 1", mm("run", source, "--turns", "0 01").err)
            self.assertIn("give each file once", mm("run", source, source).err)

    def test_json_has_a_line_for_each_turn(self):
        rows = [row for row in self.ask(CHANGES, "trace", "--json").splitlines() if re.match(r'  \{"cycle"', row)]
        self.assertEqual(len(rows), 6)


if __name__ == "__main__":
    unittest.main()
