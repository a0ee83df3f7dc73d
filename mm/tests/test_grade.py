"""`mm grade`: what is not so of an answer is told, and the text of an exercise is read as it must be."""

import os
import re
import tempfile
import unittest

from mm.commands.grade import exercises
from mm.grading.checks import said
from mm.grading.lines import FORMS, SETTINGS, TABLES, VALUE, VALUE_PUT
from mm.grading.marks import CHECKS
from mm.grading.sheet import read_sheet
from mm.status import Stop
from mm.tests.support import folder, mm, needs_program, read, write

HELLO = "examples/hello.asm"


@needs_program
class Grade(unittest.TestCase):
    def test_another_program_is_not(self):
        for name, program, why in (
            ("10.1", "docs/course/race.asm", "there are 2"),
            ("10.2", "docs/course/locks.asm", "it is, under the schedule 0 1"),
            ("10.2", "docs/course/race.asm", 'it prints "A'),
            ("11.1", "docs/course/board.asm", "slot 0 has halted"),
            ("11.2", "docs/course/lost.asm", "slot 2 is taken"),
            ("12.1", "docs/course/drawers.asm", "r8 is "),
            ("12.2", "docs/course/cloakroom.asm", "slot 0 does not store there"),
            ("1.1", "examples/hello.asm", "slot 0 does not carry out st"),
            ("8.1", "docs/course/answers/told.asm", "the audit says that they do not"),
            ("8.1", "docs/course/apart.asm", "there is no slot 2"),
            ("6.2", "docs/course/answers/doors.asm", "count is 2"),
            ("6.2", "examples/hello.asm", "there is no label or segment `count`"),
            ("lab-1", "examples/hello.asm", 'it prints "A"'),
            ("lab-2", "examples/hello.asm", "none of its out is carried out more than 1 time, and"),
            ("lab-4", "examples/hello.asm", "slot 0 has halted"),
            ("lab-5", "docs/course/lab/bank.asm", "it prints nothing"),
            ("lab-3", "examples/faults.asm", "slot 0 was stopped by fault 3 Bounds: "),
            ("8.1", "docs/course/fakes/rude-ends.asm", "  no   runs 1 out\n       slot 1 has halted\n"),
            ("lab-3", "docs/course/fakes/nothing.asm", "there is no label or segment `numbers`, and the exercise asks"),
            ("10.1", "docs/course/locks.asm", "there is no label or segment `word`, and the exercise asks for one\n"),
        ):
            with self.subTest(name):
                ended = mm("grade", name, program)
                self.assertEqual((ended.status, ended.err), (1, ""))
                self.assertIn(why, ended.out)

    def test_another_number_is_not(self):
        with folder() as room:
            text = read("docs", "course", "answers", "round.asm").replace("ldi r3, 99", "ldi r3, 98")
            ended = mm("grade", "6.2", write(room, "round.asm", text))
        self.assertEqual(ended.status, 1)
        self.assertIn("count is 98 'b'", ended.out)

    def test_a_polite_neighbour_is_not(self):
        said_and_done = read("docs", "course", "answers", "rude.asm")
        with tempfile.TemporaryDirectory() as room:
            for old, new, why in (
                ("  br more", "  halt", 'it prints "!"'),
                ("  st r1, r2, 0, any, keep\n  halt", "  nop\n  halt", "slot 2 has halted"),
                ("  .int 64", "  .int 65", 'it prints "BCD"'),
            ):
                ended = mm("grade", "8.1", write(room, "polite.asm", said_and_done.replace(old, new)))
                self.assertEqual(ended.status, 1)
                self.assertIn(why, ended.out)

    def test_a_group_that_is_not_there(self):
        """The audit says of it that it stands apart, and that is no answer."""
        alone, both = ".segment a 3\n  halt\n.thread 0 0 none xu a\n", "docs/course/apart.asm"
        with folder() as room:
            one = write(room, "one.asm", alone)
            for line, program, why in (
                ("apart 0", one, None),
                ("apart 1", one, "there is no group 1"),
                ("apart 0 0x1", one, "there is no group 0x1"),
                ("shares 2", one, "there is no group 2"),
                ("apart 0", both, None),
                ("apart 0 7", both, "there is no group 7"),
                ("shares 0 7", both, "there is no group 7"),
            ):
                with self.subTest(line):
                    # A line that does something, so that the others count.
                    ended = mm("grade", write(room, "sheet.txt", f"matches 0 .*\n{line}"), program)
                    self.assertEqual(ended.status, int(why is not None))
                    self.assertIn(f"  no   {line}\n       {why}\n" if why else f"  yes  {line}\n", ended.out)
        self.assertIn("there is no group 2", mm("grade", "7.2", "docs/course/apart.asm").out)

    def test_a_line_that_asks_for_nothing_that_there_can_be(self):
        for line, why in (
            ("says 0 \\q", "`\\q` is not a text of bytes"),
            ("says 0 \\x4", "`\\x4` is not a text of bytes"),
            ("faults 0 Boundz", "`Boundz` is not a"),
            ("register 0 r99 1", "`r99` is not a register"),
            ("register 0 r1 one", "`one` is not a number"),
            ("can 0 read hello", "`read` is not a kind of access"),
            ("given ../nothing.asm hello", "../nothing.asm"),
            ("through 0 r1", "`r1` is not a number"),
            ("says 0 A\nhidden b\ncode 0 nothing.asm a\nsays 0 A", "nothing.asm cannot be read"),
        ):
            with self.subTest(line), folder() as room:
                ended = mm("grade", write(room, "sheet.txt", f"# a sheet\n{line}"), "examples/hello.asm")
                self.assertEqual((ended.status, ended.out), (2, ""))
                self.assertRegex(ended.err, rf"sheet\.txt:[23]: {re.escape(why)}")

    def test_an_exercise_that_is_not_there(self):
        ended = mm("grade", "9.1", "examples/hello.asm")
        self.assertEqual(ended.status, 1)
        self.assertIn("there is no exercise `9.1`", ended.err)

    def test_lines_with_a_mistake(self):
        for text, why in (
            ("without mull", "sheet.txt:1: unknown operation `mull`; do you mean `mul"),
            ("says 0\nuses st|shift", "sheet.txt:2: unknown operation `shift`"),
            ("executes 0 out*2 shift*3", "unknown operation `shift`"),
            ("cycles x\ncycles 5\nsays 0", "sheet.txt:2: this run has a line `cycles` already"),
            ("schedule 0\nschedule 1\nsays 0", "this run has a line `schedule` already"),
            ("takes cpp\nsays 0", "unknown kind of answer `cpp`"),
            ("shines 0", "unknown line `shines`"),
            ("hals 0", "unknown line `hals`; do you mean `halts`?"),
            ("faults 0", "the form `faults SLOT FAULT"),
            ("register 0 r1", "the form `register SLOT rN VALUE`"),
            ("never mind", "the form `never stuck | never faults`"),
            ("like register 0", "the form `like says GROUP | like letters GROUP | like register SLOT rN | like word"),
            ("like says 0", "sheet.txt:1: this line asks the first `answer`, and the exercise names none"),
            ("register 0 r1 pointers", "sheet.txt:1: `pointers` is not a number"),
            ("stops 0 past\nstops 0 end", "sheet.txt:2: `end` is not a number"),
            ("put a 9..3\nsays 0", "sheet.txt:1: `9..3` has no numbers: the least comes first"),
            ("put a b\nsays 0", "`b` is not a number, nor a range as `65..90`, nor `random`"),
            ("put a pointer\nsays 0", "a pointer is drawn for a register alone"),
            ("put 0 r1 random*2\nsays 0", "`random*2` is several words, and a register has one"),
            ("put a 1..3\nsays 0", "sheet.txt:1: inputs are drawn for a `hidden` run"),
            ("from a.asm\nfrom b.asm\nsays 0", "sheet.txt:2: this exercise has a line `from` already"),
            ("", "nothing is expected"),
            ("says 0\nhidden more\nput a 1", "sheet.txt:2: nothing is expected of the run `more`"),
        ):
            with self.assertRaises(Stop) as stop:
                read_sheet("sheet.txt", text)
            self.assertIn(why, stop.exception.lines[0])

    def test_a_hidden_run_does_not_say_its_inputs(self):
        ended = mm("grade", "lab-3", "docs/course/fakes/lab3-constant.asm")
        self.assertIn("  no   the sum of other numbers\n       there is no label or segment `numbers`", ended.out)
        lines = "register 0 r3 100\nhidden other numbers\nput numbers 3 1 4 1\nregister 0 r3 9\n"
        with folder() as room:
            ended = mm("grade", write(room, "sheet.txt", lines), "docs/course/fakes/lab3-idle.asm")
        self.assertIn("with other inputs, which are not shown, these lines are not right: register 0 r3 ..\n", ended.out)
        self.assertNotIn("r3 9", ended.out)

    def test_an_empty_program_gets_nothing(self):
        """Not even for what it meets without doing anything: such a line counts if something else is done."""
        for name in exercises():
            with self.subTest(name):
                out = mm("grade", name, "docs/course/fakes/nothing.asm").out
                self.assertRegex(out.splitlines()[-1], "^0 of ")

    def test_long_output_is_cut(self):
        self.assertEqual(said(b"a" * 50), f'it prints "{"a" * 40}" and 10 more bytes')
        self.assertEqual(said(b"a" * 41), f'it prints "{"a" * 40}" and 1 more byte')
        self.assertEqual(said(b'"\n'), 'it prints "\\"\\n"')

    def test_words_are_asked_for(self):
        self.assertIn("lab-5", mm("help", "grade").out)
        ended = mm("grade", "1.1")
        self.assertEqual(ended.status, 1)
        self.assertIn("missing FILE", ended.err)

    def test_each_line_is_looked_at_and_written_down(self):
        """GRADING.md has the tables from which `mm help` is made, row by row."""
        self.assertEqual((set(CHECKS) | set(SETTINGS), set(CHECKS) & set(SETTINGS)), (set(FORMS), set()))
        page = read("docs", "course", "GRADING.md")
        for heading, rows in TABLES.items():
            table = page.partition(f"\n| {heading} | ")[2].split("\n\n")[0].splitlines()
            self.assertEqual(table[2:], [row.page for row in rows], heading)
        flowing = " ".join(page.split())
        self.assertIn(VALUE + ".", flowing)
        self.assertIn(VALUE_PUT + ".", flowing)

    def test_each_line_is_explained(self):
        for kind, forms in FORMS.items():
            ended = mm("help", kind)
            self.assertEqual(ended.status, 0, kind)
            for form in forms:
                self.assertIn(form, " ".join(ended.out.split()))
            self.assertIn("a line of an exercise", ended.out)
        self.assertIn("it counts only if some other line is right", " ".join(mm("help", "lacks").out.split()))
        self.assertNotIn("it counts only if some other line is right", " ".join(mm("help", "says").out.split()))
        self.assertIn(VALUE_PUT, " ".join(mm("help", "put").out.split()))
        self.assertIn("13  OutFull", mm("help", "faults").out)
        self.assertIn("do you mean `repeats`?", mm("help", "repeat.s").err)
        self.assertIn("`mm help matches` explains a line `matches`\n0 of 3\n", mm("grade", "lab-1", HELLO).out)
        self.assertNotIn("mm help", mm("grade", "lab-1", "docs/course/answers/lab1.asm").out)

    def test_sheets_name_no_place_of_this_machine(self):
        for name in os.listdir("docs/course/grade"):
            self.assertNotIn(" /", read("docs", "course", "grade", name))
