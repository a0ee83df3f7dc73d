"""Kinds of lines of an exercise, each with a program that meets it and one that does not; inputs that are drawn; the
source that an exercise gives; and what `keeps` says of a gate."""

import os
import re
import unittest

from mm.grading import draws
from mm.grading.draws import Dice, draw_in
from mm.grading.keeping import told
from mm.grading.sheet import read_sheet
from mm.machine.words import Pointer
from mm.names.symbols import Symbols
from mm.outputs.keeps import read_keeps
from mm.tests.support import folder, mm, needs_program, read, write
from mm.views.keptwords import KeptWords

A = ".segment a 7\n{}\n.thread 0 0 none xu a\n{}"
WORD = ".segment word 3\n  .int 65\n"
RW = ".reg 1 ptr rw word\n" + WORD
PRINTS = A.format("  ldi r1, 65\nx: out r1\n  br x", "")
AFTER = A.format("  ldi r1, 65\n  out r1\n  halt\n  nop\n  ldi r1, 66", "")
IDLES = A.format("  ldi r1, 65\n  ldi r2, 20\nx: out r1\n  addi r2, r2, -1\n  bnz r2, x\ny: br y", "")
SHOWS = A.format("  ld r2, r1, 0, any, keep\n  addi r2, r2, 256\n  st r1, r2, 0, any, keep\n  out r2\n  halt", RW)
TELLS = A.format("  ldi r2, 66\n  out r2\n  st r1, r1, 0, any, keep\n  halt", RW)
SAME = A.format("  ldi r2, 65\n  st r1, r2, 0, any, keep\n  halt", RW)
FORGES = A.format("  addi r2, r1, 0\n  ld r3, r2, 0, any, keep", RW)
LOADS_RO = A.format("  st r1, r1, 0, any, keep", RW.replace("rw", "ro"))
TWO = ".reg 1 ptr rw two\n.segment two 4\n  .int 0\n  .int 0\n"
RELOADS = "  addi r2, r1, 0\n  st r1, r1, 0, any, keep\n  st r1, r2, 8, any, keep\n  ld r3, r1, 0, any, keep\n"
RELOADS += "  mov r7, r3\n  ld r4, r1, 8, any, keep\n"
ASKS = A.format(RELOADS + "  isptr r5, r7\n  isptr r6, r4", TWO)
ASKS_OTHERS = A.format(RELOADS + "  isptr r5, r1\n  isptr r6, r2", TWO)
KEY = A.format("  ldi r2, 7\n  restrict r3, r1, r2\n  halt", RW)
DOOR = ".segment g 4\nd: jmp r6\n"
ENTERS = A.format("  jal r6, r5\n  jal r6, r5\n  halt", ".reg 5 ptr eu d\n" + DOOR)
HANDLES = A.format("  halt", ".thread 1 1 0 xu a\n")
SHARES = A.format("  halt", RW) + ".thread 1 1 none xu a\n.reg 1 ptr ro word\n"
# Of each line a program, and what is told of it, or nothing if it is right.
LINES = (
    ("executes 0 nop", AFTER, "slot 0 does not carry out nop"),
    ("executes 0 ldi*2 nop|out", AFTER, "it carries out ldi 1 time"),
    ("executes 0 ldi out|nop", AFTER, None),
    ("without ld", A.format("  .int 0x3021000000000000\n  halt", RW), "a ld was carried out"),
    ("without ld", A.format("  halt\n  ld r2, r1, 0, any, keep", RW), "there is a ld"),
    ("without ld", AFTER, None),
    ("runs 0 out", PRINTS, None),
    ("runs 0 out", IDLES, "in the second half of the run slot 0 does not carry out out"),
    ("runs 0 br|bz", IDLES, None),
    ("runs 0 out", SHOWS, "slot 0 has halted"),
    ("halts 0", PRINTS, "slot 0 still runs after 3000 cycles"),
    ("shows 0 word", SHOWS, None),
    ("shows 0 word", TELLS, 'it prints "B", and word is rw 2^3 word'),
    ("shows 0 word", SAME, "it prints nothing, and word is 65 'A'"),
    ("changes word", SHOWS, None),
    ("changes word", SAME, "word is still 65 'A'"),
    ("through 0 integer", FORGES, None),
    ("through 0 ro", LOADS_RO, None),
    ("through 0 2^3", LOADS_RO, None),
    ("through 0 2^4", LOADS_RO, "when slot 0 stops, what it uses as a pointer is ro 2^3 word"),
    ("through 0 rw", LOADS_RO, "when slot 0 stops, what it uses as a pointer is ro 2^3 word"),
    ("through 0 pointer", SAME, "no instruction with a pointer has stopped slot 0"),
    ("gives 0 restrict key", KEY, None),
    ("gives 0 restrict ro", KEY, "no restrict gives this"),
    ("gives any restrict 2^3", KEY, None),
    ("register 0 r3 key", KEY, None),
    ("register 0 r3 2^4", KEY, "r3 is key 2^3 word"),
    ("reloads 0 isptr", ASKS, None),
    ("reloads any isptr|ld", ASKS, None),
    ("reloads 0 isptr", ASKS_OTHERS, "slot 0 does not carry out isptr on each of the words it loads"),
    ("reloads 0 isptr", KEY, "slot 0 has not stored a pointer and the integer with the same bits, and loaded both from"),
    ("reloads any isptr", KEY, "no slot has stored a pointer and the integer with the same bits"),
    ("enters 0 any 2", ENTERS, None),
    ("enters 0 d 2", ENTERS, None),
    ("enters 0 any 1", ENTERS, "slot 0 enters by any enter pointer 2 times"),
    ("enters 0 any 0", KEY, None),
    ("common 0 1", SHARES, None),
    ("common 1 0", HANDLES, "the audit says that group 1 can write nothing that group 0 can touch"),
    ("common 0 7", SHARES, "there is no group 7"),
)


class Room(unittest.TestCase):
    def setUp(self):
        entered = folder()
        self.room = entered.__enter__()
        self.addCleanup(entered.__exit__, None, None, None)

    def sheet(self, text):
        return write(self.room, "sheet.txt", text)

    def grade(self, sheet, program, *words):
        return mm("grade", self.sheet(sheet), write(self.room, "p.asm", program), *words)

    def marks(self, sheet, program, *words):
        """Whether each line is right."""
        out = self.grade(sheet, program, *words).out
        return "".join({"  yes": "y", "  no ": "n"}.get(line[:5], "") for line in out.splitlines())


@needs_program
class Lines(Room):
    def test_each_is_met_and_is_not(self):
        for line, program, why in LINES:
            with self.subTest(line, why=why):
                # A line that each of them meets, so that the others count.
                out = self.grade(f"cycles 3000\nuses halt|br|ld|st|isptr\n{line}\n", program).out
                self.assertIn(f"  no   {line}\n       {why}" if why else f"  yes  {line}\n", out)

    def test_inputs_of_the_run_that_is_shown(self):
        self.assertEqual(self.marks("put word 77\nregister 0 r2 333\nhalts 0\n", SHOWS), "yy")
        out = self.grade("put word 77\nregister 0 r2 333\nhalts 0\n", KEY.replace("word", "box")).out
        self.assertEqual(out.count("there is no label or segment `word`, and the exercise asks for one"), 2)

    def test_a_number_of_no_entries_is_met_by_doing_nothing(self):
        self.assertEqual(self.marks("enters 0 any 0", KEY), "n")

    def test_a_word_from_another_slot_is_not_the_one_that_was_loaded(self):
        """A handler puts the integer that is asked for into the register of a load."""
        client = RELOADS + "  trap 1\n  isptr r5, r7\n  isptr r6, r4\n  halt"
        serves = ".segment h 6\n  evt r8\n  ldi r3, 0\n  wreg r3, r3, 4\n  resume r3, skip\n.thread 1 0 none xu h\n"
        program = A.format(client, TWO).replace("0 0 none", "0 0 1") + serves
        self.assertEqual(self.marks("executes 1 wreg\nreloads 0 isptr", program), "yn")
        self.assertEqual(self.marks("executes 1 wreg\nreloads 0 isptr", program.replace("r3, r3, 4", "r3, r3, 9")), "yy")


@needs_program
class Drawn(Room):
    """A sheet that doubles a number: the result is that of its answer."""

    DOUBLES = A.format("  ld r2, r1, 0, any, keep\n  add r2, r2, r2\n  st r1, r2, 0, any, keep\n  halt", RW)
    KNOWS = A.format("  ldi r2, 130\n  st r1, r2, 0, any, keep\n  halt", RW)
    SHEET = "register 0 r2 130\nword word 130\nhidden another word\nput word 1000..9000\nlike register 0 r2\nlike word word\n"
    SHEET += "answer answer.asm\n"

    def setUp(self):
        super().setUp()
        write(self.room, "answer.asm", self.DOUBLES)

    def test_a_result_that_was_known_before_gets_nothing(self):
        self.assertEqual(self.marks(self.SHEET, self.DOUBLES), "yyy")
        self.assertEqual(self.marks(self.SHEET, self.KNOWS), "nnn")

    def test_the_feedback_names_the_inputs_and_draws_them_again(self):
        one = self.grade(self.SHEET, self.KNOWS, "--seed", "7").out
        said = r"with (\d+) in word \(`--seed 7`\) this is not right: like register 0 r2: "
        said += r"it is 130, and in the answer it is (\d+); like word word: it is 130, and in the answer it is (\d+)\n"
        found = re.search(said, one)
        self.assertIsNotNone(found, one)
        self.assertEqual([int(found[2]), int(found[3])], [2 * int(found[1])] * 2)
        self.assertEqual(self.grade(self.SHEET, self.KNOWS, "--seed", "7").out, one)
        others = {re.search(r"with \d+ in word", self.grade(self.SHEET, self.KNOWS).out)[0] for _ in range(5)}
        self.assertGreater(len(others), 1)
        seed = re.search(r"`(--seed) (\d+)`", self.grade(self.SHEET, self.KNOWS).out)
        again = self.grade(self.SHEET, self.KNOWS, *seed.groups()).out
        self.assertIn(f"`--seed {seed[2]}`", again)

    def test_a_class_has_the_same_inputs(self):
        students = os.path.join(self.room, "students")
        os.makedirs(students)
        for name in ("ann.asm", "ben.asm"):
            write(students, name, self.KNOWS)
        mm("grade", self.sheet(self.SHEET), students, "--feedback", self.room + "/told")
        self.assertEqual(read(self.room, "told", "ann.txt"), read(self.room, "told", "ben.txt"))

    def test_a_run_is_made_several_times(self):
        """A program that is right for the first draw alone is not right."""
        sheet = "uses halt\nhidden a number\nput 0 r1 0..1\nlike register 0 r2\nanswer answer.asm\n"
        write(self.room, "answer.asm", A.format("  mov r2, r1\n  halt", ""))
        drawn = {seed: [Dice(seed, 2, time).words(["0..1"])[0] for time in range(draws.TIMES)] for seed in range(40)}
        seed = next(seed for seed, found in drawn.items() if found[0] == "0" and "1" in found)
        program = A.format("  ldi r2, 0\n  halt", "")
        self.assertEqual(self.marks(sheet, program, "--seed", str(seed)), "yn")
        alike = next(seed for seed, found in drawn.items() if set(found) == {"0"})
        self.assertEqual(self.marks(sheet, program, "--seed", str(alike)), "yy")

    def test_letters_in_any_order(self):
        write(self.room, "answer.asm", A.format("  out r1\n  out r2\n  halt", ".reg 1 int 65\n.reg 2 int 66\n"))
        program = A.format("  out r2\n  out r1\n  halt", ".reg 1 int 65\n.reg 2 int 66\n")
        sheet = "says 0 {}\nhidden others\nput 0 r1 65..90\nput 0 r2 97..122\nlike {} 0\nanswer answer.asm\n"
        self.assertEqual(self.marks(sheet.format("BA", "letters"), program), "yy")
        self.assertEqual(self.marks(sheet.format("BA", "says"), program), "nn")
        twice = program.replace("out r1", "out r2")
        self.assertEqual(self.marks(sheet.format("BB", "letters"), twice), "nn")

    def test_other_code_for_a_slot(self):
        write(self.room, "code.asm", ".segment b 5\n  addi r1, r1, 1\n  out r1\n  halt\n.segment c 4\n  .ptr ro b\n")
        sheet = "says 0 A\nhidden other code\ncode 0 code.asm b\nput 0 r1 65..80\nlike says 0\nanswer answer.asm\n"
        program = A.format("  out r1\n  halt", ".reg 1 int 65\n")
        write(self.room, "answer.asm", program)
        self.assertEqual(self.marks(sheet, program), "yy")
        out = self.grade(sheet.replace("65..80", "66").replace("like says 0", "says 0 C"), program).out
        self.assertTrue(out.endswith("  yes  other code\n2 of 2\n"), out)
        out = self.grade(sheet.replace("like says 0", "says 0 A"), program).out
        self.assertRegex(out, r"with `b` of code\.asm as the code of slot 0, \d+ in r1 of slot 0 \(`--seed \d+`\) this is")
        for wrong, why in (("0 code.asm d", "code.asm has no segment `d`"), ("0 code.asm c", "`c` of code.asm has pointers")):
            ended = self.grade(sheet.replace("0 code.asm b", wrong), program)
            self.assertEqual((ended.status, ended.out), (2, ""))
            self.assertIn(f"sheet.txt:2: {why}", ended.err)
        self.assertIn("there is no slot 5", self.grade(sheet.replace("0 code.asm b", "5 code.asm b"), program).out)

    def test_an_answer_that_cannot_be_compared_with_is_a_fault_of_the_sheet(self):
        for answer, why in (("  halt\n  x", "answer.asm cannot be read, or has a mistake"),
                            ("  halt", "answer.asm: there is no label or segment `word`")):
            write(self.room, "answer.asm", A.format(answer, ""))
            ended = self.grade(self.SHEET, self.DOUBLES)
            self.assertEqual((ended.status, ended.out), (2, ""))
            self.assertRegex(ended.err, rf"sheet\.txt:\d: {why}")

    def test_seeds_are_numbers(self):
        self.assertIn("`x` is not a seed", self.grade("says 0", KEY, "--seed", "x").err)
        self.assertIn("`-1` is not a seed", self.grade("says 0", KEY, "--seed", "-1").err)


@needs_program
class Given(Room):
    """A source that the exercise gives has no points for what it does."""

    SHEET = "says 0 A\nregister 0 r1 65\nexecutes 0 nop\nhalts 0\nhidden the same\nput 0 r2 1\nsays 0 A\nfrom start.asm\n"
    SHEET += "answer p.asm\n"
    START = A.format("  ldi r1, 65\n  out r1\n  halt", "")

    def setUp(self):
        super().setUp()
        write(self.room, "start.asm", self.START)

    def test_what_it_meets_counts_once_something_else_is_right(self):
        self.assertEqual(self.marks(self.SHEET, self.START), "nnnnn")
        self.assertEqual(self.marks(self.SHEET, self.START.replace("65", "66")), "nnnnn")
        self.assertEqual(self.marks(self.SHEET, self.START.replace("  halt", "  nop\n  halt")), "yyyyy")
        without = self.SHEET.replace("from start.asm\n", "")
        self.assertEqual(self.marks(without, self.START), "yynyy")

    def test_a_sheet_is_tried_with_it(self):
        write(self.room, "p.asm", self.START.replace("  halt", "  nop\n  halt"))
        ended = mm("grade", self.sheet(self.SHEET), "--check")
        self.assertEqual((ended.status, ended.out), (0, "  yes  answer p.asm: 5 of 5\n  yes  from start.asm: 0 of 5\n"))
        write(self.room, "start.asm", self.START.replace("  halt", "  nop\n  halt"))
        ended = mm("grade", self.sheet(self.SHEET.replace("answer p.asm", "answer none.asm")), "--check")
        self.assertEqual(ended.status, 3)
        write(self.room, "p.asm", self.START.replace("  halt", "  nop\n  nop\n  halt"))
        more = self.SHEET.replace("executes 0 nop", "executes 0 nop\nexecutes 0 nop*2")
        self.assertIn("  yes  from start.asm: 0 of 6\n", mm("grade", self.sheet(more), "--check").out)

    def test_one_that_is_wrong_is_a_fault_of_the_sheet(self):
        ended = self.grade(self.SHEET.replace("from start.asm", "from sheet.txt"), self.START)
        self.assertEqual((ended.status, ended.out), (2, ""))
        self.assertIn("sheet.txt: sheet.txt cannot be read, or has a mistake", ended.err)


class Keeps(Room):
    def test_leaks_in_words(self):
        words_of = KeptWords(Symbols())
        text = "keeps no\nleak jump 000000001000f8 7 p20c0000000100108\nleak fault 00000000100020 ip\n"
        found = read_keeps(text)
        self.assertEqual((found.verdict, len(found.leaks)), ("no", 2))
        said = told(found.leaks, words_of)
        self.assertIn("r7 is rw 2^3 0x100108 when the gate is left at 0x1000f8; a fault at 0x100020 hands a handler", said)
        for line, words in (
            ("across p20c0000000100108", "somebody holds rw 2^3 0x100108, which leads to more than is kept"),
            ("cell 00000000100108 in 2 00000000100100 6", "0x100108 is not kept, and holds any rw pointer into 0x100100/6"),
            ("code 00000000100108", "the gate runs at 0x100108, and others can write there"),
            ("enter 00000000100108 5 int", "the jump at 0x100108 goes where r5 says, an integer, which depends on"),
            ("store 00000000100108 5 ptr 1", "at 0x100108 any ro pointer that a caller may hold of r5 is stored where others can load"),
            ("give 00000000100108 5 any", "at 0x100108 any word that a caller may hold of r5 goes to a slot that is served"),
            ("fault 00000000100108 5 int", "a fault at 0x100108 hands a handler of others r5, an integer"),
            ("loose 3", "slot 3, which serves others, can go on as a caller"),
        ):
            self.assertIn(words, told(read_keeps(f"keeps no\nleak {line}\n").leaks, words_of))
        self.assertIn("; and 2 more leaks", told(read_keeps("keeps no\n" + "leak loose 3\n" * 5).leaks, words_of))

    @needs_program
    def test_a_gate_that_keeps_and_one_that_does_not(self):
        counter = read("examples", "counter.asm")
        leaky = counter.replace("ldi r7, 0 ", "nop ; ")
        for line, program, why in (
            ("keeps gates count", counter, None),
            ("keeps gate count", counter, None),
            ("keeps door count", counter, None),
            ("keeps gat* coun*", counter, None),
            ("keeps gates count", leaky, "not whatever its callers do: r7 is rw 2^3 count when the gate is left at door+"),
            ("keeps gates", KEY, "there is no gate"),
            ("keeps b*", KEY, "there is no segment `b*`"),
            ("keeps vault", counter, "there is no label or segment `vault`, and the exercise asks for one"),
        ):
            with self.subTest(line, why=why):
                out = self.grade(f"uses halt\n{line}\n", program).out
                self.assertIn(f"  no   {line}\n       {why}" if why else f"  yes  {line}\n", out)

    @needs_program
    def test_what_is_not_known_is_not_kept(self):
        counter = read("examples", "counter.asm")
        out = self.grade("uses halt\nkeeps gates count\n", counter.replace("none xu prod", "none xp prod")).out
        self.assertIn("nothing is kept, since somebody holds a pointer to privileged code", out)


class Texts(unittest.TestCase):
    def test_a_sheet_whose_inputs_are_drawn(self):
        sheet = read_sheet("s", "says 0 A\nhidden b\nput a 5 1..3 random*2\nput 0 r1 pointer\nput 1 r2 ro 8\nsays 0 A\n")
        case = sheet.cases[1]
        self.assertTrue(case.is_drawn and not sheet.cases[0].is_drawn)
        drawn = case.drawn(4, 0)
        self.assertFalse(any(map(draw_in, drawn.inputs[0].words)))
        self.assertEqual([len(line.words) for line in drawn.inputs], [5, 4, 4])
        self.assertEqual(drawn.inputs[2].words, ("1", "r2", "ro", "8"))
        self.assertEqual([line.words for line in case.drawn(4, 0).inputs], [line.words for line in drawn.inputs])
        self.assertNotEqual(case.drawn(4, 1).inputs[0].words, drawn.inputs[0].words)
        self.assertNotEqual(case.drawn(5, 0).inputs[0].words, drawn.inputs[0].words)

    def test_what_is_drawn(self):
        for seed in range(50):
            words = Dice(seed, 1, 0).words(["7", "65..90", "-5..-3*2", "random*3", "pointer"])
            numbers = [int(word, 0) for word in words[:7]]
            self.assertEqual(len(words), 9)
            self.assertEqual((words[0], words[7]), ("7", "pointer"))
            self.assertTrue(65 <= numbers[1] <= 90 and all(-5 <= each <= -3 for each in numbers[2:4]))
            self.assertTrue(all(0 <= each < 1 << 64 for each in numbers[4:7]))
            pointer = Pointer.of_bits(int(words[8], 0))
            self.assertIn(pointer.permission.short, ("ro", "rw", "xu", "eu", "key"))
        self.assertEqual({Dice(seed, 1, 0).words(["0..2"])[0] for seed in range(50)}, {"0", "1", "2"})
        self.assertEqual(len({Dice(5, line, time).words(["random"]) for line in (1, 9) for time in range(3)}), 6)
        self.assertIsNone(draw_in("box"))
