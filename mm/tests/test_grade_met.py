"""Lines of exercises that are nearly met: by a part of what they ask for, by one place of several, or in some runs."""

import unittest
from types import SimpleNamespace

from mm.grading import checks
from mm.grading.values import is_value
from mm.machine.words import Permission, Pointer, Word
from mm.outputs.audit import Audit, Reach
from mm.outputs.exploration import Exploration, Outcome
from mm.tests.support import needs_program
from mm.tests.test_grade_lines import A, FORGES, LOADS_RO, RW, Room

HIGH = A.format("  st r1, r2, 0, any, keep\n  out r3\n  halt", RW) + ".reg 2 int 0x100000041\n.reg 3 int 65\n"
# A door that leaves r9 in r8, and a client that calls it twice with other numbers there.
LEAVES = ".segment a 6\n  ldi r9, {}\n  jal r6, r5\n  ldi r9, {}\n  jal r6, r5\n  halt\n"
LEAVES += ".thread 0 0 none xu a\n.reg 5 ptr eu d\n.segment g 4\nd: mov r8, r9\n  jmp r6\n"
NO_INSTRUCTION = A.format("  .int -1", "")
APART = ".segment a 4\nx: br x\ny: br y\n.segment b 4\n  br -1\n.thread 0 0 none xu a\n.thread 1 0 none xu {}\n"
TWO_LETTERS = A.format("  ldi r1, 65\n  out r1\n  ldi r1, 66\n  out r1\n  halt", "")
# Of each line a program that it is not so of, and what is told; or one that it is so of.
LINES = (
    ("register 0 r2 65", HIGH, "r2 is 4294967361"),
    ("register 0 r2 0x100000041", HIGH, None),
    ("word word 65", HIGH, "word is 4294967361"),
    ("word word 4294967361", HIGH, None),
    ("hides 0 d", LEAVES.format(0, 0), None),
    ("hides 0 d", LEAVES.format(5, 5), "after a call, r8 is 5"),
    ("hides 0 d", LEAVES.format(0, 7), "after a call, r8 is 7"),
    ("hides 0 d", LEAVES.format(7, 7), "after a call, r8 is 7"),
    ("faults 0 Illegal", NO_INSTRUCTION, None),
    ("faults 0 Illegal ld", NO_INSTRUCTION, "slot 0 was stopped by fault 7 Illegal, but at no instruction"),
    ("faults 0 Perm st", LOADS_RO, None),
    ("faults 0 Perm ld|out", LOADS_RO, "slot 0 was stopped by fault 2 Perm, but at a `st`"),
    ("together 0 1", APART.format("x"), None),
    ("together 0 1", APART.format("y"), "these slots stand at different instructions"),
    ("together 0 1", APART.format("b"), "these slots stand at different instructions"),
    ("loses 0", FORGES, None),
    ("loses 0", LOADS_RO, "when slot 0 stops, what it uses as a pointer is not a pointer that it had, without the tag"),
    ("matches 0 AB", TWO_LETTERS, None),
    ("matches 0 A", TWO_LETTERS, 'it prints "AB"'),
    ("matches 0 B", TWO_LETTERS, 'it prints "AB"'),
    ("matches 0 A|AB", TWO_LETTERS, None),
    ("matches 0 A.", TWO_LETTERS, None),
    ("matches 0 ABC*", TWO_LETTERS, None),
    ("matches 0 ABC", TWO_LETTERS, 'it prints "AB"'),
)
# Doubles a number, but for one of them.
DOUBLES = "  ld r2, r1, 0, any, keep\n  addi r3, r2, {}\n  add r2, r2, r2\n  bnz r3, right\n  ldi r2, 7\nright: halt"
# Four threads that count: more configurations than are looked at.
COUNTS = ".segment a 6\n  ldi r2, 90\nx: addi r2, r2, -1\n  addi r3, r3, 1\n  bnz r2, x\n  halt\n"
COUNTS += "".join(f".thread {slot} {slot} none xu a\n" for slot in range(4))


@needs_program
class Met(Room):
    def test_each_is_met_and_is_not(self):
        for line, program, why in LINES:
            with self.subTest(line, why=why):
                # A line that each of them meets, so that the others count.
                out = self.grade(f"cycles 3000\nmatches 0 .*\n{line}\n", program).out
                self.assertIn(f"  no   {line}\n       {why}" if why else f"  yes  {line}\n", out)

    def test_what_is_wrong_in_one_run_does_not_count(self):
        """The program is right for all numbers but one; the shown line counts where no run has that one."""
        sheet = "register 0 r2 130\nhalts 0\n"
        sheet += "".join(f"hidden run {number}\nput word {number}\nregister 0 r2 {2 * number}\n" for number in (66, 67, 68))
        for number, marks in ((64, "yyyyy"), (66, "nynyy"), (67, "nyyny"), (68, "nyyyn"), (65, "nyyyy")):
            with self.subTest(number):
                self.assertEqual(self.marks(sheet, A.format(DOUBLES.format(-number), RW)), marks)

    def test_more_configurations_than_are_looked_at(self):
        sheet = "uses halt\nnever stuck\nnever faults\noutcomes 0\n"
        out = self.grade(sheet, COUNTS).out
        self.assertEqual(out.count("there are more than 100000 configurations"), 3, out)


class Found(unittest.TestCase):
    """Lines about what an exploration and an audit have found."""

    def test_what_was_not_looked_at_may_be_otherwise(self):
        ended = Outcome("ended", {0: "halted"}, {0: b"A"}, "0*2")
        for found, wrong in ((Exploration(9, True, [], [], [ended]), None),
                             (Exploration(9, False, [], [], [ended]), "there are more than 9 configurations")):
            program = SimpleNamespace(exploration=found)
            self.assertEqual(checks.never(program, "stuck"), wrong)
            self.assertEqual(checks.never(program, "faults"), wrong)
            self.assertEqual(checks.outcomes(program, "1"), wrong)

    def test_what_was_found_counts(self):
        """Whether all configurations were looked at or not."""
        for every in (True, False):
            for kind, does in (("stuck", "is"), ("endless", "goes on for ever")):
                left = [Outcome("ended", {}, {}, "0"), Outcome(kind, {}, {}, "1 0")]
                program = SimpleNamespace(exploration=Exploration(9, every, [], [(1, 3, "1*4")], left))
                self.assertEqual(checks.never(program, "stuck"), f"it {does}, under the schedule 1 0")
            self.assertEqual(checks.never(program, "faults"), "slot 1 has fault 3 Bounds, under the schedule 1*4")
            self.assertEqual(checks.outcomes(program, "1"), "there are 2")

    def test_all_bytes_of_a_name(self):
        """A group can do what the audit grants it of each byte from the first to the last."""
        image = SimpleNamespace(groups=[0])
        for spans, right in (([(0x1000, 5)], True), ([(0x1000, 12)], True), ([(0x1000, 4)], False), ([(0x1000, 3)], False),
                             ([(0x1010, 4)], False), ([(0x1018, 3)], False), ([], False)):
            for kind in ("touch", "write"):
                reach = Reach(0, False, **{"touch": [], "write": [], kind: spans})
                program = SimpleNamespace(built=SimpleNamespace(image=image), audit=lambda reach=reach: Audit([reach]),
                                          span=lambda name: (0x1000, 0x1020))
                self.assertEqual(checks.can(program, "0", kind, "x") is None, right, (spans, kind))
                self.assertEqual(checks.cannot(program, "0", kind, "x") is None, not right, (spans, kind))

    def test_values_have_64_bits(self):
        for number in (0, 65, 1 << 31, 1 << 32, (1 << 32) + 65, (1 << 63) + 65, (1 << 64) - 1):
            for other in (0, 65, 1 << 31, 1 << 32, (1 << 32) + 65, (1 << 63) + 65, (1 << 64) - 1):
                self.assertEqual(is_value(Word(number), str(other)), number == other)
        self.assertTrue(is_value(Word((1 << 64) - 1), "-1") and not is_value(Word((1 << 32) - 1), "-1"))
        pointer = Pointer(Permission.RW, 3, 0x1000)
        self.assertFalse(is_value(Word(pointer.bits, True), str(pointer.bits)))


if __name__ == "__main__":
    unittest.main()
