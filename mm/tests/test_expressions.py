"""Expressions of the debugger, the forms in which it prints values, and lines that it carries out after a stop."""

import time
import unittest
from unittest import mock

from mm.debugger.commands import Debugger
from mm.tests.support import folder, mm, needs_program, write
from mm.tests.test_debugger import answers


# What the translator of C tells of two globals, of two variables that are in a register and a constant, and of an array.
OF_C = """.segment text 6
;@ type 1 base i4 int
;@ type 2 base i1 signed char
;@ type 3 base u1 unsigned char
;@ type 4 base u4 unsigned int
;@ type 5 struct 8 item cents:0:1 kind:32:2 letter:40:3 bits:48:4:3
;@ type 6 base i8 long
;@ type 7 array 2 1
f:
;@ function f at c.c:1
;@ line c.c:2
  ldi r1, -5
;@ var i 1 r1
;@ var k 1 7
  nop
  halt
.segment g 3
;@ global count 4 at 4 type 1
  .int 0xfffffffd00000000
.segment b 3
;@ global box 8 at 0 type 5
  .int 0x0005c8fefffffff8
.segment w 3
;@ global wide 8 at 0 type 6
  .int -1
.segment row 3
;@ global row 8 at 0 type 7
  .int 0x0000000200000001
.segment stack 6
  .fill 8
.thread 0 0 none xu f
.reg 15 ptr rw stack
"""


@needs_program
class Expressions(unittest.TestCase):
    """What gdb reckons, `print` reckons."""

    VALUES = (
        ("(1+2)*3", "9 "), ("1 + 2 * 3", "7 "), ("-7 / 2", "-3 "), ("-7 % 3", "-1 "), ("7 % -3", "1 "), ("1 << 4 | 3", "19 "),
        ("6 & 3 ^ 8", "10 "), ("-16 >> 2", "-4 "), ("~0", "-1 "), ("!5", "0 "), ("!0 + 1", "2 "), ("2 < 1 == 0", "1 "), ("3 - 2 - 1", "0 "),
        ("1 && 0 || 1", "1 "), ("0 && 1/0", "0 "), ("1 || 1/0", "1 "), ("'A' + 1", "66 'B'"), ("0x10 * 0b11", "48 "), ("r2 + 1", "2 "),
        ("$r2*10", "10 "), ("(r3)", "2 "), ("&box == r1", "1 "), ("&box + 8", "1048840 0x100108"), ("(box) + 5", "5 "), ("box+8", "0 "),
        ("*(r1 + 8) + 4", "4 "), ("*r1 + 4", "4 "), ("r1", "rw 2^3 box "), ("$pc + 8", "1048712 0x100088"), ("1 << 63 >> 63", "-1 "),
        ("00000000100100", "0 "), ("9223372036854775807 + 1", "-9223372036854775808 "),
        ("0x100100", "1048832 0x100100 "), ("9223372036854775807", "9223372036854775807 "), ("0xffffffffffffffff", "-1 "), ("*0x100108", "0 "), ("5", "5 "),
        *((f"'\\{letter}' + 0", f"{number} ") for letter, number in zip("0abtnvfre", (0, 7, 8, 9, 10, 11, 12, 13, 27))),
        (r"'\\' + 0", "92 "), (r"'\'' + 0", "39 "),
    )
    WRONG = (
        ("(1 + 2", "a `)` is missing"), ("1 + 2)", "goes on after `1 + 2`"), ("1 2", "goes on after `1`"), ("1 +", "a value is missing at the end"),
        ("+ & 3", "only a name"), ("5 / 0", "divides by zero"), ("5 % 0", "divides by zero"), ("1 << 64", "0 to 63"), ("r2 = 5", "never changed"),
        ("count+1", "`(count)`"), ("nope + 1", "no label or segment `nope`"), ("r16 + 1", "no register r16"), ("**r1", "no page is at 0x0"),
        ("(1 + 2) ? 3", "`?` cannot stand"), ("box[1]", "not an address"), ("&", "only a name"), ("1" * 101 + " + 1", "not an address"),
    )

    def answers_of(self, *lines, program="examples/counter.asm"):
        ended = mm("debug", program, lines="\n".join(lines) + "\n")
        self.assertEqual((ended.status, ended.err), (0, ""))
        return [said for _, said in answers(ended)]

    def test_values(self):
        for (text, value), said in zip(self.VALUES, self.answers_of(*[f"p {text}" for text, _ in self.VALUES])):
            with self.subTest(text):
                self.assertTrue(f"{said} ".startswith(f"{text} = {value}"), said)

    def test_what_is_wrong(self):
        for (text, why), said in zip(self.WRONG, self.answers_of(*[f"p {text}" for text, _ in self.WRONG])):
            with self.subTest(text):
                self.assertIn(why, said)

    def test_variables_of_c(self):
        lines = ["b overflow.c:10 if i * 2 == 6 && name[i-1] != 0", "c", "p i", "p i + 1", "p -i", "p name[i - 1]", "p name[1] + 1", "p name + 1",
            "p name == 0", "p *(name)", "p i+name[0]*2"]
        said = self.answers_of(*lines, program="examples/c/overflow.asm")
        self.assertEqual(said[2:7], ["i = 3   (int)", "i + 1 = 4   (0x4)", "-i = -3   (0xfffffffffffffffd)", "name[i - 1] = 114 'r'   (char)",
            "name[1] + 1 = 98 'b'   (0x62)"])
        self.assertIn("write `name[1]` for an element", said[7])
        self.assertIn("is not a number, but char[8]", said[8])
        self.assertIn("67 'C'", said[9])
        self.assertIn("= 137 ", said[10])

    def test_forms(self):
        said = self.answers_of("p/x r1", "p/d -1", "p/u -1", "p/o 8", "p/t 5", "p/c 65", "p/c 7", "p/a r1 + 8", "p/z 1", "p/i $pc", "p/q 1", "p/x",
            "display/i $pc", "display/x r2 * 16", "s", "info display")
        self.assertEqual(said[:9], ["r1 = 0x20c0000000100100", "-1 = -1", "-1 = 18446744073709551615", "8 = 010", "5 = 101", "65 = 65 'A'", "7 = 7",
            "r1 + 8 = 0x100108 <count>", "1 = 0x0000000000000001"])
        self.assertIn("prod  examples/counter.asm:5:  loop: st r1, r2, 0, empty, full", said[9])
        self.assertIn("there is no form /q: /x, ", said[10])
        self.assertIn("missing expression", said[11])
        self.assertIn("\n/i $pc = prod+8  examples/counter.asm:6:  addi r2, r2, 1\n/x r2 * 16 = 0x10", said[14])
        self.assertEqual(said[15], "  1  /i $pc\n  2  /x r2 * 16")

    def test_forms_of_variables_of_c(self):
        """In each form the value that `print` gives, in as many bits as the variable has."""
        lines = ["b f+8", "c"]
        lines += ["p count", "p/d count", "p/x count", "p/u count", "p/z count", "p/a count", "p/d box.cents", "p/x (box.kind)", "p/c box.kind",
            "p/o box.bits", "p/t box.bits", "p/d i", "p/x i", "p/d k", "p/x wide", "p/x row[1]", "p/x box", "p/d count + 0", "display/d count",
            'printf "%d %x %u %d %c %lx\\n", count, box.kind, box.letter, i, 72, wide', "p/d &count"]
        with folder() as room:
            said = self.answers_of(*lines, program=write(room, "c.asm", OF_C))[2:]
        self.assertEqual(said[:15], ["count = -3   (int)", "count = -3", "count = 0xfffffffd", "count = 4294967293", "count = 0xfffffffd", "count = 0xfffffffd",
            "box.cents = -8", "(box.kind) = 0xfe", "box.kind = -2", "box.bits = 05", "box.bits = 101", "i = -5", "i = 0xfffffffb", "k = 7",
            "wide = 0xffffffffffffffff"])
        self.assertEqual(said[15], "row[1] = 0x2")
        self.assertIn("is not a number, but struct item", said[16])
        self.assertEqual(said[17:20], ["count + 0 = -3", "count = -3", "-3 fffffffe 200 -5 H ffffffffffffffff"])
        self.assertRegex(said[20], r"^&count = 10\d{5}$")

    def test_long_expressions(self):
        """In a time that grows with their length, and without a fault of `mm`."""
        began = time.process_time()
        said = self.answers_of(f"p 1{'+1' * 20_000}", f"p {'-' * 5_000}1", f"p {'(' * 5_000}", f"p box{'+8' * 10_000}", f"p {'a.' * 20_000}b", "p 1 + 1")
        self.assertLess(time.process_time() - began, 5)
        self.assertEqual(said[-1], "1 + 1 = 2   (0x2)")
        self.assertEqual(said[1], "this is nested too deep")

    def test_conditions_of_several_parts(self):
        said = self.answers_of("b loop if r3 == 1 && (r2 > 5 || r2 == 2)", "c", "p r2", "b loop if r3 + 1", "b loop if nope == 1 || r1 == 2",
            "b loop if r2 == 1 && nope == 1")
        self.assertIn("if r3 == 1 && (r2 > 5 || r2 == 2)", said[0])
        self.assertEqual(said[2], "r2 = 2   (0x2)")
        self.assertIn("compares nothing", said[3])
        self.assertIn("`nope`", said[4])
        self.assertIn("`nope`", said[5])


# Labels that have names of registers: of code, of data, and one of a number that no register has.
LABELS = """.segment a 6
  ldi r3, -77
r2: nop
r3: nop
  halt
.segment d 4
r4: .int 7
r16: .int 8
.thread 0 0 none xu a
.reg 1 ptr rw d
"""


@needs_program
class Labels(unittest.TestCase):
    """A register comes before a label of its name, but where a place of the code is meant."""

    def answers_of(self, *lines):
        with folder() as room:
            ended = mm("debug", write(room, "l.asm", LABELS), lines="\n".join(lines) + "\n")
        self.assertEqual((ended.status, ended.err), (0, ""))
        return [said for _, said in answers(ended)]

    def test_values(self):
        said = self.answers_of("step", "p r3", "p $r3", "p &r3", "p *&r4", "p r4", "p r3 + 1", "p r16", "p/x r3", "x r4", "x &r4", "p r1", "p r17")
        self.assertEqual(said[1], "r3 = -77   (0xffffffffffffffb3)\n`r3` is the register; the label of this name is `&r3`, and its word `*&r3`")
        self.assertEqual(said[2], "$r3 = -77   (0xffffffffffffffb3)")
        self.assertEqual(said[3], "&r3 = 1048592 0x100010")
        self.assertEqual(said[4], "*&r4 = 7   (0x7)")
        self.assertEqual(said[5].splitlines()[0], "r4 = 0   (0x0)")
        self.assertEqual(said[6], "r3 + 1 = -76   (0xffffffffffffffb4)")
        self.assertEqual(said[7], "r16 = 8   (0x8)")
        self.assertIn("r3 = 0xffffffffffffffb3\n`r3` is the register", said[8])
        self.assertEqual(said[9], "r4 is not a pointer: it is 0; the label is `&r4`")
        self.assertIn("7", said[10])
        self.assertNotIn("is the register", said[11])
        self.assertIn("there is no register r17", said[12])

    def test_places_and_conditions(self):
        said = self.answers_of("b r3 if r3 == -77", "c", "b r2", "run", "watch &r4", "watch r4")
        self.assertIn("1: break at r3 if r3 == -77, ", said[0])
        self.assertIn("break 1: r3\n", said[1])
        self.assertIn("slot 0 is at r3", said[1])
        self.assertIn("break 2: r2\n", said[3])
        self.assertIn("watch &r4, now 7", said[4])
        self.assertIn("the label is `&r4`", said[5])


@needs_program
class Commands(unittest.TestCase):
    """Lines that are carried out after a stop."""

    def out(self, *lines):
        ended = mm("debug", "examples/counter.asm", lines="\n".join(lines) + "\n")
        self.assertEqual((ended.status, ended.err), (0, ""))
        return ended.out

    def test_silent_lines_that_go_on(self):
        out = self.out("b door", "commands", "silent", 'printf "r2 is %d, %x%%\\n", r2, r2 + 255', "continue", "end", "c")
        self.assertIn(">silent\n", out)
        self.assertIn("1: break door, then 3 lines", out)
        after = out.split("(mm) c\n")[1]
        self.assertRegex(after, r"^r2 is 65, 140%\nr2 is 66, 141%\ncycle 36, the end of the run")
        self.assertNotIn("break 1", after)

    def test_lines_after_a_stop_that_is_shown(self):
        out = self.out("b door", "watch count", "commands 1-2", "p r2", "# a comment", "p nope", "p r3", "end", "c", "c", "info b")
        first, second = out.split("(mm) c\n")[1:3]
        self.assertIn("break 1: door\n", first)
        self.assertIn("r2 = 65 'A'   (0x41)\nthere is no label or segment `nope`", first)
        self.assertNotIn("r3 =", first)
        self.assertIn("watch 2: count", second)
        self.assertIn("r2 = 65 'A'", second)
        self.assertIn("at door  (met 1 time)\n       p r2\n       p nope\n       p r3\n", out)

    def test_a_line_that_moves_is_the_last(self):
        after = self.out("tb door", "commands", "step", "p r2", "end", "c").split("(mm) c\n")[1]
        self.assertIn("slot 1 did lip r7, gate", after)
        self.assertNotIn("r2 =", after)

    def test_lines_are_taken_away(self):
        out = self.out("b door", "commands", "p r2", "end", "commands 1", "end", "c", "info b")
        self.assertIn("1: break door, and no lines", out)
        self.assertNotIn("r2 =", out.split("(mm) c\n")[1])

    def test_words_that_are_wrong(self):
        out = self.out("commands 9", "end", "silent", "d 0", "commands", "b door", "commands", "p 1", "commands", "p 2", "info b")
        self.assertIn("there is no break or watch 9", out)
        self.assertIn("`end` stands only in the lines that follow `commands`", out)
        self.assertIn("`silent` stands only", out)
        self.assertIn("there is no break or watch that lines could be carried out at", out)
        self.assertIn("nothing is changed\n(mm) p 2\n2 = 2 ", out)
        self.assertNotIn("       p 1", out)

    def test_lines_that_would_begin_again(self):
        for word in ("run", "r"):
            out = self.out("tb door", "commands", "p r2", word, "end", "c", "info b")
            self.assertIn("no `run` among them", out)
            self.assertNotIn("r2 =", out)
            self.assertIn("break 1: door", out)

    def test_an_end_that_is_missing(self):
        self.assertIn("1: break door, then 1 line", self.out("b door", "commands", "p r2"))

    def test_texts(self):
        out = self.out("echo one # two\\n", "echo a\\nb", 'printf "%05d|%5d|%c|%lx|%o\\n", 42, -7, 65, 255, 8', 'printf "%s", r1', 'printf "%d"',
            "printf r1", 'printf "%d", nope', "echo \\033[2J")
        self.assertIn("\none # two\n", out)
        self.assertIn("\na\nb\n", out)
        self.assertIn("\n00042|   -7|A|ff|10\n", out)
        self.assertIn("values are written by %d", out)
        self.assertIn("the text wants 1 value, and there are 0", out)
        self.assertIn("a text in quotes comes first", out)
        self.assertIn("no label or segment `nope`", out)
        self.assertNotIn("\033", out)

    def test_an_interrupt_ends_the_lines(self):
        stopped = []

        def stop(debugger, halt):
            if halt.point:
                debugger.todo = ["p r2"]
                stopped.append(halt.point)
                raise KeyboardInterrupt
            return iter(["here"])

        with mock.patch.object(Debugger, "stop", stop):
            out = self.out("b door", "c", "p r3")
        self.assertEqual(len(stopped), 1)
        self.assertNotIn("r2 =", out)
        self.assertIn("r3 =", out)

    def test_ranges(self):
        out = self.out("b door", "b loop", "w count", "d 1-2", "info b", "d 5-9", "disable 3-3")
        self.assertIn("1 is gone\n2 is gone", out)
        self.assertIn("there is no break or watch 5-9", out)
        self.assertIn("3: watch count (disabled)", out)


if __name__ == "__main__":
    unittest.main()
