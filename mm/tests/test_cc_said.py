"""What is said of programs in C: what a sanitizer finds, what a program puts out, and the functions that were called."""

import unittest

from mm.log.past import Lost as Found, cut_out, lost
from mm.machine.isa import OPERATIONS, Instruction
from mm.machine.words import Permission, Pointer, Word
from mm.tests.cc_said_sources import LOST, NESTED, SANITIZED
from mm.tests.support import folder, mm, needs_program, write
from mm.tests.test_cc_clang import needs_clang
from mm.views.ctraps import FOUND, trap_said


class Traps(unittest.TestCase):
    def test_numbers_of_traps(self):
        self.assertEqual((trap_said(6), trap_said(10), trap_said(63), trap_said(256)), ("`abort`", None, None, None))
        self.assertEqual(trap_said(64 + 18), "what C does not define: an index outside of its array")
        self.assertEqual(trap_said(64 + 99), "what C does not define (check 99 of Clang)")
        self.assertEqual(len(set(FOUND.values())), len(FOUND) - 2)


class Lost(unittest.TestCase):
    POINTER = Pointer(Permission.RW, 5, 0x140)

    def found(self, *turns, first="t 0 0 did fetch 00000000000000"):
        """What is found in a log: of each turn its slot, its operation with the operands, and what it changed."""
        lines, code = [first], {}
        for at, (slot, text, *changes) in enumerate(turns, 1):
            name, *values = text.replace(",", " ").split()
            code[8 * at] = Instruction(OPERATIONS[name], tuple(map(int, values)))
            access = {"ld": " load 00000000000200", "st": " store 00000000000200"}.get(name, "")
            lines += [f"t {slot} {at} did fetch {8 * at:014x}{access}", *changes]
        log = "\n".join(["cut", *lines, "cycles 9", "cell 00000000000200 i0 full", ""]).encode()
        return lost(log, code.get, 0, 3)

    def test_turns_that_hand_a_number_on(self):
        pointer, number = Word(self.POINTER.bits, True), Word(self.POINTER.bits | 1)
        begin = (0, "lip 1, 5", f"r 0 1 {pointer}")
        marks = (1, "or 2, 1, 4", f"r 1 2 {number}")
        theirs = (1, "mov 1, 1", f"r 1 1 {pointer}")
        through = ((1, "st 5, 2, 0, 0, 0", f"cell 00000000000200 {number} full"), (1, "ld 6, 5, 0, 0, 1", f"cell 00000000000200 {number} empty"),
                   (0, "ld 7, 5, 0, 0, 0", f"r 0 7 {number}"), (0, "mov 3, 7", f"r 0 3 {number}"))
        self.assertEqual(self.found(theirs, marks, *through), Found(16, self.POINTER, number.bits))
        self.assertEqual(self.found(begin, (0, "add 3, 1, 2", f"r 0 3 {number}")), Found(16, self.POINTER, number.bits))
        again = (0, "and 3, 7, 4", f"r 0 3 {pointer}".replace("p", "i"))
        self.assertEqual(self.found(theirs, marks, *through[:3], again), Found(16, self.POINTER, number.bits))
        other = (0, "mov 3, 7", f"r 0 3 {Word(number.bits + 2)}")
        for turns in (through, (begin,), (theirs, marks, *through[:3], other), (*through[:3], (0, "mov 3, 7", f"r 0 3 {Word(number.bits + 2)}")), ((0, "ldi 3, 5", f"r 0 3 {number}"),)):
            self.assertIsNone(self.found(*turns), turns)

    def test_pieces(self):
        whole = Word(self.POINTER.bits)
        low, high = Word(whole.bits & 0xFFFFFFFF), Word(whole.bits >> 60 << 60)
        known = ((0, "ldi 1, 1", f"r 0 1 {low}"), (0, "shl 2, 4, 5", f"r 0 2 {high}"))
        self.assertEqual(self.found(*known, (0, "or 3, 1, 2", f"r 0 3 {whole}")), Found(24, None, whole.bits))

    def test_when_a_segment_was_cut_out(self):
        block = Word(Pointer(Permission.RW, 4, 0x140).bits, True)
        code = {8: "subseg", 16: "mov", 24: "st"}
        turns = ["t 1 1 did fetch 00000000000008", f"r 1 2 {block}", "t 0 1 did fetch 00000000000008", f"r 0 2 {Word(self.POINTER.bits, True)}",
                 "t 1 2 did fetch 00000000000010", f"r 1 3 {block}", "m 1 4", "r 1 4 i0", "t 0 2 did fetch 00000000000018", "ip 0 p0"]
        log = "\n".join(["cut", *turns, "cycles 9", ""]).encode()
        made = lambda place: Instruction(OPERATIONS[code[place]], (0,) * len(OPERATIONS[code[place]].operands))  # noqa: E731
        self.assertEqual(cut_out(log, made, Pointer(Permission.RO, 4, 0x148)), (1, 4))
        self.assertEqual(cut_out(log, made, self.POINTER), (0, 3))
        self.assertIsNone(cut_out(log, made, Pointer(Permission.RW, 4, 0x150)))

    def test_a_line_that_is_cut(self):
        number = Word(self.POINTER.bits)
        self.assertIsNone(self.found(first=f"r 0 3 {number}"))
        log = f"r 0 3 {number}\nt 0 1 did fetch 00000000000008\ncycles 1\n".encode()
        self.assertIsNone(lost(log, lambda place: Instruction(OPERATIONS["add"], (3, 1, 2)), 0, 3))
        self.assertIsNone(lost(b"", lambda place: None, 0, 3))


@needs_clang
@needs_program
class Programs(unittest.TestCase):
    def ran(self, text: str, *words: str):
        with folder() as room:
            return mm("run", *words, write(room, "a.c", text)), room

    def test_what_a_sanitizer_finds(self):
        for title, (line, wanted, text) in SANITIZED.items():
            for level in "012":
                ended, room = self.ran(text, f"-O{level}", "--clang", "-fsanitize=undefined")
                said = f"by fault 11 Trap at {room}/a.c:{line}: what C does not define: {wanted}  ("
                self.assertIn(said, ended.out, f"{title} at -O{level}: {ended.err}")
                self.assertEqual(ended.err, "")

    def test_what_a_sanitizer_leaves_alone(self):
        text = SANITIZED["a sum"][2]
        ended, _ = self.ran(text, "--clang", "-fsanitize=bounds")
        self.assertIn('output "-2147483648"', ended.out)
        ended, _ = self.ran(text, "--clang", "-fsanitize=undefined", "--clang", "-fwrapv")
        self.assertIn('output "-2147483648"', ended.out)

    def test_an_operation_that_no_line_made(self):
        with folder() as room:
            path = write(room, "a.asm", ".segment text 6\nmain:\n  ;@ function main at a.c:4\n  ;@ frame back - caller by 0\n  ldi r0, 5\n"
                         "  ld r1, r0, 0, any, keep\n  halt\n.segment stack 6\n.thread 0 0 none xu main\n.reg 15 ptr rw stack+0\n")
            self.assertIn("by fault 1 NotPointer at a.c:4: a null pointer, and 5 bytes on", mm("run", path).out)

    def test_plain_output(self):
        text = '#include <stdio.h>\nint a[2];\nint main(int n, char **v) {\n  printf("one \\"two\\"\\n\\x1b[1m\\xe9\\n");\n  a[n + 1] = 3; return 5; }\n'
        ended, room = self.ran(text, "--plain")
        self.assertEqual((ended.status, ended.data), (0, b'one "two"\n\x1b[1m\xe9\n'))
        self.assertRegex(ended.err, rf"mm: slot 0 stopped at \S+ by fault 3 Bounds at {room}/a.c:5: a\[2\] of int\[2\], 8 bytes\n")
        self.assertIn(f"    {room}/a.c:5: a[n + 1] = 3; return 5; }}\n", ended.err)
        ended, _ = self.ran(text.replace("a[n + 1] = 3;", ""), "--plain")
        self.assertEqual((ended.status, ended.data, ended.err), (0, b'one "two"\n\x1b[1m\xe9\n', ""))

    def test_plain_output_of_several_groups(self):
        texts = {"a.c": '#include <stdio.h>\nint main(void) { for (int i = 0; i < 9; i++) putchar(97 + i); return 0; }\n',
                 "b.c": '#include <stdio.h>\nint main(void) { for (;;) putchar(65); }\n'}
        with folder() as room:
            ended = mm("run", "--plain", "--cycles", "3000", *[write(room, name, text) for name, text in texts.items()])
        self.assertRegex(ended.data, rb"\AabcdefghiA+\Z")
        self.assertRegex(ended.err, r"\Amm: slot 1 running at ")

    def test_functions_that_were_called(self):
        with folder() as room:
            path = write(room, "a.c", NESTED)
            lines = ["continue", "where", "frame", "print n", "up", "frame", "info locals", "print n", "print v[1]", "list", "up",
                     "print v[1]", "print v[2]", "up", "down 2", "print n", "down", "frame 1", "print n", "frame 9", "back", "frame"]
            said = mm("debug", "-O0", path, lines="\n".join(lines) + "\n").out.split("(mm) ")[1:]
            inner = mm("debug", "-O1", path, lines="frame\nup\nbreak 3\ncontinue\nup\nprint v[1]\nprint n\n").out.split("(mm) ")[1:]
        places = [f"  #{number}  {name}  {path}:{line}: " for number, (name, line) in enumerate((("leaf", 3), ("middle", 7), ("main", 11)))]
        answers = dict(enumerate(part.partition("\n")[2] for part in said))
        for place in places:
            self.assertIn(place, answers[1])
        self.assertTrue(answers[2].startswith(places[0]), answers[2])
        self.assertEqual(answers[3], "n = 9   (int)\n")
        self.assertTrue(answers[4].startswith(places[1]) and answers[5].startswith(places[1]), answers[4] + answers[5])
        self.assertIn("  n = 4\n", answers[6])
        self.assertIn("  v = {40 '(', 41 ')', 42 '*'}\n", answers[6])
        self.assertEqual((answers[7], answers[8]), ("n = 4   (int)\n", "v[1] = 41 ')'   (long)\n"))
        self.assertIn("=>    7      return leaf(v, n + 5)", answers[9])
        self.assertEqual((answers[11], answers[12]), ("v[1] = 71 'G'   (long)\n", "v[2] = 72 'H'   (long)\n"))
        self.assertEqual(answers[13], "there is no call 3: `where` lists them, 0 to 2\n")
        self.assertTrue(answers[14].startswith(places[0]), answers[14])
        self.assertEqual((answers[15], answers[16]), ("n = 9   (int)\n", "this is the innermost function\n"))
        self.assertEqual(answers[18], "n = 4   (int)\n")
        self.assertEqual(answers[19], "there is no call 9: `where` lists them, 0 to 2\n")
        self.assertTrue(answers[21].startswith("  #0  "), answers[21])
        self.assertEqual([part.partition("\n")[2] for part in inner[:2]], ["no function of C is being carried out here\n"] * 2)
        self.assertIn(places[1], inner[4])
        self.assertIn("v[1] = 41 ')'   (long)\n", inner[5])

    def test_where_a_pointer_became_a_number(self):
        for title, (wanted, text) in LOST.items():
            for level in "012":
                ended, room = self.ran(text, f"-O{level}")
                said = f"which is now a number: {wanted.format(room=room)}  ("
                self.assertIn(said, ended.out, f"{title} at -O{level}: {ended.err}")
        with folder() as room:
            wanted, text = LOST["a mark"]
            said = mm("debug", write(room, "a.c", text), lines="continue\nwhere\n").out
        self.assertEqual(said.count(f"which is now a number: {wanted.format(room=room)}"), 3, said)

    def test_where_a_block_was_handed_out(self):
        text = ("#include <stdlib.h>\n#include <string.h>\nstatic __attribute__((noinline)) char *room(long n)\n{ char *none = malloc(n);\n"
                "  free(none); return calloc(n, 1);\n}\nint main(void) { char *volatile other = room(40), *volatile name = room(24), *volatile third = strdup(\"third\");\n"
                "  char *volatile text = \"twenty-four letters here\"; strcpy(name, text); return *third + *other; }\n")
        for words in (("-O0",), ("-O1",), ("-O2", "--quarantine", "100")):
            ended, room = self.ran(text, *words)
            said = f"at {room}/a.c:8, in strcpy: byte 24 of a block of malloc, which has 24 bytes from there on, handed out at {room}/a.c:5  ("
            self.assertIn(said, ended.out, f"{words}: {ended.err}")
            ended, room = self.ran(text, *words, "--turns", "0*100000")
            self.assertIn("which has 24 bytes from there on  (", ended.out, f"{words}: {ended.err}")

    def test_plain_and_json(self):
        ended = mm("run", "--plain", "--json", "examples/hello.asm")
        self.assertEqual((ended.status, ended.err), (1, "mm: --plain and --json exclude each other\n"))


if __name__ == "__main__":
    unittest.main()
