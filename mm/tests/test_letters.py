"""Letters and texts in sources: what they become, and where a fault near them is told."""

import re
import unittest

from mm.source.letters import letters_of, plain, without_letters
from mm.source.text import read_source
from mm.tests.support import folder, mm, needs_program, read, write

PROGRAM = """\
.segment main 6
again: ld r2, r1, 0, any, keep
  bz r2, end
  out r2
  leai r1, r1, 8
  br again
end: ldi r1, '!' ; not ';'
  halt
.segment text 6
here: .asciiz "a;\\x42\\n"
  .ascii "c" ; "d"
.thread 0 0 none xu main
.reg 1 ptr ro here
.reg 3 int '\\''
"""


class Letters(unittest.TestCase):
    def test_letters_become_numbers_in_the_same_columns(self):
        for line, made in (
            ("  ldi r1, 'A'", "  ldi r1, 65 "), ("  ldi r1, '~'", "  ldi r1, 126"),
            (".reg 1 int '\\n' ; 'x'", ".reg 1 int 10   ; 'x'"), ("  ldi r1, ';' ; it's", "  ldi r1, 59  ; it's"),
            ("  ldi r1, '\\x0a'", "  ldi r1, 10    "), ("  ldi r1, '\\\\'", "  ldi r1, 92  "),
            ("  ldi r1, 'AB'", "  ldi r1, 'AB'"), ("  ldi r1, ''", "  ldi r1, ''"),
            ("  nop ; don't", "  nop ; don't"), ("  ldi r1, '\\q'", "  ldi r1, '\\q'"),
        ):  # fmt: skip
            self.assertEqual(without_letters(line), made)
            if made != line:
                self.assertEqual(len(made), len(line))

    def test_texts_become_words(self):
        for line, words in (
            ('.ascii "Hi"', [72, 105]), ('.asciiz "Hi"', [72, 105, 0]), ('x: .asciiz ""', [0]), ('.ascii ""', []),
            ('.ascii "\\"\\\\\\x00;" ; "', [34, 92, 0, 59]), ('.ascii Hi', None), ('.ascii "Hi', None),
            ('.ascii "Hi" x', None), ('.asciizz "Hi"', None), ('.ascii "\\q"', None), ('; .ascii "Hi"', None),
        ):  # fmt: skip
            self.assertEqual(letters_of(line), words, line)

    def test_a_source_without_them_stays(self):
        for data in (b"", b"halt", b".segment a 3\n halt\n", read("examples", "counter.asm").encode()):
            self.assertIs(plain(data).data, data)
        data = b"; it's\r\n.segment a 3\r\n  halt ; 'x'\r\n"
        self.assertEqual(plain(data).data, data)

    def test_lines_are_known(self):
        made = plain(PROGRAM.encode())
        self.assertEqual(made.data.count(b"\n"), PROGRAM.count("\n") + 4)
        self.assertEqual([made.line(number) for number in (1, 10, 11, 14, 15, 16)], [1, 10, 10, 10, 11, 12])
        source = read_source("a.asm", PROGRAM.encode())
        self.assertEqual([(segment.name, segment.words) for segment in source.segments], [("main", 7), ("text", 6)])
        self.assertEqual(source.labels["here"].place, 0)

    @needs_program
    def test_a_program_with_them_runs_and_its_lines_are_shown(self):
        with folder() as room:
            path = write(room, "a.asm", PROGRAM)
            ended = mm("run", path)
            self.assertEqual((ended.status, ended.err), (0, ""))
            self.assertIn('output "a;B\\n"', ended.out)
            self.assertIn("r1   33 '!'", ended.out)
            self.assertIn("r3   39 '''", ended.out)
            self.assertIn("text", mm("symbols", path).out)
            self.assertEqual(mm("asm", path, "-o", room + "/a.obj").status, 0)
            self.assertIn('output "a;B\\n"', mm("run", room + "/a.obj").out)

    @needs_program
    def test_a_fault_after_them_is_told_at_its_line(self):
        for old, new, place, text in (
            ("  halt\n", "  hallt\n", "8:3", "  hallt"),
            (".reg 1 ptr ro here", ".reg 1 ptr ro there", "", ""),
            (".reg 3 int '\\''", ".reg 3 int 'x", "14:12", ".reg 3 int 'x"),
            (".segment text 6", ".segment text 5", "10:7", 'here: .asciiz "a;\\x42\\n"'),
            ("end: ldi", "here: ldi", "10:1", 'here: .asciiz "a;\\x42\\n"'),
            ('  .ascii "c" ; "d"', '  .ascii "c\n  halt 1', "11:3", '  .ascii "c'),
        ):
            with self.subTest(new), folder() as room:
                path = write(room, "a.asm", PROGRAM.replace(old, new))
                ended = mm("run", path)
                self.assertEqual((ended.status, ended.out), (2, ""))
                if place:
                    self.assertIn(f"{path}:{place}: error: ", ended.err)
                    self.assertIn(f"| {text}\n", ended.err)

    @needs_program
    def test_the_library_prints(self):
        for name, output in (("name", "Ada Lovelace\\n"), ("sum", "The sum is -42\\n")):
            ended = mm("run", f"examples/text/{name}.asm", "examples/text/print.asm")
            self.assertIn(f'output "{output}"', ended.out, ended.err)
        with folder() as room:
            for number in (0, 7, 10, 99, 100, -1, 1 << 62, -(1 << 63), 10**18, -(10**18)):
                text = read("examples", "text", "sum.asm").replace(".int -50", f".int {number}")
                text = re.sub(r"\.int [134]\n", ".int 0\n", text)
                ended = mm("run", write(room, "sum.asm", text), "examples/text/print.asm")
                self.assertIn(f'output "The sum is {number}\\n"', ended.out)
