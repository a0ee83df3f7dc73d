"""`mm grade` with answers of people whom nobody trusts: files that are none, that never end, that want to see the
machine, and a whole class at once."""

import csv
import io
import json
import os
import shutil
import subprocess
import sys
import unittest
from unittest import mock

from mm.grading import worker
from mm.tests.support import folder, mm, needs_program, path_of, read, write

HALTS = ".segment a 3\n  halt\n.thread 0 0 none xu a\n"
needs_clang = unittest.skipUnless(shutil.which("clang"), "there is no Clang")


@needs_program
class Class(unittest.TestCase):
    def setUp(self):
        entered = folder()
        self.room = entered.__enter__()
        self.addCleanup(entered.__exit__, None, None, None)

    def sheet(self, text="says 0 A\nhalts 0\n"):
        return write(self.room, "sheet.txt", "# A letter\n" + text)

    def refused(self, name, why, sheet="1.1", status=2):
        words = [sys.executable, path_of("bin", "mm"), "grade", sheet, name]
        ended = subprocess.run(words, capture_output=True, text=True, check=False, timeout=100)
        self.assertEqual((ended.returncode, ended.stdout), (status, ""), ended.stderr)
        self.assertIn(why, ended.stderr)
        return ended.stderr

    def test_feedback_replaces_no_answer(self):
        students = os.path.join(self.room, "students")
        os.makedirs(os.path.join(students, "bob"))
        write(students, "bob.asm", HALTS)
        write(os.path.join(students, "bob"), "a.asm", HALTS)
        write(students, "eve.txt", "mine")
        for place in (students, os.path.join(students, "told")):
            ended = mm("grade", self.sheet(), students, "--feedback", place)
            self.assertEqual(ended.status, 1, ended.err)
            self.assertIn("is in the folder of the answers", ended.err)
        told = os.path.join(self.room, "told")
        self.assertEqual(mm("grade", self.sheet(), students, "--feedback", told).status, 0)
        self.assertEqual(sorted(os.listdir(told)), ["bob.asm.txt", "bob.txt", "eve.txt"])
        names = [row["answer"] for row in json.loads(mm("grade", self.sheet(), students, "--json").out)["answers"]]
        self.assertEqual(names, ["bob", "bob.asm", "eve"])
        os.remove(os.path.join(told, "eve.txt"))
        os.symlink(os.path.join(students, "eve.txt"), os.path.join(told, "eve.txt"))
        self.assertIn("is a link", mm("grade", self.sheet(), students, "--feedback", told).err)
        with open(os.path.join(students, "eve.txt"), encoding="utf-8") as file:
            self.assertEqual(file.read(), "mine")

    def test_a_name_that_is_no_text(self):
        students = os.path.join(self.room, "odd")
        os.makedirs(students)
        write(students, "\udcff.asm", HALTS)
        form = json.loads(mm("grade", self.sheet(), students, "--json").out.encode("ascii"))
        self.assertEqual([row["answer"] for row in form["answers"]], ["\\xff"])

    def test_words_that_do_not_go_together(self):
        source = write(self.room, "a.asm", HALTS)
        self.assertIn("not both", mm("grade", self.sheet(), source, "--json", "--csv").err)
        self.assertIn("goes with a folder", mm("grade", self.sheet(), source, "--feedback", self.room).err)

    @unittest.skipUnless(hasattr(os, "mkfifo"), "there are no pipes with names")
    def test_a_pipe_a_device_and_a_link_are_no_answers(self):
        """To read one might never end, or lead anywhere."""
        pipe, link = os.path.join(self.room, "answer.asm"), os.path.join(self.room, "link.asm")
        os.mkfifo(pipe)
        os.symlink("/etc/passwd", link)
        for name, why in ((pipe, "this is a pipe or a device"), ("/dev/zero", "this is a pipe or a device"),
                          (link, "this is a link")):
            said = self.refused(name, f"{name}: error: {why}")
            self.assertNotIn("root:", said)
        self.refused(self.room + "/nothing.asm", "cannot be read: No such file", status=3)

    def test_objects_and_images_are_no_answers_where_a_source_is_asked_for(self):
        made = os.path.join(self.room, "a.obj")
        self.assertEqual(mm("asm", "examples/hello.asm", "-o", made).status, 0)
        self.refused(made, "this is an object, but the exercise asks for a source in assembly language")
        self.refused(path_of("examples", "hello.img"), "this is an image, but the exercise asks for")
        self.refused(write(self.room, "a.c", "int main(void) { return 0; }"), "this is a source in C, but the exercise")
        self.assertEqual(mm("grade", self.sheet("takes object\nsays 0 A"), made).status, 0)
        self.assertEqual(mm("grade", self.sheet("takes image asm\nsays 0 A"), "examples/hello.img").status, 0)

    def test_what_takes_too_long_is_ended(self):
        endless = write(self.room, "a.asm", HALTS)
        with mock.patch.object(worker, "CLOCK", 0.01):
            ended = mm("grade", self.sheet(), endless)
        self.assertEqual((ended.status, ended.out), (2, ""))
        self.assertIn("it takes more than 0.01 seconds", ended.err)

    def test_a_fault_of_mm_is_told_as_one(self):
        """With the last line of what the process told, which names no folder."""
        dies = "raise ValueError('not /home/ann/x.py')"
        with mock.patch.object(worker, "START", dies):
            ended = mm("grade", self.sheet(), write(self.room, "a.asm", HALTS))
            students = os.path.join(self.room, "students")
            os.makedirs(os.path.join(students, "ann"))
            write(os.path.join(students, "ann"), "a.asm", HALTS)
            told = mm("grade", self.sheet(), students).out
        said = "it could not be graded, by a fault of `mm` and not of the answer: the process that grades it ended with 1"
        self.assertEqual((ended.status, ended.out, ended.err), (70, "", f"{said}: ValueError: not x.py\n"))
        self.assertIn(f"  ann  refused  {said}: ValueError: not x.py", told)

    def test_a_folder_without_answers(self):
        empty = os.path.join(self.room, "students")
        os.makedirs(empty)
        ended = mm("grade", self.sheet(), empty)
        self.assertEqual((ended.status, ended.out), (1, ""))
        self.assertIn(f"there is nothing to grade in {empty}: put a folder or a file for each student there", ended.err)

    def test_long_words_cost_little(self):
        long = f".segment main 6\n  {'a' * 16_000}\n"
        for text in (long, f"{'x' * 20_000}: nop\n{'y' * 20_000}: nop\n", ".int " * 9_000):
            said = self.refused(write(self.room, "long.asm", text), "long.asm:")
            self.assertLess(len(said), 4_000)

    def test_a_message_has_nothing_of_the_machine(self):
        students = os.path.join(self.room, "students")
        os.makedirs(os.path.join(students, "ann"))
        write(os.path.join(students, "ann"), "a.asm", ".segment a 3\n  hallt\n")
        for words in ((), ("--csv",), ("--json",)):
            out = mm("grade", self.sheet(), students, *words).out
            self.assertIn("a.asm:2:3: error:", out)
            self.assertNotIn(self.room, out)

    def test_a_class(self):
        students = self.room + "/students"
        for name, text in (("ann", read("examples", "hello.asm")), ("ben", HALTS), ("cem", "hallt\n"), ("dora", None)):
            os.makedirs(os.path.join(students, name))
            if text is not None:
                write(os.path.join(students, name), "answer.asm", text)
        os.makedirs(students + "/eve")
        os.symlink("/etc/passwd", students + "/eve/answer.asm")
        os.symlink(students + "/ann", students + "/fay")
        os.mkfifo(students + "/gil.asm")
        write(students, "=hal.asm", HALTS)
        write(students + "/dora", "one.asm", HALTS)
        write(students + "/dora", "two.asm", HALTS)
        out = mm("grade", self.sheet(), students, "--feedback", self.room + "/told").out
        for line in (
            "  ann   2 of 2\n", "  ben   0 of 2  says 0 A; halts 0\n", "  cem   refused  answer.asm:1:1: error: ",
            "  dora  refused  there are 2 files with the suffix .asm: ", "  eve   refused  this is a link: ",
            "  fay   refused  this is a link: ", "  gil   refused  this is a pipe or a device",
            "  =hal  0 of 2", "8 answers: 1 with all points, 2 without, 5 refused\n",
        ):  # fmt: skip
            self.assertIn(line, out)
        self.assertIn("the suffix .asm: hand in one source\n", read(self.room, "told", "dora.txt"))
        self.assertNotIn("file NAME", read(self.room, "told", "dora.txt"))
        told = read(self.room, "told", "ben.txt")
        self.assertTrue(told.startswith("sheet: A letter\n"), told)
        self.assertIn("  no   says 0 A\n       it prints nothing\n", told)
        self.csv_and_json(students)

    def csv_and_json(self, students):
        rows = list(csv.reader(io.StringIO(mm("grade", self.sheet(), students, "--csv").out)))
        self.assertEqual(rows[0], ["answer", "points", "of", "refused", "says 0 A", "halts 0"])
        self.assertEqual({len(row) for row in rows}, {6})
        self.assertIn(["ann", "2", "2", "", "1", "1"], rows)
        self.assertIn("'=hal", [row[0] for row in rows])
        form = json.loads(mm("grade", self.sheet(), students, "--json").out)
        self.assertEqual((form["title"], len(form["answers"])), ("A letter", 8))
        by_name = {answer["answer"]: answer for answer in form["answers"]}
        self.assertEqual(by_name["ann"]["marks"][0], {"asked": "says 0 A", "right": True, "why": None})
        self.assertIn("this is a link", by_name["eve"]["refused"])

    @needs_clang
    def test_c_sees_only_the_answer(self):
        """Whatever way a source in C names a file of the machine, it is not there."""
        secret = write(self.room, "secret.c", "int main(void) { putchar(65); return 0; }\n")
        sheet = self.sheet("takes c\nsays 0 A\n")
        for text in (
            f'#include "{secret}"\n', f'#define X "{secret}"\n#include X\n', f'%:include "{secret}"\n',
            f'#inc\\\nlude "{secret}"\n', '#include "../../../../etc/passwd"\n', '#include_next "/etc/passwd"\n',
            f'#if __has_include("{secret}")\nint main(void) {{ putchar(65); return 0; }}\n#endif\n',
            '#include "/dev/zero"\n', '#include "."\n',
        ):  # fmt: skip
            with self.subTest(text):
                ended = mm("grade", sheet, write(self.room, "a.c", text))
                self.assertEqual((ended.status, ended.out), (2, ""), ended.out)
                self.assertNotIn("root:", ended.err)
                self.assertNotIn("mm-", ended.err)
        good = "#include <stdio.h>\n#include <stdint.h>\nint main(void) { putchar(65); return 0; }\n"
        ended = mm("grade", sheet, write(self.room, "a.c", good))
        self.assertEqual((ended.status, ended.err), (0, ""), ended.out)

    @needs_clang
    def test_an_answer_in_c_is_compared_with_one_in_c(self):
        source = "#include <stdio.h>\nint main(void) {{ putchar({}); return 0; }}\n"
        write(self.room, "right.c", source.format("'A' + 1"))
        sheet = self.sheet("takes c\nlike says 0\nanswer right.c\n")
        self.assertEqual(mm("grade", sheet, write(self.room, "a.c", source.format(66))).status, 0)
        ended = mm("grade", sheet, write(self.room, "a.c", source.format(67)))
        self.assertIn('  no   like says 0\n       it prints "C", and in the answer it prints "B"\n', ended.out)

    @needs_clang
    def test_lines_of_c_that_name_another_file_show_nothing_of_it(self):
        for more, status in (("", 1), ("int nonsense = ;\n", 2)):
            text = '#line 1 "/etc/passwd"\nint main(void) { int a[2]; a[1] = 0; return a[4000]; }\n' + more
            ended = mm("grade", self.sheet("takes c\nsays 0 A\n"), write(self.room, "a.c", text))
            self.assertEqual(ended.status, status)
            self.assertNotIn("root:", ended.out + ended.err)
