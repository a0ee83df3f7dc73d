"""The exercises of the course: each official answer and each other right one gets all points, and no fake does."""

import glob
import os
import unittest

from mm.grading.sheet import read_sheet
from mm.machine.program import CHECKOUT
from mm.tests.support import folder, mm, needs_program, read, write

COURSE = os.path.join(CHECKOUT, "docs", "course")
# Right answers that are not the official ones: other registers, names and ways. The name of each begins with its exercise.
RIGHT = sorted(glob.glob(os.path.join(CHECKOUT, "mm", "tests", "right", "*.asm")))
SHEETS = sorted(os.path.basename(path)[:-4] for path in glob.glob(os.path.join(COURSE, "grade", "*.txt")))
EXERCISES = 27
# What a review wrote without solving anything, by the names of today.
REVIEWED = "lab2-unrolled lab3-constant lab4-jump lab5-constant lab5-owner taken-constant doors-constant ticket-empty"
REVIEWED += " calls-constant round-before pairs-without"
# Programs that know the results of some inputs.
TABLES = {"lab-3": "lab3-table", "lab-5": "lab5-table", "2.1": "fields-two", "6.1": "calls-order", "8.2": "told-flag"}
# Exercises that give no source to begin with.
WITHOUT_START = ("lab-3",)


@needs_program
class Sheets(unittest.TestCase):
    def test_each_sheet_is_passed_by_its_answer_and_by_no_fake(self):
        self.assertEqual(len(SHEETS), EXERCISES)
        for name in SHEETS:
            with self.subTest(name):
                ended = mm("grade", name, "--check")
                self.assertEqual((ended.status, ended.err), (0, ""), ended.out)
                self.assertIn("  yes  answer ", ended.out)
                self.assertGreaterEqual(ended.out.count("  yes  fake "), 2)
                self.assertEqual("  yes  from " in ended.out, name not in WITHOUT_START)

    def test_each_sheet_is_tried_with_an_answer_of_the_page(self):
        answers = {os.path.basename(path) for path in glob.glob(os.path.join(COURSE, "answers", "*.asm"))}
        tried = {os.path.basename(path) for name in SHEETS for path in self.sheet(name).answers}
        self.assertEqual(tried, answers)

    def test_each_fake_is_tried(self):
        fakes = {os.path.basename(path) for path in glob.glob(os.path.join(COURSE, "fakes", "*.asm"))}
        tried = {os.path.basename(path) for name in SHEETS for path in self.sheet(name).fakes if "/fakes/" in path}
        self.assertEqual(tried, fakes)
        self.assertLessEqual({f"{name}.asm" for name in REVIEWED.split()}, fakes)

    def test_other_right_answers_get_all_points(self):
        exercises = {os.path.basename(path).rpartition("-")[0] for path in RIGHT}
        self.assertEqual(exercises, set(SHEETS))
        for path in RIGHT:
            name = os.path.basename(path).rpartition("-")[0]
            with self.subTest(path):
                ended = mm("grade", name, path)
                self.assertEqual((ended.status, ended.err), (0, ""), ended.out)

    def test_no_table_of_inputs_is_right(self):
        """Whatever is drawn: each answer has all points, and no program that knows some inputs has them."""
        for seed in range(2):
            for name, fakes in TABLES.items():
                with self.subTest(name, seed=seed):
                    answer = self.sheet(name).answers[0]
                    path = os.path.join(COURSE, "grade", answer)
                    self.assertEqual(mm("grade", name, path, "--seed", str(seed)).status, 0)
                    for fake in fakes.split():
                        ended = mm("grade", name, os.path.join(COURSE, "fakes", f"{fake}.asm"), "--seed", str(seed))
                        self.assertEqual(ended.status, 1)
                        self.assertIn(f"`--seed {seed}`", ended.out)

    def test_a_sheet_that_its_own_fake_passes_is_told(self):
        with folder() as room:
            write(room, "a.asm", ".segment a 3\n  halt\n.thread 0 0 none xu a\n")
            sheet = write(room, "sheet.txt", "matches 0 .*\nhalts 0\nanswer a.asm\nfake a.asm\n")
            ended = mm("grade", sheet, "--check")
            self.assertEqual(ended.status, 1)
            self.assertIn("  yes  answer a.asm: 2 of 2\n  no   fake a.asm: 2 of 2\n", ended.out)
            self.assertIn("names no answer", mm("grade", write(room, "none.txt", "says 0\n"), "--check").err)
            self.assertIn("--check takes", mm("grade", sheet, "--check", "examples/hello.asm").err)

    @staticmethod
    def sheet(name: str):
        return read_sheet(name, read("docs", "course", "grade", f"{name}.txt"))
