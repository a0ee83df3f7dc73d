"""Each usual mistake gets a message that says where it is, what it is, and what to do."""

import unittest

from mm.machine.program import find_program
from mm.messages.others import OPERATION_HINTS
from mm.source.wants import DIRECTIVES, OPERANDS
from mm.tests.mistakes import MISTAKES
from mm.tests.support import folder, mm, needs_program, write

MANY = """\
.segment main 6
  li r1, 5
  ld r2, 8(r1)
loop:
  addi r2, 5
  br lop
  halt
.segment data
  .word 5
  .int 6
.thread 0 0 xu main
.reg 1 ptr data
"""


@needs_program
class Mistakes(unittest.TestCase):
    def test_table(self):
        self.assertGreaterEqual(len(MISTAKES), 30)
        with folder() as room:
            for mistake in MISTAKES:
                path = write(room, "mine.asm", mistake.source)
                ended = mm("run", path)
                place = f"{path}:{mistake.place}: error: " if mistake.place else f"{path}: error: "
                with self.subTest(mistake.source):
                    self.assertEqual(ended.status, 2)
                    self.assertEqual(ended.out, "")
                    first, _, rest = ended.err.partition("\n")
                    self.assertTrue(first.startswith(place), ended.err)
                    self.assertIn(mistake.says, first)
                    self.assertIn("hint: ", rest)
                    self.assertIn(mistake.hint, rest.split("hint: ")[1].split("\n")[0])
                    self.assertEqual(ended.err.count(": error: "), 1, ended.err)

    def test_all_of_a_source(self):
        with folder() as room:
            path = write(room, "mine.asm", MANY)
            ended = mm("run", path)
        places = [line.split(": error")[0][len(path) + 1 :] for line in ended.err.splitlines() if ": error: " in line]
        self.assertEqual(places, ["2:3", "3:10", "5:12", "6:6", "8:14", "9:3", "11:13", "12:12"])
        self.assertEqual(ended.status, 2)

    @needs_program
    def test_numbers_at_the_ends_of_their_ranges(self):
        """What is taken here the program takes, and what is not has its range in the message."""
        frame = ".segment code 3\n halt\n.segment b {}\n.fill {}\n.thread {} {} none xu code\n.spare {}\n"
        for place, (first, last) in enumerate([(3, 20), (0, 131_072), (0, 15), (0, 15), (0, 256)]):
            for number in (first - 1, first, last, last + 1):
                words = [3, 1, 0, 0, 2]
                words[place] = number
                with folder() as room:
                    path = write(room, "p.asm", frame.format(*words))
                    said, ended = mm("asm", path, "-o", f"{path}.obj").err, find_program().run(["asm", path])
                self.assertEqual(f"{first} to {last}" in said, not first <= number <= last, (words, said))
                self.assertTrue("error" in said or not ended.status, (words, said))

    def test_caret_stands_under_the_letter(self):
        with folder() as room:
            path = write(room, "mine.asm", ".segment main 6 ; \u00e4\u00f6\u00fc\n\tldi r1, 5 \u00e4\n")
            lines = mm("asm", path).err.splitlines()
        self.assertEqual(lines[1].index("\u00e4"), lines[2].index("^"))

    def test_errors_are_not_endless(self):
        with folder() as room:
            path = write(room, "mine.asm", ".segment main 20\n" + "  li r1, 5\n" * 110)
            ended = mm("asm", path)
        self.assertEqual(ended.err.count(": error: "), 20)
        self.assertIn("20 errors are shown, and there are more", ended.err)

    def test_a_label_that_is_missing_is_told_among_many_mistakes(self):
        """The program tells of it last, and the first errors by their lines are shown."""
        with folder() as room:
            path = write(room, "mine.asm", ".segment main 8\n  br nowhere\n" + "  li r1, 5\n" * 24)
            err = mm("asm", path).err
        self.assertTrue(err.startswith(f"{path}:2:6: error: `nowhere` is not a label of this segment\n"), err)
        self.assertEqual(err.count(": error: "), 20)
        self.assertIn(f"{path}:21:3: error: ", err)
        self.assertIn("mm: 20 of 25 errors are shown", err)

    def test_a_full_segment_is_told_at_its_word(self):
        with folder() as room:
            source = ".segment main 3\n  nop\nhere: \t foo r1\n  nop r1\n bar\n.thread 0 0 none xu main\n"
            err = mm("asm", write(room, "mine.asm", source)).err
        full = [line.split(": error")[0].split("mine.asm:")[1] for line in err.splitlines() if "is full" in line]
        self.assertEqual(full, ["3:9"])
        self.assertIn("hint: write a greater number: `.segment main 5`", err)
        with folder() as room:
            err = mm("asm", write(room, "mine.asm", ".segment main 3\n nop\n nop\n nop\n")).err
        self.assertIn("hint: it has 3 words in all: write `.segment main 5`", err)


class Hints(unittest.TestCase):
    def test_hints_are_of_other_words(self):
        self.assertFalse(set(OPERATION_HINTS) & set(OPERANDS))
        self.assertTrue(all(name.startswith(".") for name in DIRECTIVES))


@needs_program
class Files(unittest.TestCase):
    def refused(self, status, *words):
        ended = mm(*words)
        self.assertEqual((ended.status, ended.out), (status, ""), ended.err)
        return ended.err

    def test_files_that_are_not_there(self):
        self.assertIn("nofile.asm: error: cannot be read", self.refused(3, "run", "nofile.asm"))
        self.assertIn("there is examples/counter.asm", self.refused(3, "run", "examples/counter.s"))
        self.assertIn(
            "nothing.schedule: error: cannot be read",
            self.refused(3, "run", "examples/counter.asm", "--schedule", "nothing.schedule"),
        )
        err = self.refused(3, "run", "examples")
        self.assertIn("examples: error: cannot be read", err)
        self.assertIn("it is a folder: name a file in it, as examples/answer.asm", err)
        self.assertIn("there is examples/counter.asm", self.refused(3, "run", "examples/conuter.asm"))
        self.assertIn("looked up from the folder", self.refused(3, "run", "nofile.asm"))
        self.assertNotIn("looked up from the folder", self.refused(3, "run", "/nofile.asm"))
        self.assertIn("`--cycles 100`", self.refused(3, "run", "examples/counter.asm", "100"))
        self.assertIn("`--groups 0,1`", self.refused(3, "audit", "examples/counter.asm", "--groups", "0", "1"))
        self.assertIn("nofile.c: error: cannot be read", self.refused(3, "cc", "nofile.c"))

    def test_texts_and_letters(self):
        with folder() as room:
            said = self.refused(2, "run", write(room, "q.asm", ".segment a 5\n .ascii \"abc\n ldi r1 e\u0301 $\n.thread 0 0 none xu a\n"))
        self.assertIn("what stands after `.ascii` is not a text", said)
        self.assertIn("hint: operands have commas between: `ldi r1, e\u0301, $`", said)
        with folder() as room:
            said = self.refused(2, "run", write(room, "q.asm", ".segment a 5\n .asciiz'A'\n.thread 0 0 none xu a\n"))
        self.assertIn("what stands after `.asciiz` is not a text", said)

    def test_hints_that_can_be_written(self):
        with folder() as room:
            said = self.refused(2, "run", write(room, "q.asm", ".segment a 5\n rreg r1, r2\n restrict r1, r2, ro\n.thread 0 0 none xu a\n"))
        self.assertNotIn("`rreg r1, r1, r2`", said)
        self.assertIn("for `ro` first `ldi r5, 1`", said)

    def test_schedules(self):
        for text, hint in (
            ("0*3 x", "an item is a slot's number"),
            ("0, 1", "no commas"),
            ("07", "no leading zero: 7"),
            ("s1", "write only the number of a slot: 1"),
            ("\u0661", "`\u0661` is not an item of a schedule"),
        ):
            err = self.refused(2, "run", "examples/counter.asm", "--turns", text)
            self.assertIn("--turns:1:", err)
            self.assertIn(hint, err)
        program, order = "examples/counter.asm", "examples/counter.schedule"
        self.assertIn(f"`--schedule {order}`", self.refused(1, "run", program, order))
        with folder() as room:
            path = write(room, "my.schedule", "0*3\n1 two\n")
            self.assertIn(f"{path}:2:3: error: `two`", self.refused(2, "run", "examples/counter.asm", "-s", path))

    def test_turns_of_nobody(self):
        for command in ("run", "trace"):
            self.assertIn("no thread: 9, 16", mm(command, "examples/counter.asm", "--turns", "0 16 9 1").err)
            self.assertIn("--turns has no turns", mm(command, "examples/counter.asm", "--turns", "# none").err)
            self.assertEqual(mm(command, "examples/counter.asm", "-s", "examples/counter.schedule").err, "")
        self.assertIn("after `*` stands how many turns", mm("run", "examples/counter.asm", "--turns", "1*0").err)
        self.assertIn("no thread is in group 9", mm("why", "examples/counter.asm", "9", "count", "touch").err)
        self.assertEqual("", mm("why", "examples/counter.asm", "1", "count", "touch").err)
        self.assertIn("no thread is in group 9", mm("audit", "examples/counter.asm", "--groups", "0,9").err)
        self.assertEqual(mm("audit", "examples/counter.asm", "--groups", "0,1").err, "")

    def test_images_and_objects(self):
        with open("examples/hello.img", "rb") as file:
            image = file.read()
        with folder() as room:
            path = write(room, "bad.img", "")
            for data, says in (
                (image[:200], "ends within a field"),
                (image + b"x", "goes on after the last page"),
                (image[:5] + b"\x09" + image[6:], "neither 1 nor 2"),
            ):
                with open(path, "wb") as file:
                    file.write(data)
                self.assertIn(says, self.refused(2, "run", path))
            with open(path, "wb") as file:
                file.write(b"MMO1\0\1\0\1")
            self.assertIn("bad.img: error: the file ends within a field", self.refused(2, "run", path))
            with open(path, "wb") as file:
                file.write(bytes(64))
            self.assertIn("neither an image nor an object nor a source", self.refused(2, "run", path))
            self.assertIn("the file is empty", self.refused(2, "run", write(room, "none.img", "")))
            self.assertIn("neither an image nor an object nor a source", self.refused(2, "run", write(room, "some.obj", "some")))
            path = write(room, "bad.asm", "\0")
            self.assertIn("neither a text nor an image nor an object", self.refused(2, "run", path))
            with open(path, "wb") as file:
                file.write(HEAD_ONE.encode("utf-16"))
            self.assertIn("save it as UTF-8", self.refused(2, "run", path))
            with open(path, "wb") as file:
                file.write(HEAD_ONE.encode("utf-8-sig"))
            self.assertIn("U+FEFF", self.refused(2, "run", path))
            self.assertIn("byte order mark", self.refused(2, "run", path))

    def test_links_of_sources(self):
        with folder() as room:
            one = write(room, "one.asm", HEAD_ONE)
            two = write(room, "two.asm", ".segment data 4\nfirst: .int 1\nsecond: .int 2\n")
            err = self.refused(2, "run", one, two)
            self.assertIn(f"{one}:4:15: error: `second`", err)
            self.assertIn("write `data + 8`", err)
            three = write(room, "three.asm", ".segment data 4\n .int 1\n")
            self.assertIn("two segments have the name `data`", self.refused(2, "run", two, three))
            self.assertIn(f"{two} is given twice", self.refused(2, "run", two, two))

    def test_names_that_are_missing_come_in_the_order_of_lines(self):
        source = ".segment main 5\n  halt\n  .ptr ro early\n  .ptr ro middle\n.thread 0 0 none xu main\n.reg 1 ptr rw late\n"
        with folder() as room:
            one = write(room, "one.asm", source)
            two = write(room, "two.asm", ".segment data 3\n  .ptr ro other\n")
            err = self.refused(2, "run", one, two)
        places = [line.split(": error")[0] for line in err.splitlines() if ": error: " in line]
        self.assertEqual(places, [f"{one}:3:11", f"{one}:4:11", f"{one}:6:15", f"{two}:2:11"])

    def test_of_two_files_that_one_is_named_whose_slot_is_meant(self):
        with folder() as room:
            one = write(room, "one.asm", ".segment one 4\n halt\n.thread 0 0 none xu one\n")
            two = write(room, "two.asm", ".segment two 4\n halt\n.thread 3 1 0 xu two\n")
            for words in (("solo", one, two, "1"), ("extract", one, two, "1")):
                self.assertIn(f"{two}: error: slot 3 has its handler in a group", self.refused(2, *words))
            self.assertIn(f"{two}: error: slot 3 runs by a pointer", self.refused(2, "sweep", one, two, "two"))
            self.assertIn(f"{one}: error: slot 0 runs by a pointer", self.refused(2, "sweep", one, two, "one"))
            self.assertIn(f"{one}, {two}: error: no slot is of one", self.refused(2, "extract", one, two, "9"))

    def test_groups_and_ranges(self):
        self.assertIn("no slot is of one of these groups", self.refused(2, "extract", "examples/hello.asm", "5"))
        self.assertIn(
            "slot 1 runs by a pointer into the range", self.refused(2, "sweep", "examples/letterbox.asm", "reader")
        )
        self.assertIn("do you mean `box`?", self.refused(1, "holders", "examples/letterbox.asm", "bx"))
        self.assertIn("one word, the last: `box,3`", self.refused(1, "holders", "examples/letterbox.asm", "box", "3"))
        self.assertIn("begins at a multiple", self.refused(1, "holders", "examples/letterbox.asm", "box,12"))
        self.assertIn("not a checkpoint", self.refused(2, "continue", "examples/hello.asm", "examples/hello.asm"))

    def test_nets(self):
        with folder() as room:
            links = write(room, "my.links", "0.sent>1.nothing\n")
            events = write(room, "my.events", "0:0*7 +0\n")
            self.assertIn("no.links: error", self.refused(3, "net", "no.links", "no.events", "no.asm"))
            self.assertIn("nothing", self.refused(1, "net", links, events, "examples/ask.asm", "examples/answer.asm"))
            write(room, "my.links", "0.sent>1.got\n")
            write(room, "my.events", "0:0*7 go\n")
            self.assertIn(
                f"{events}:1:7: error: `go` is not an item of events",
                self.refused(2, "net", links, events, "examples/ask.asm", "examples/answer.asm"),
            )
            write(room, "my.links", "0.sent>1.got zero\n")
            self.assertIn(
                f"{links}:1:14: error: `zero` is not an item of links",
                self.refused(2, "net", links, events, "examples/ask.asm", "examples/answer.asm"),
            )

    def test_words(self):
        self.assertIn("do you mean `run`?", self.refused(1, "rum", "examples/hello.asm"))
        self.assertIn(
            "has no option --cycle; do you mean --cycles?", self.refused(1, "run", "examples/hello.asm", "--cycle", "5")
        )
        self.assertIn("not a number of cycles", self.refused(1, "run", "examples/hello.asm", "--cycles", "many"))
        self.assertIn("as `mm run examples/hello.asm`", self.refused(1, "examples/hello.asm"))
        self.assertIn("missing FILE", self.refused(1, "run"))
        self.assertIn("no program of that name", self.refused(127, "--program", "nowhere", "run", "examples/hello.asm"))


HEAD_ONE = ".segment main 6\n  halt\n.thread 0 0 none xu main\n.reg 1 ptr rw second\n"


if __name__ == "__main__":
    unittest.main()
