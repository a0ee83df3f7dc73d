"""Names of C: what a source tells of variables and types, and the debugger and the page of a run by them. No compiler
is needed: the stored sources of the examples are taken."""

import os
import re
import subprocess
import sys
import unittest

from mm.names.clines import CNotes
from mm.names.ctypes import CTypes
from mm.machine.program import CHECKOUT
from mm.tests.support import folder, mm, needs_program, path_of, read, write
from mm.tests.test_cc import MODULE, source
from mm.tests.test_debugger import answers
from mm.tests.test_view import data_of
from mm.view.cdata import leaves

STORED = sorted(name for name in os.listdir(os.path.join(CHECKOUT, "examples", "c")) if name.endswith(".asm"))
TYPES = """type 1 base i4 int
type 2 array 3 1
type 3 struct 24 node value:0:1 next:64:4 flag:128:1:3
type 4 pointer 3
type 5 enum u4 colour red=0 blue=1
type 6 base u8 unsigned long
type 7 array 2 2
type 8 pointer 4""".splitlines()


# What LLVM's text says of a variable, in two ways.
SAID = ("call void @llvm.dbg.value(metadata i32 %a, metadata !8, metadata !DIExpression()), !dbg !9",
        "  #dbg_value(i32 %a, !8, !DIExpression(), !9)")


def notes_of(name):
    return CNotes(read("examples", "c", name).splitlines())


class Notes(unittest.TestCase):
    def test_types(self):
        types = CTypes()
        for line in TYPES:
            types.add(line.split()[1:])
        self.assertEqual([types.title(number) for number in range(9)],
                         ["void", "int", "int[3]", "struct node", "struct node *", "enum colour", "unsigned long",
                          "int[2][3]", "struct node **"])
        self.assertEqual([types.size(number) for number in range(9)], [0, 4, 12, 24, 8, 4, 8, 24, 8])
        self.assertEqual(types.get(3).fields[2].bits, 3)

    def test_leaves_of_types(self):
        types = CTypes()
        for line in [*TYPES, "type 9 struct 8 flags kind:0:5 low:32:6:3 high:35:1:2", "type 10 struct 0 nothing"]:
            types.add(line.split()[1:])
        names = {"0": "red", "1": "blue"}
        self.assertEqual(leaves(9, types), [[".kind", 0, 4, names, 0, 0], [".low", 4, 8, "uint", 0, 3],
                                            [".high", 4, 4, "int", 3, 2]])
        self.assertEqual(leaves(7, types)[-1], ["[1][2]", 20, 4, "int", 0, 0])
        self.assertEqual(leaves(10, types), [])

    def test_both_ways_to_say_where_a_variable_is(self):
        made = [source(MODULE.replace("@SAID@", said)) for said in SAID]
        self.assertEqual(made[0], made[1])
        notes = CNotes(made[0].splitlines())
        function = next(function for function in notes.functions if function.name == "main")
        (first, there), (last, gone) = function.variables
        self.assertEqual((there.name, notes.types.title(there.type), gone.where), ("square", "unsigned int", "-"))
        self.assertRegex(there.where, r"r\d+")
        self.assertEqual(str(notes.line_at(first)), "a.c:5")
        self.assertGreater(last, first)

    def test_variables_come_and_go(self):
        notes = CNotes(["f:", "  ;@ function f at a.c:1", "  ;@ var i 1 r3", "  nop", "  ;@ var i 1 r4",
                        "  ;@ var j 1 7", "  nop", "  ;@ var i 1 -", "  nop", "g:", "  nop"])
        function = notes.function_at(4)
        self.assertEqual(function.name, "f")
        wheres = [[(made.name, made.where) for made in function.variables_at(number)] for number in (2, 4, 7, 9)]
        self.assertEqual(wheres, [[], [("i", "r3")], [("i", "r4"), ("j", "7")], [("j", "7")]])
        self.assertEqual(notes.function_at(11).variables_at(11), [])

    def test_each_object_of_the_examples_ends_where_the_page_says(self):
        """docs/C.md: the first byte after an object is outside of its segment, if its size is a multiple of 8 or it has
        less than 16 bytes; else up to 7 bytes are inside."""
        seen = 0
        for name in STORED:
            notes, text = notes_of(name), read("examples", "c", name)
            logs = dict(re.findall(r"^\.segment (\w+) (\d+)", text, re.M))
            objects = [(made, made.at, int(logs[segment])) for segment, made in notes.globals.items()
                       if not segment.endswith("heap")]
            objects += [(made, made.at % (1 << made.log), made.log) for function in notes.functions
                        for made in function.objects]
            for made, at, log in objects:
                unseen = (1 << log) - at - made.size
                self.assertEqual(unseen, 0 if made.size % 8 == 0 or made.size < 16 else -made.size % 8, (name, made))
                seen += 1
        self.assertGreater(seen, 50)


NAMES_A_FILE = """.segment main 5
;@ function main at NAME:1
;@ line NAME:2
  ldi r1, 65
  out r1
  halt
.thread 0 0 none xu main
"""


@needs_program
class NamedFiles(unittest.TestCase):
    """A comment of a source can name any file: only what stands beside the source, or below the current folder, is read."""

    def listed(self, path, room):
        with open(os.path.join(room, "a.asm"), "w", encoding="utf-8") as file:
            file.write(NAMES_A_FILE.replace("NAME", path))
        words = [sys.executable, path_of("bin", "mm"), "debug", os.path.join(room, "a.asm")]
        ended = subprocess.run(words, input="list\n", capture_output=True, text=True, check=False, timeout=60, cwd=CHECKOUT)
        self.assertEqual((ended.returncode, ended.stderr), (0, ""))
        return ended.stdout

    def test_beside_and_below(self):
        with folder() as room, folder() as other:
            os.mkdir(os.path.join(room, "inner"))
            for place in (room, os.path.join(room, "inner")):
                self.assertIn("=>    2  two", self.listed(write(place, "a.c", "one\ntwo\n"), room))
            self.assertIn("=>    2  ", self.listed("examples/c/say.h", room))
            self.assertNotIn("two", self.listed(write(other, "a.c", "one\ntwo\n"), room))
            os.symlink(os.path.join(other, "a.c"), os.path.join(room, "link.c"))
            self.assertNotIn("two", self.listed(os.path.join(room, "link.c"), room))
            self.assertNotIn("two", self.listed(os.path.join(room, "..", os.path.basename(other), "a.c"), room))
            self.assertNotIn("root", self.listed("/etc/passwd", room))

    @unittest.skipUnless(hasattr(os, "mkfifo"), "there are no pipes with names")
    def test_pipes_devices_and_long_files(self):
        with folder() as room:
            pipe, long = os.path.join(room, "pipe"), os.path.join(room, "long.c")
            os.mkfifo(pipe)
            with open(long, "wb") as file:
                file.write(b"one\ntwo\n")
                file.truncate((1 << 22) + 1)
            for path in (pipe, long, room, "/dev/zero", os.path.join(room, "none")):
                self.assertIn("ldi r1, 65", self.listed(path, room))
            write(room, "p.asm", NAMES_A_FILE.replace("NAME", pipe))
            words = [sys.executable, path_of("bin", "mm"), "view", os.path.join(room, "p.asm")]
            ended = subprocess.run(words, capture_output=True, text=True, check=False, timeout=60, cwd=CHECKOUT)
            self.assertEqual((ended.returncode, ended.stderr), (0, ""))


@needs_program
class Debugged(unittest.TestCase):
    def session(self, lines, *words):
        ended = mm("debug", *words, lines="\n".join(lines) + "\n")
        self.assertEqual((ended.status, ended.err), (0, ""))
        return [said for _, said in answers(ended)]

    def test_overflow_by_names(self):
        said = self.session(["break overflow.c:10", "continue", "print i", "print name", "print name[0]", "where",
                             "list", "delete 1", "continue", "print allowed", "print nothing_like_it"],
                            "examples/c/overflow.asm")
        self.assertIn("overflow.c:10: name[i] = from[i];", said[0])
        self.assertIn("i = 0   (int)", said[2])
        self.assertIn('name = ""   (char[8])', said[3])
        self.assertIn("name[0] = 0   (char)", said[4])
        self.assertIn("#0  read_name  examples/c/overflow.c:10:", said[5])
        self.assertIn("#1  main  examples/c/overflow.c:", said[5])
        self.assertIn("=>   10          name[i] = from[i];", said[6])
        self.assertIn("fault 3 Bounds at examples/c/overflow.c:10: name[8] of 8 bytes", said[8])
        self.assertIn("allowed = 0   (long)", said[9])
        self.assertIn("there is no label or segment `nothing_like_it`", said[10])

    def test_lines_members_and_elements(self):
        said = self.session(["break line", "continue", "print text", "nextline", "nextline", "print length",
                             "break factor", "continue", "stepline", "info locals", "print program[0].operand",
                             "print variables[1]", "print program[0].wrong", "print *variables", "watch length"],
                            "examples/c/calculator.asm")
        self.assertIn('"x: 6 * (3 + 4)"', said[2])
        self.assertIn("calculator.c:", said[3])
        self.assertIn("length = 0   (int)", said[5])
        self.assertIn("factor", said[7])
        self.assertIn("program[0].operand = 0   (long)", said[10])
        self.assertIn("variables[1] = 0   (long)", said[11])
        self.assertIn("has no member `wrong`; it has code, operand", said[12])
        self.assertIn("*variables = 0   (long)", said[13])
        self.assertIn("watch", said[14])

    def test_a_list_from_malloc(self):
        said = self.session(["break words.c:61", "continue", "print chains", "info locals", "print *chains[0]"],
                            "examples/c/words.asm")
        self.assertIn("struct entry *[16]", said[2])

    def test_two_programs(self):
        said = self.session(["delete 0", "break serve", "continue", "print *event", "print event->what", "where",
                             "slot 0", "where"], "examples/c/worker.asm", "examples/c/keeper.asm")
        self.assertIn("keeper.c:19: long slot = MM_SLOT(*event);", said[1])
        self.assertNotIn("the first of", said[1])
        self.assertIn("{what = 9, at = xu 2^11 worker_main+", said[3])
        self.assertIn("event->what = 9   (long)", said[4])
        self.assertIn("#0  serve  examples/c/keeper.c:19:", said[5])
        self.assertIn("#1  main  examples/c/keeper.c:", said[5])
        self.assertIn("#0  main  examples/c/worker.c:13:", said[7])


@needs_program
class Viewed(unittest.TestCase):
    def test_lines_and_variables(self):
        ended = mm("view", "examples/c/overflow.asm")
        data = data_of(ended.out)
        names = data["names"]["c"]
        paths = [source["path"] for source in data["names"]["sources"]]
        self.assertIn("examples/c/overflow.c", paths)
        lines = {(paths[source], line, name) for source, line, name in names["lines"]}
        self.assertIn(("examples/c/overflow.c", 10, "read_name"), lines)
        states = {variable[0] for state in names["states"] for variable in state}
        self.assertIn("i", states)
        self.assertEqual(sorted(place for place, _, _ in names["places"]), [place for place, _, _ in names["places"]])
        reasons = [line for lines in data["why"].values() for line in lines]
        self.assertIn("fault 3 Bounds at examples/c/overflow.c:10: name[8] of 8 bytes", reasons)

    def test_no_c_no_tables(self):
        self.assertIsNone(data_of(mm("view", "examples/hello.asm").out)["names"]["c"])


if __name__ == "__main__":
    unittest.main()
