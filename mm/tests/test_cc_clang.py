"""C as Clang reads it: programs and what `mm` says of them, with each version of Clang that is there. Left out where there
is none."""

import os
import re
import shutil
import subprocess
import sys
import unittest
from unittest import mock

from mm.cc import cache, clang
from mm.machine.program import CHECKOUT
from mm.tests.cc_sources import GONE, HELD, OUTPUTS, OVER, REFUSED, REVERSED, SAME_NAME, USED
from mm.tests.cc_stopped_sources import IN_LIBRARY, STOPPED
from mm.tests.cprograms import Generator
from mm.tests.cruns import Machine, on_host
from mm.cc.driver import source_of
from mm.cc.failures import ONCE, ONE_MAIN
from mm.cc.options import Options
from mm.machine.program import find_program
from mm.status import Stop
from mm.tests.support import folder, mm, needs_program, write
from mm.tests.test_view import data_of

VERSIONS = [name for name in ("clang", *(f"clang-{number}" for number in clang.VERSIONS)) if shutil.which(name)]
needs_clang = unittest.skipUnless(VERSIONS, "there is no Clang")


@needs_clang
@needs_program
class Programs(unittest.TestCase):
    def ran(self, text: str, level: str, *words: str):
        with folder() as room:
            ended = mm("run", f"-O{level}", *words, write(room, "a.c", text))
            return ended, room

    def test_outputs(self):
        for title, (wanted, text) in OUTPUTS.items():
            for level in "012":
                ended, _ = self.ran(text, level)
                self.assertIn(f'output "{repr(wanted)[1:-1]}"', ended.out, f"{title} at -O{level}: {ended.err}")

    def test_outputs_with_a_second_reckoning_of_each_value(self):
        for number, (title, (wanted, text)) in enumerate(OUTPUTS.items()):
            with folder() as room:
                made = source_of([write(room, "a.c", text)], Options("012"[number % 3], ["-w"], lines=False, checked=True))
                ended, why = Machine(find_program(), room).run(made)
                self.assertEqual((why, ended and ended.output.decode()), ("", wanted), title)

    def test_stopped(self):
        for title, (wanted, level, text) in STOPPED.items():
            ended, room = self.ran(text, level)
            self.assertIn(wanted.format(room=room), ended.out, f"{title}: {ended.err}")

    def test_functions_of_the_library_have_the_line_of_their_call(self):
        for name, use in IN_LIBRARY.items():
            for level in "012":
                ended, room = self.ran(OVER.replace("USED", use), level)
                said = rf"slot 0  stopped at \S+ by fault 3 Bounds at {re.escape(room)}/a.c:6, in \w+: b\[8\] of 8 bytes"
                self.assertRegex(ended.out, said, f"{name} at -O{level}: {ended.err}")

    def test_pointers_to_freed_blocks_are_taken_away(self):
        for title, use in USED.items():
            text = GONE + use + '\n  printf("%ld\\n", seen); return 0; }\n'
            for level in "02":
                ended, _ = self.ran(text, level, "--quarantine", "0")
                self.assertRegex(ended.out, r"by fault 1 NotPointer at \S*( in memcpy)?: its block of malloc was freed  ", f"{title} at -O{level}: {ended.err}")
        text = GONE + 'struct node *volatile end = a + 1; seen = end[-1].v[2]; return seen; }\n'
        ended, _ = self.ran(text, "1", "--quarantine", "0")
        self.assertRegex(ended.out, r"is now a number: it left its block of malloc \(\d+ bytes, handed out at \S+/a.c:\d+\) at \S+/a.c:\d+ \(one past the end is outside\)")
        ended, room = self.ran(STOPPED["a second free"][2], "0", "--quarantine", "0")
        self.assertIn(STOPPED["a second free"][0].format(room=room), ended.out)

    def test_blocks_that_are_held_back(self):
        cleared = OUTPUTS["blocks of malloc are cleared"]
        for amount, level, heap, (wanted, text) in (("0", "0", "12", HELD), ("500", "2", "12", HELD), ("1048576", "1", "12", HELD),
                                                    ("20000", "1", "16", cleared), ("1048576", "0", "16", cleared)):
            ended, _ = self.ran(text, level, "--quarantine", amount, "--heap", heap)
            self.assertIn(f'output "{repr(wanted)[1:-1]}"', ended.out, f"{amount} at -O{level}: {ended.err}")
        ended, _ = self.ran("#include <mm.h>\nlong f(void) MM_DOOR(f);\nlong f(void) { return 1; }\n", "1", "--quarantine", "0")
        self.assertIn("`--quarantine` in a program with doors", ended.err)

    def test_refused(self):
        for title, (wanted, text) in REFUSED.items():
            ended, room = self.ran(text, "0")
            self.assertEqual(ended.status, 2, title)
            for line in wanted:
                self.assertIn(line.format(room=room), ended.err, title)

    def test_a_variable_without_a_value_is_warned_of(self):
        ended, room = self.ran("static void unused(void) { }\nint main(void)\n{\n    int count;\n    return count;\n}\n", "1")
        self.assertIn(f"{room}/a.c:5:12: warning: variable 'count' is uninitialized when used here", ended.err)
        self.assertNotIn("unused", ended.err)
        ended, _ = self.ran("int main(void)\n{\n    int count;\n    return count;\n}\n", "1", "--clang", "-Wno-uninitialized")
        self.assertEqual(ended.err, "")

    def test_a_result_that_must_not_be_thrown_away_is_warned_of(self):
        ended, room = self.ran("#include <stdlib.h>\nint main(void)\n{\n    char *p = malloc(8);\n    realloc(p, 16);\n    return 0;\n}\n", "1")
        self.assertIn(f"{room}/a.c:5:5: warning: ignoring return value of function declared with 'warn_unused_result' attribute", ended.err)

    def test_a_declaration_that_another_file_contradicts(self):
        with folder() as room:
            texts = {"a.c": "long report(const char *title, const int *counts);\nlong plain();\nlong right(char c, ...);\n"
                            "int main(void) { int n = 0;\n    return report(\"n\", &n) + plain(1, 2) + right(3, 4); }\n",
                     "b.c": "long report(int n, const int *counts, const char *title) { return counts[n] + *title; }\n"
                            "long plain(int a, int b) { return a + b; }\nlong right(char c, ...) { return c; }\n"}
            paths = [write(room, name, text) for name, text in texts.items()]
            ended = mm("cc", *paths)
            self.assertEqual((ended.status, ended.err.splitlines()[0]), (0, (
                f"{paths[0]}:5:12: warning: `long report(pointer, pointer)` is used here, and {paths[1]}:1 defines "
                "`long report(int, pointer, pointer)`")))
            self.assertEqual(len(ended.err.splitlines()), 2, ended.err)

    def test_a_variable_that_another_file_declares_otherwise(self):
        with folder() as room:
            texts = {"a.c": "struct p { int x, y; char rest[]; };\nint table[6] = {3}, grid[2][3];\nlong count = 6;\nunion u { int *p; long n; } u = {.n = 1};\n"
                            "struct p p = {1, 2, {'m', 'o'}};\nint end[4];\nchar *name;\n",
                     "b.c": "extern int *table, grid[][3];\nextern int count, end[3];\nextern union u { int *p; long n; } u;\nextern struct p { int x, y; } p;\n"
                            "extern const char *name;\nint main(void)\n{\n    return table[0] + (int)u.n + p.x + grid[1][1] + !name + end[2] +\n        count;\n}\n"}
            paths = [write(room, name, text) for name, text in texts.items()]
            ended = mm("cc", *paths)
            said = [line for line in ended.err.splitlines() if line[:1] != " "]
            self.assertEqual((ended.status, sorted(line.partition("warning: ")[2] for line in said)), (0, [
                f"`int count` is used here, and {paths[0]}:3 defines `long count`", f"`int[3] end` is used here, and {paths[0]}:6 defines `int[4] end`",
                f"`pointer table` is used here, and {paths[0]}:2 defines `int[6] table`"]))
            self.assertTrue(all(line.startswith(f"{paths[1]}:") for line in said), said)

    def test_a_name_that_two_files_define(self):
        with folder() as room:
            texts = {"a.c": "int count;\nint next(void) { return ++count; }\nchar *strdup(const char *s) { return (char *)s; }\n",
                     "b.c": "int next(void);\nint main(void) { return next(); }\n\nint count = 1;\n"}
            paths = [write(room, name, text) for name, text in texts.items()]
            ended = mm("cc", *paths)
            self.assertEqual((ended.status, ended.err.splitlines()), (2, [
                f"{paths[1]}:4: error: `count` is defined here, and {paths[0]}:1 defines it too", f"    {ONCE}"]))
            write(room, "b.c", texts["b.c"].replace("int count = 1", "extern int count"))
            self.assertEqual(mm("cc", *paths).status, 0)
            write(room, "a.c", texts["a.c"] + "int main(int n, char **v) { return n; }\n")
            self.assertEqual(mm("cc", *paths).err.splitlines(), [
                f"{paths[1]}:2: error: `main` is defined here, and {paths[0]}:4 defines it too", f"    {ONE_MAIN}"])

    def test_what_nothing_calls_is_noted(self):
        ended, room = self.ran("double f(double x) { return x; }\nint main(void) { return 0; }\n", "0")
        self.assertEqual(ended.status, 0, ended.err)
        self.assertIn("note: floating point is left out in `f`, which nothing calls", ended.err)

    def test_leaf_functions_have_callers(self):
        with folder() as room:
            path = write(room, "a.c", STOPPED["an element"][2])
            ended = mm("debug", path, lines="continue\nwhere\n")
        self.assertIn(f"#0  leaf  {room}/a.c:3:", ended.out)
        self.assertIn(f"#1  main  {room}/a.c:4:", ended.out)

    def test_pointers_to_string_constants_have_their_place_and_permission(self):
        with folder() as room:
            path = write(room, "a.c", REVERSED)
            ended = mm("debug", path, lines="break 5\ncontinue\ninfo locals\nprint *p\n")
        for line in ('  p = ro 2^4 _str+7 "desserts"', '  q = ro 2^4 _str+14 "s"', '  s = ro 2^4 _str+7 "desserts"',
                     "*p = 100 'd'   (char)"):
            self.assertIn(line, ended.out, ended.err)
        with folder() as room:
            names = data_of(mm("view", write(room, "a.c", REVERSED)).out)["names"]["c"]
        words = {where.split("+")[0] for state in names["states"] for name, where, _ in state if name == "s"}
        self.assertTrue(any(where.startswith("p110000") and where.endswith("7") for where in words), words)

    def test_whose_a_variable_is(self):
        with folder() as room:
            path = write(room, "a.c", SAME_NAME)
            ended = mm("debug", path, lines="break 4\ncontinue\nprint v->number\nprint w[1].kind\ncontinue\nprint v->number\nprint w[1]\n")
        for line in ("v->number = 22   (long)", "w[1].kind = 3   (int, w of main)", "`v` of show has no place here",
                     "w[1] = {kind = 3, number = 333}   (struct value, w of main)"):
            self.assertIn(line, ended.out, ended.err)
        self.assertNotIn("= 11   (long", ended.out)

    def test_random_programs(self):
        for seed in (11, 12):
            with folder() as room:
                path = write(room, "a.c", Generator(seed, 12).program())
                flags = ["-fwrapv", "-w"]
                host = on_host(path, ["-O0", *flags], os.path.join(room, "host"))
                self.assertIsNotNone(host)
                for level, checked in (("0", False), ("1", True), ("2", False)):
                    made = source_of([path], Options(level, flags, stack=17, heap=12, lines=False, checked=checked))
                    self.assertEqual(Machine(find_program(), room).run(made), (host, ""), (seed, level))

    def test_the_same_text_at_each_run(self):
        words = ("import sys; from mm.cc.driver import source_of; from mm.cc.options import Options; "
                 "[print(source_of([sys.argv[1]], Options(level, ['-w'], lines=False))) for level in '012']")
        with folder() as room:
            path = write(room, "a.c", Generator(31, 12).program())
            made = [subprocess.run([sys.executable, "-c", words, path], cwd=CHECKOUT, stdout=subprocess.PIPE, check=True,
                                   env={**os.environ, "PYTHONHASHSEED": seed}).stdout for seed in "123"]
        self.assertEqual(len(set(made)), 1)

    def test_each_version(self):
        for version in VERSIONS:
            with mock.patch.dict(os.environ, {clang.VARIABLE: version}):
                for title in ("pointers from the middle of an array", "alignments", "constructors and destructors"):
                    wanted, text = OUTPUTS[title]
                    ended, _ = self.ran(text, "1")
                    self.assertIn(f'output "{repr(wanted)[1:-1]}"', ended.out, f"{version} {title}: {ended.err}")


@needs_clang
class Read(unittest.TestCase):
    def test_names_that_look_like_options(self):
        for name in ("-o.c", "-DX.c"):
            with folder() as room:
                write(room, name, "int main(void) { return 0; }\n")
                before = os.getcwd()
                os.chdir(room)
                try:
                    self.assertIn("main:", source_of([name], Options()))
                    self.assertEqual(os.listdir(room), [name])
                finally:
                    os.chdir(before)

    def test_paths(self):
        with folder() as room:
            path = write(room, "a.c", "#include <assert.h>\nint main(int n, char **v) { assert(n); return 0; }\n")
            self.assertIn(f";@ line {path}:2", source_of([path], Options("0")))
            before = os.getcwd()
            os.chdir(os.path.dirname(room))
            try:
                near = os.path.join(os.path.basename(room), "a.c")
                self.assertIn(f";@ line {near}:2", source_of([near], Options("0")))
                self.assertIn(f';@ line {path}:2', source_of([path], Options("0")))
            finally:
                os.chdir(before)

    def test_a_file_that_asks_for_too_much(self):
        with folder() as room, mock.patch.object(clang, "MEMORY", 1 << 20):
            with self.assertRaises(Stop) as stop:
                source_of([write(room, "a.c", "int main(void) { return 0; }\n")], Options())
        self.assertEqual(stop.exception.status, 2)


class Kept(unittest.TestCase):
    def test_texts_are_kept_by_what_they_are_made_of(self):
        with folder() as room, mock.patch.dict(os.environ, {cache.VARIABLE: room}):
            made = []
            for key in ([b"a", b"bc"], [b"a", b"bc"], [b"ab", b"c"]):
                cache.text(key, lambda: made.append(1) or "text")
            self.assertEqual(len(made), 2)
            self.assertEqual(len(os.listdir(room)), 2)
            for name in os.listdir(room):
                with open(os.path.join(room, name), "r+b") as file:
                    file.write(b"other")
            self.assertEqual(cache.text([b"a", b"bc"], lambda: "anew"), "anew")
            self.assertEqual(cache.text([b"a", b"bc"], lambda: "again"), "anew")

    def test_nothing_is_kept_where_it_cannot_be(self):
        for place in ("", "/proc/none"):
            with mock.patch.dict(os.environ, {cache.VARIABLE: place}):
                self.assertEqual(cache.text([b"a"], lambda: "made"), "made")

    def test_two_at_once(self):
        words = "from mm.cc import cache; print(len(cache.text([b'k'], lambda: 'x' * 3000000)))"
        with folder() as room:
            two = [subprocess.Popen([sys.executable, "-c", words], cwd=CHECKOUT, stdout=subprocess.PIPE,
                                    env={**os.environ, cache.VARIABLE: room}) for _ in range(4)]
            self.assertEqual([each.communicate()[0] for each in two], [b"3000000\n"] * 4)
            self.assertEqual(len(os.listdir(room)), 1)


if __name__ == "__main__":
    unittest.main()
