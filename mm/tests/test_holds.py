"""That `mm` holds: names that are options for others, lines of megabytes, streams that are closed, files that are outputs and inputs,
signals, and a program that is not `mmachine`."""

import io
import json
import os
import shutil
import signal
import subprocess
import sys
import time
import unittest
from unittest import mock

from mm.cc.clang import as_file, text_of
from mm.console import Console
from mm.shown import shown, visible
from mm.status import Status, Stop
from mm.tests.support import folder, mm, needs_program, path_of, write
from mm.views.style import Style
from mm.words import Words

GOOD = ".segment a 5\n ldi r1, 65\n out r1\n halt\n.thread 0 0 none xu a\n"
LONG = {
    "letters": ".segment a 6\n " + "x" * 3_000_000, "blanks": ".segment a 6\n ld" + " " * 3_000_000 + "x",
    "digits": ".segment a 6\n ldi r1, " + "7" * 3_000_000, "commas": ".segment a 6\n " + "ab," * 2_000_000,
    "a label": ".segment a 6\n" + "q" * 3_000_000 + ": halt", "brackets": ".segment a 6\n " + "(" * 20_000,
    "operands": ".segment a 6\n ld r2, " + "a" * 20_000 + "(r1)", "names": ".segment a 6\n halt\n.thread 0 0 none xu " + "w" * 20_000,
}
SHEETS = (
    "says 0 \\x", "says 0 \\u1234", "register 0 r1 5 6", "outcomes 1 2 3", "outcomes", "halts x", "register 0 r99 5",
    "register 0 rr 5", "faults 0 Boundz", "faults 0 NoPage extra", "never", "never mind", "matches 0 (a", "word a+3",
)


def started(*words, **given):
    """`mm` in a process of its own."""
    return subprocess.run([sys.executable, path_of("bin", "mm"), *words], capture_output=True, check=False, **given)


def shell(line, room):
    said = f"mm() {{ '{sys.executable}' '{path_of('bin', 'mm')}' \"$@\"; }}; {line}"
    return subprocess.run(["sh", "-c", said], cwd=room, capture_output=True, check=False)


class Shown(unittest.TestCase):
    def test_control_bytes_are_shown(self):
        self.assertEqual(visible("a\033]0;x\007b\tc\u202ed\x9b"), "a<U+001B>]0;x<U+0007>b\tc<U+202E>d<U+009B>")
        self.assertEqual(visible("a\nb\r\udcff\u00ff"), "a<U+000A>b<U+000D>\\xff\u00ff")
        self.assertEqual(shown("\033[1mx\033[0m"), "<U+001B>[1mx<U+001B>[0m")
        self.assertEqual(shown("\033[1mx\033[0m\033[2J", True), "\033[1mx\033[0m<U+001B>[2J")
        style = Style(True)
        for mark in (style.strong, style.soft, style.good, style.bad, style.warn, style.name):
            self.assertEqual(shown(mark("x"), True), mark("x"))

    def test_output_at_a_terminal_keeps_its_lines(self):
        class Terminal(io.StringIO):
            def isatty(self):
                return True

        console = Console(Words())
        console.out = Terminal()
        console.write_bytes(b"one\ntwo\t\033[2J\n")
        self.assertEqual(console.out.getvalue(), "one\ntwo\t<U+001B>[2J\n")

    @needs_program
    def test_of_a_source_and_a_name(self):
        with folder() as room:
            ended = mm("run", write(room, "p.asm", ".segment a 6\n out r1 \033]0;x\007\n"))
            self.assertIn("out r1 <U+001B>]0;x<U+0007>", ended.err)
            listed = mm("debug", write(room, "q.asm", GOOD.replace("65", "65 ; \033[2J")), lines="list\nquit\n").out
            self.assertIn("; <U+001B>[2J", listed)
            self.assertIn("no<U+000A><U+000D>\\xff.asm: error:", mm("run", os.path.join(room, "no\n\r\udcff.asm")).err)
            self.assertIn("a<U+000A>b\\xff.asm:4: halt", mm("run", write(room, "a\nb\udcff.asm", GOOD)).out)


@needs_program
class LongLines(unittest.TestCase):
    def test_each_is_answered(self):
        """In a second of the processor, and with no line that is as long in the answer."""
        for name, source in LONG.items():
            with self.subTest(name), folder() as room:
                path = write(room, "p.asm", source + "\n")
                before = time.process_time() + os.times().children_user
                ended = mm("run", path)
                spent = time.process_time() + os.times().children_user - before
                self.assertEqual(ended.status, 2)
                self.assertIn("error:", ended.err)
                self.assertLess(spent, 1.5)
                self.assertLess(max(map(len, ended.err.splitlines())), 600)

    def test_a_long_line_is_shown_around_the_place(self):
        with folder() as room:
            err = mm("run", write(room, "p.asm", ".segment a 6\n ldi r1," + " " * 5000 + "r2, r3 ; " + "x" * 5000 + "\n")).err
        lines = err.splitlines()
        self.assertLess(len(lines[1]), 300)
        self.assertEqual(lines[1][lines[2].index("^")], "r")
        self.assertRegex(lines[1], r"^ +2 \| \.\. .*x \.\.$")


class Clang(unittest.TestCase):
    def test_names_that_are_options(self):
        for name in ("-o.c", "@d/x.c", "x.c"):
            self.assertEqual(as_file(name), os.path.join(os.getcwd(), name))
        for name in ("@args.c", "d/@args.c", "/d/@args.c"):
            with self.assertRaises(Stop):
                as_file(name)

    @unittest.skipUnless(shutil.which("clang"), "there is no Clang")
    def test_a_file_of_options_is_not_read(self):
        with folder() as room:
            write(room, "real.txt", "int main(void) { return 0; }\n")
            write(room, "args.c", "-x c real.txt -o owned")
            write(room, "@args.c", "")
            before = os.getcwd()
            os.chdir(room)
            try:
                with self.assertRaises(Stop):
                    text_of("@args.c")
                write(room, "-S.c", "int main(void) { return 0; }\n")
                self.assertIn("define", text_of("-S.c"))
            finally:
                os.chdir(before)
            self.assertNotIn("owned", os.listdir(room))

    @unittest.skipUnless(shutil.which("clang"), "there is no Clang")
    def test_its_time_has_a_limit(self):
        lines = ["#define A0 x x x x x x x x x x"]
        lines += [f"#define A{at + 1} " + f"A{at} " * 10 for at in range(8)]
        with folder() as room, mock.patch("mm.cc.clang.SECONDS", 1):
            with self.assertRaises(Stop) as stopped:
                text_of(write(room, "b.c", "\n".join([*lines, "A8", ""])))
        self.assertIn("Clang was stopped", "\n".join(stopped.exception.lines))


@needs_program
class Grades(unittest.TestCase):
    def test_an_object_has_no_operations_to_look_at(self):
        with folder() as room:
            sheet = write(room, "s.txt", "takes object image\nwithout out\nuses halt\n")
            source = write(room, "p.asm", GOOD)
            made = os.path.join(room, "answer.asm")
            mm("asm", source, "-o", made)
            self.assertIn("0 of 2", mm("grade", sheet, made).out)
            self.assertIn("answer.asm is not a source, so its operations are not known", mm("grade", sheet, made).out)
            mm("link", source, "-o", made)
            self.assertIn("0 of 2", mm("grade", sheet, made).out)

    def test_wrong_sheets_are_told_by_their_lines(self):
        for line in SHEETS:
            with self.subTest(line), folder() as room:
                ended = mm("grade", write(room, "s.txt", f"# a sheet\n{line}\n"), write(room, "p.asm", GOOD))
                self.assertEqual(ended.status, 2)
                self.assertRegex(ended.err, r"^mm: \S*s\.txt:2: ")


@needs_program
class Streams(unittest.TestCase):
    def test_closed_streams(self):
        with folder() as room:
            write(room, "p.asm", GOOD)
            for line, status in (("mm run p.asm >&-", 4), ("mm help >&-", 4), ("mm run p.asm 2>&-", 0), ("mm debug p.asm <&-", 0),
                    ("mm run none.asm >&- 2>&-", 3), ("mm run p.asm >/dev/full", 4), ("mm link p.asm >&-", 4), ("mm asm p.asm >&-", 4),
                    ("mm vcd p.asm >&-", 4), ("mm lsp >&- </dev/null", 1)):
                with self.subTest(line):
                    ended = shell(line, room)
                    self.assertEqual((ended.returncode, b"Traceback" in ended.stderr), (status, False))

    def test_input_that_is_no_text(self):
        """In a locale whose input is strict."""
        with folder() as room:
            write(room, "p.asm", GOOD)
            for line, status in (("mm debug p.asm", 0), ("mm check-why p.img 0 0x100000 touch", 2)):
                with self.subTest(line):
                    ended = shell(f"mm link p.asm -o p.img; export PYTHONIOENCODING=utf-8; printf 'p \\377\\n' | {line}", room)
                    self.assertNotEqual(ended.returncode, Status.OWN_FAULT)
                    self.assertNotIn(b"should not happen", ended.stderr)
                    self.assertEqual(ended.returncode, status)

    def test_a_pipe_is_no_source_in_c(self):
        with folder() as room:
            os.mkfifo(os.path.join(room, "x.c"))
            ended = shell("(printf 'int main(void) { return 0; }' >x.c &) ; mm run x.c", room)
            self.assertEqual(ended.returncode, 3)
            self.assertIn(b"it is not a usual file", ended.stderr)

    def test_cc_wants_c(self):
        with folder() as room:
            ended = mm("cc", write(room, "p.asm", GOOD))
        self.assertEqual(ended.status, 1)
        self.assertIn("is not a source in C", ended.err)

    def test_a_prefix_that_begins_no_name(self):
        with folder() as room:
            source = write(room, "m.c", "int main(void) { return 0; }\n")
            for prefix in ("1x", "a;b", "\u00e9", "a" * 13):
                ended = mm("cc", source, "--prefix", prefix)
                self.assertEqual((ended.status, ended.out), (1, ""))
                self.assertIn("is not the beginning of a name", ended.err)

    def test_bytes_that_are_no_text(self):
        with folder() as room:
            write(room, "p.asm", GOOD)
            ended = shell("cp p.asm \"$(printf '\\377').asm\"; mm view \"$(printf '\\377').asm\" -o v.html; mm run p.asm -t \"$(printf '\\377')\"", room)
            self.assertEqual(ended.returncode, 2)
            self.assertNotIn(b"Traceback", ended.stderr)
            self.assertIn(b"is not an item of a schedule", ended.stderr)
            self.assertTrue(os.path.getsize(os.path.join(room, "v.html")) > 10_000)

    def test_names_that_are_no_text_in_json(self):
        """Each text in JSON can be written as UTF-8."""
        with folder() as room:
            write(room, "p.asm", GOOD)
            for command in ("run", "trace", "symbols"):
                ended = shell(f"cp p.asm \"$(printf '\\377\"x').asm\"; mm {command} --json \"$(printf '\\377\"x').asm\"", room)
                self.assertEqual(ended.returncode, 0)
                form = json.dumps(json.loads(ended.stdout), ensure_ascii=False)
                self.assertIn('\\\\xff\\"x.asm', form)
                form.encode("utf-8")

    def test_a_name_of_no_letters(self):
        self.assertIn('"": error: cannot be read', mm("run", "").err)

    def test_a_folder_that_is_not_there(self):
        ended = mm("run", "no/such/p.asm")
        self.assertEqual(ended.status, 3)
        self.assertIn("hint: there is no folder no/such", ended.err)

    def test_a_file_without_an_end(self):
        ended = mm("run", "/dev/zero")
        self.assertEqual(ended.status, 2)
        self.assertIn("is too long", ended.err)

    def test_an_input_without_an_end(self):
        with folder() as room:
            write(room, "p.asm", GOOD)
            for line, why in (("mm debug p.asm </dev/zero", "a line of the input has more than"),
                    ("mm link p.asm -o p.img; mm check-why p.img 0 0x100000 touch </dev/zero", "the derivation has more than")):
                ended = shell(line, room)
                self.assertEqual(ended.returncode, 2)
                self.assertIn(why, ended.stderr.decode())

    def test_a_folder_that_is_gone(self):
        with folder() as room:
            ended = shell("mkdir d; cd d; rmdir ../d; mm run x.asm", room)
        self.assertEqual(ended.returncode, 3)
        self.assertIn(b"x.asm: error: cannot be read", ended.stderr)

    def test_numbers_of_many_digits(self):
        """Python reads none of more than 4300: they are refused as others are."""
        nines, rule = "9" * 4400, "1 group 0 p2100000000100080 register 0 %s\n"
        with folder() as room:
            source = write(room, "p.asm", GOOD + f";@ line p.c:{nines}\n;@ global x 8 at {nines}\n")
            ended = mm("debug", source, lines=f"x/{nines} a\nbreak p.asm:{nines}\np r{nines}\nb a slot {nines}\nb a if r{nines} == 1\np 1\n")
            self.assertEqual((ended.status, ended.err), (0, ""))
            self.assertIn("1 = 1 ", ended.out)
            self.assertIn("1 to 512 words can be shown", ended.out)
            self.assertEqual(mm("why", source, "0", f"p.asm:{nines}", "touch").status, Status.USAGE)
            image = os.path.join(room, "p.img")
            self.assertEqual(mm("link", source, "-o", image).status, 0)
            for line in (rule % nines, rule.replace("1", nines, 1) % "0", (rule % "0").replace("group 0", f"group {nines}")):
                ended = mm("check-why", image, "0", "0x100080", "write", lines=line)
                self.assertNotIn("should not happen", ended.err)
                self.assertNotIn(ended.status, (0, Status.OWN_FAULT))
        self.assertEqual(mm("help", nines).status, Status.USAGE)
        with mock.patch.dict(os.environ, {"COLUMNS": nines}):
            self.assertEqual(mm("help").status, 0)

    def test_an_expression_without_an_end(self):
        with folder() as room:
            source = write(room, "p.asm", GOOD)
            ended = mm("debug", source, lines=f"break a if {'(' * 5000}\np 1\nquit\n")
            self.assertEqual(ended.status, 0)
            self.assertIn("p 1", ended.out)

    def test_a_program_that_is_another(self):
        with folder() as room:
            ended = mm("--program", "/bin/echo", "run", write(room, "p.asm", GOOD))
        self.assertEqual(ended.status, Status.OWN_FAULT)
        self.assertIn("names is not `mmachine`", ended.err)

    def test_a_program_that_a_signal_ends(self):
        with folder() as room:
            program = write(room, "mmachine", "#!/bin/sh\nkill -SEGV $$\n")
            os.chmod(program, 0o755)
            ended = mm("--program", program, "run", write(room, "p.asm", GOOD))
        self.assertEqual(ended.status, 128 + signal.SIGSEGV)
        self.assertIn(f"it was ended by signal {int(signal.SIGSEGV)}", ended.err)

    def test_a_fault_of_its_own(self):
        def fails(console):
            raise KeyError("x")

        with mock.patch("mm.commands.help.run", fails):
            ended = mm("help")
        self.assertEqual(ended.status, Status.OWN_FAULT)
        self.assertRegex(ended.err, r"this should not happen: KeyError at test_holds.py:\d+")


class Starts(unittest.TestCase):
    """A start costs what it imports, and can be interrupted from the beginning."""

    def test_an_interrupt_while_it_imports(self):
        said = (
            "import runpy, sys\n"
            "class Finder:\n"
            "    def find_spec(self, name, path=None, target=None):\n"
            "        if name == at: raise KeyboardInterrupt\n"
            "at, sys.argv = sys.argv[1], ['mm', 'help']\n"
            "sys.meta_path.insert(0, Finder())\n"
            f"runpy.run_path({path_of('bin', 'mm')!r}, run_name='__main__')\n"
        )
        for name in ("mm.main", "mm.console", "mm.commands.help"):
            ended = subprocess.run([sys.executable, "-c", said, name], capture_output=True, check=False)
            self.assertEqual((ended.returncode, ended.stdout, ended.stderr.strip()), (130, b"", b""))

    def imported(self, *words):
        said = "import sys; from mm.main import Ended, _catch_signals, main; main(sys.argv[1:]); print(*sys.modules, sep='\\n', file=sys.stderr)"
        ended = subprocess.run([sys.executable, "-c", said, *words], cwd=path_of(), capture_output=True, text=True, check=False)
        return set(ended.stderr.split())

    def test_of_help(self):
        here = self.imported("help")
        self.assertIn("mm.help.overview", here)
        self.assertEqual({name for name in here if name.startswith(("mm.build", "mm.names.sym", "mm.messages", "mm.debugger", "mm.cc."))}, set())

    @needs_program
    def test_of_a_run(self):
        here = self.imported("run", "examples/hello.asm")
        self.assertIn("mm.views.report", here)
        late = ("mm.messages", "mm.names.clines", "mm.names.expressions", "mm.debugger", "mm.views.why", "mm.outputs.trace", "difflib")
        self.assertEqual({name for name in here if name.startswith(late)}, set())


class Json(unittest.TestCase):
    def test_lines(self):
        console = Console(Words())
        console.out = mock.Mock()
        console.write_json({"form": 1, "turns": [{"a": 1}, {"a": [{"b": 2}]}], "none": []})
        said = "".join(call.args[0] for call in console.out.write.call_args_list)
        self.assertEqual(said, '{\n "form": 1,\n "turns": [\n  {"a": 1},\n  {"a": [{"b": 2}]}\n ],\n "none": []\n}\n')


if __name__ == "__main__":
    unittest.main()
