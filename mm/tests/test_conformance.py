"""The suite's tools, as a designer uses them: `conformance/make`, `check` and `coverage`."""

import json
import os
import subprocess
import unittest

from mm.tests.support import folder, path_of, read, write

TOOLS = path_of("conformance")


def tool(name, *words):
    """The status of a tool, and what it writes."""
    done = subprocess.run([os.path.join(TOOLS, name), *words], capture_output=True, text=True, stdin=subprocess.DEVNULL)
    return done.returncode, done.stdout, done.stderr


class Logs(unittest.TestCase):
    def test_no_log_passes_before_a_simulation(self):
        with folder() as made:
            for more in ((), ("--hex",)):
                tool("make", *more, made, "lea-by-*")
                status, said, _ = tool("check", "--logs", made, "--only", "lea-by-none")
                self.assertEqual((status, said.splitlines()[-1]), (1, "1 cases, 1 differs"))
                self.assertIn("its log cannot be read", said)
                self.assertTrue(tool("coverage", "--logs", made)[1].startswith("0 logs."))

    def test_a_difference_for_other_programs(self):
        with folder() as made:
            tool("make", made, "lea-by-none")
            lines = read(made, "lea-by-none.wanted").splitlines()
            turn = next(line for line in lines if line.startswith("t "))
            said = os.path.join(made, "said.json")
            for came, log in ((["VCD info: x"], ["VCD info: x", *lines]), ([], [])):
                write(made, "lea-by-none.log", "".join(f"{line}\n" for line in log))
                out = tool("check", "--json", said, "--logs", made, "--only", "lea-by-none")[1]
                self.assertEqual("--skip-lines TEXT" in out, bool(came), out)
                row = json.loads(read(said))["results"][0]
                self.assertEqual((row["line"], row["wanted"], row["came"]), (1, [turn], came))
                self.assertNotIn("more", row)
            write(made, "lea-by-none.log", read(made, "lea-by-none.wanted"))
            self.assertEqual(tool("check", "--json", said, "--logs", made, "--only", "lea-by-none")[0], 0)
            self.assertEqual(json.loads(read(said))["results"][0]["told"], [])

    def test_a_log_of_ones_own(self):
        with folder() as made:
            tool("make", made, "lea-by-none")
            write(made, "lea-by-none.log", read(made, "lea-by-none.wanted"))
            self.assertEqual(tool("check", "--logs", made, "--only", "lea-by-none")[0], 0)
            self.assertTrue(tool("coverage", "--logs", made)[1].startswith("1 logs."))
            self.assertIn("make: logs NAME.log of an earlier run are there: 1", tool("make", made, "lea-by-none")[2])


class Choice(unittest.TestCase):
    def test_operations(self):
        with folder() as made:
            self.assertEqual(tool("make", "--operations", "bnz", made, "bnz-*")[0], 0)
            names = {name for name in os.listdir(made) if name.endswith(".img")}
            self.assertIn("bnz-to-the-first-word.img", names)
            self.assertNotIn("bnz-back.img", names)
            self.assertIn("`foo`", tool("make", "--operations", "halt,foo", made)[2])
            wanted = f"{len(names)} cases, {len(names)} differ"
            said = tool("check", "--operations", "bnz", "--only", "bnz-*", "--logs", made)[1]
            self.assertEqual(said.splitlines()[-1], wanted)

    def test_no_case_is_so(self):
        with folder() as made:
            there = os.path.join(made, "there")
            self.assertEqual(tool("make", there, "nothing-like-*"), (2, "", "make: no case is so\n"))
            self.assertFalse(os.path.exists(there))
            self.assertEqual(tool("check", "--logs", made, "--only", "nothing-like-*")[0], 2)

    def test_help(self):
        for name in ("make", "check", "coverage"):
            status, said, complained = tool(name, "--help")
            self.assertEqual((status, complained), (0, ""), name)
            self.assertIn("usage: conformance/", said)

    def test_a_folder_that_is_not_there(self):
        status, _, complained = tool("coverage", "--logs", path_of("no-such-folder"))
        self.assertEqual((status, complained.count("\n")), (2, 1))


if __name__ == "__main__":
    unittest.main()
