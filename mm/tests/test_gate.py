"""Scripts of the merge check, given an `rt`, a Python or a file of counts that say what is wrong: each has to fail."""

import os
import subprocess
import sys
import tempfile
import unittest

from mm.tests.support import folder, path_of, write

sys.path.insert(0, path_of("tools"))

CRATES = len(os.listdir(path_of("crates")))
EDITS = sum(len(os.listdir(path_of("crates", crate, "must-fail"))) for crate in os.listdir(path_of("crates"))
            if os.path.isdir(path_of("crates", crate, "must-fail")))
REFUSED = "rt: must-fail mm_word/a.edit: refused, as it must be: src/a.rt:1:1: error"
GOOD = (REFUSED, "rt: ok; handles allowed: none; must-fail edits: {edits} refused; every proof was done", "{all} passed, 0 failed")
# What an older kit says, which counts no edits in its last line.
EACH = tuple(f"rt: must-fail mm_word/{at}.edit: refused, as it must be: src/a.rt:1:1: error" for at in range(EDITS))
OLDER = (*EACH, "rt: ok; handles allowed: none", "{all} passed, 0 failed")


def is_checkout():
    return os.path.isdir(path_of(".ci")) and os.path.isdir(path_of("tools"))


def called(room, *words, **env):
    """How a script of this checkout ends, and what it says, with a folder in front of the path."""
    env = {**os.environ, "PATH": f"{room}:{os.environ['PATH']}", **env}
    for name in ("COUNTED", "COUNTS"):
        env.pop(name, None)
    ended = subprocess.run([path_of(words[0]), *words[1:]], env=env, capture_output=True, text=True, check=False,
                           stdin=subprocess.DEVNULL)
    return ended.returncode, ended.stdout + ended.stderr


def program(room, name, lines, status=0):
    """A program in a folder that says some lines."""
    path = write(room, name, "#!/bin/sh\ncat <<'END'\n" + "\n".join(lines) + f"\nEND\nexit {status}\n")
    os.chmod(path, 0o755)
    return path


@unittest.skipUnless(is_checkout(), "this is no checkout")
class Proofs(unittest.TestCase):
    def ends(self, lines, status=0):
        with folder() as room:
            program(room, "rt", [line.format(edits=EDITS, all=CRATES + EDITS) for line in lines], status)
            return called(room, ".ci/proofs")

    def test_what_rt_says(self):
        status, said = self.ends(GOOD)
        self.assertEqual(status, 0, said)
        self.assertIn(f"each of {CRATES} crates is proved, and each of {EDITS} must-fail edits is refused", said)

    def test_what_is_wrong(self):
        for more in ("rt: must-fail mm_word/a.edit: BAD EDIT: the prover cannot read the edited text",
                     "rt: crates/mm_word/must-fail/a: BAD EDIT: an edit stands right in must-fail/",
                     "rt: must-fail mm_word/a.edit: NOT TRIED: run this again",
                     "rt: must-fail mm_word/a.edit: refused, as it must be (only because a proof file names what it took away)",
                     "rt: must-fail mm_word/a.edit: refused, as it must be (only by a limit of the prover)"):
            self.assertEqual(self.ends([more, *GOOD])[0], 1, more)
        for lines in (GOOD[:2], GOOD[:1] + GOOD[2:], (*GOOD[:2], "1 passed, 0 failed"),
                      (GOOD[1].replace("{edits}", "1"), GOOD[2]), (*GOOD[:2], GOOD[2].replace("0 failed", "1 failed"))):
            self.assertEqual(self.ends(lines)[0], 1, lines)

    def test_an_older_kit(self):
        self.assertEqual(self.ends(OLDER)[0], 0)
        self.assertEqual(self.ends(OLDER[1:])[0], 1)
        self.assertEqual(self.ends((*OLDER[1:-2], OLDER[1], *OLDER[-2:]))[0], 1)
        self.assertEqual(self.ends((*EACH, OLDER[-1]))[0], 1)

    def test_how_rt_ends(self):
        for status in (1, 2, 3):
            self.assertEqual(self.ends(GOOD, status)[0], status)


@unittest.skipUnless(is_checkout(), "this is no checkout")
class Tests(unittest.TestCase):
    """`.ci/mm`, with a Python that says how the tests went."""

    def ends(self, lines, status=0):
        with folder() as room:
            python = program(room, "python", lines, status)
            return called(room, ".ci/mm", python, MMACHINE=python)

    def test_what_python_says(self):
        with open(path_of(".ci", "counts.txt"), encoding="utf-8") as file:
            count = next(line.split()[-1] for line in file if line.startswith("tried mm "))
        good = [f"Ran {count} tests in 1.000s", "", "OK"]
        self.assertEqual(self.ends(good)[0], 0)
        self.assertEqual(self.ends(good, 1)[0], 1)
        self.assertEqual(self.ends([f"Ran {int(count) - 1} tests in 1.000s", "", "OK"])[0], 1)
        self.assertEqual(self.ends([])[0], 1)


@unittest.skipUnless(is_checkout(), "this is no checkout")
class Counted(unittest.TestCase):
    def test_each_script_says_what_it_tried(self):
        with open(path_of(".ci", "counts.txt"), encoding="utf-8") as file:
            names = [line.split(" ", 1)[1].rpartition(" ")[0] for line in file if line.startswith("tried ")]
        self.assertGreater(len(names), 20)
        with folder() as room:
            for said, status in ((names, 0), (names[1:], 1), (names[:-1], 1), ([], 1)):
                path = write(room, "said", "".join(f"{name}\n" for name in said))
                self.assertEqual(called(room, ".ci/counts", "--said", path)[0], status)
            self.assertEqual(called(room, ".ci/counts", names[0], "no such number")[0], 1)
            self.assertEqual(called(room, ".ci/counts", "nothing of that name", "1")[0], 1)
            self.assertEqual(called(room, ".ci/counts", names[0])[0], 0)


@unittest.skipUnless(is_checkout(), "this is no checkout")
class Sentences(unittest.TestCase):
    def test_what_is_held(self):
        import sentences

        self.assertEqual(sentences.names_in("`a` (`one`, `two`)"), ["a"])
        self.assertEqual(sentences.names_in("`a`, `x::laws::b`"), ["a", "x::laws::b"])
        self.assertEqual(sentences.names_in("`a` of `x::laws` and `y::laws`"), ["x::laws::a", "y::laws::a"])
        self.assertEqual(sentences.checksum("a  b\nc", "d -- e\n f"), sentences.checksum("a b c", "d f"))
        for said, code in (("a b d", "d f"), ("a b c", "d g"), ("a b", "c d f")):
            self.assertNotEqual(sentences.checksum("a b c", "d f"), sentences.checksum(said, code))
        with tempfile.TemporaryDirectory() as room:
            path = write(room, "code.rt", "/// A.\npub fn a()\n    ensures { A }\n{}\n\nfn b(x: u8) -> u8 {\n    x\n}\n")
            self.assertEqual(sentences.contracts(path), {"a": "pub fn a()\n    ensures { A }\n", "b": "fn b(x: u8) -> u8 {\n"})


if __name__ == "__main__":
    unittest.main()
