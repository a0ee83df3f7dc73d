"""Logs that differ in one place: whichever line and word it is, a comparison finds it."""

import sys
import unittest

from mm.lockstep.compare import first_difference, is_report
from mm.tests.support import folder, read, write
from mm.tests.test_conformance import TOOLS, tool
from mm.tests.test_log import LOG

# The log of the tests, with all that a report can have besides.
WHOLE = LOG.replace("state 1 faulted 3\n", "state 1 faulted 3\nevent 1 0 3 p4300000000100028 i0000000000000000 i0000000000000001\n")
WHOLE += "page 00000000100 new\npage 00000000200 gone\ncounts hits 9 misses 2 writebacks 0 tlb hits 8 misses 1 reads 2 writes 0\n"
# A case whose report has loads that have not arrived, and one whose report has pages.
PENDING, PAGES = "split-ld-waits-for-rd", "resume-retry-after-a-page-came"


def changed(lines):
    """Each place of a list of lines with the list as it is if a word there is another, or the line is not there."""
    for at, line in enumerate(lines):
        words = line.split(" ")
        for place in range(1, len(words)):
            others = [*words[:place], words[place] + "1", *words[place + 1 :]]
            yield at, [*lines[:at], " ".join(others), *lines[at + 1 :]]
        yield at, [*lines[:at], *lines[at + 1 :]]


def doubled(lines):
    """The same if a line is there twice."""
    for at, line in enumerate(lines):
        yield at, [*lines[:at], line, *lines[at:]]


class Lockstep(unittest.TestCase):
    def turn_of(self, lines, at):
        """The number of turns before the one that a line is in."""
        return sum(line.startswith(("t ", "m ", "cycles ")) for line in lines[: at + 1]) - 1

    def test_each_line_is_compared(self):
        lines = WHOLE.splitlines()
        for at, others in [*changed(lines), *doubled(lines)]:
            if lines[at].startswith("counts ") and len(others) < len(lines):
                # A program may leave them out.
                self.assertIsNone(first_difference(lines, others))
                continue
            found = first_difference(lines, others)
            said = f"line {at + 1} of {len(lines)}: {lines[at]}"
            self.assertIsNotNone(found, said)
            if len(others) == len(lines):
                self.assertEqual(found.same, self.turn_of(lines, at), said)
                self.assertEqual(is_report(found.model), at >= lines.index("cycles 8"), said)


class Suite(unittest.TestCase):
    @classmethod
    def setUpClass(cls):
        sys.path.insert(0, TOOLS)
        try:
            import differs
        finally:
            sys.path.remove(TOOLS)
        cls.differs = differs

    def test_each_line_is_compared(self):
        lines = WHOLE.splitlines()
        for at, others in [*changed(lines), *doubled(lines)]:
            found = self.differs.first_difference(WHOLE, "\n".join(others), True)
            said = f"line {at + 1} of {len(lines)}: {lines[at]}"
            self.assertIsNotNone(found, said)
            if len(others) == len(lines):
                self.assertEqual(found, (at, others[at]), said)
            is_counted = lines[at].startswith("counts ")
            self.assertEqual(self.differs.first_difference(WHOLE, "\n".join(others), False) is None, is_counted, said)

    def test_reports_are_compared(self):
        for name, head in ((PENDING, "pending "), (PAGES, "page ")):
            with self.subTest(name), folder() as made:
                self.assertEqual(tool("make", made, name)[0], 0)
                lines = read(made, f"{name}.wanted").splitlines()
                report = next(at for at, line in enumerate(lines) if line.startswith("cycles "))
                at = next(at for at, line in enumerate(lines) if at > report and line.startswith(head))
                for others in (lines[:at] + lines[at + 1 :], lines[:at] + [lines[at][:-1] + "f"] + lines[at + 1 :]):
                    write(made, f"{name}.log", "".join(f"{line}\n" for line in others))
                    status, said, _ = tool("check", "--logs", made, "--only", name)
                    self.assertEqual((status, said.splitlines()[-1]), (1, "1 cases, 1 differs"))
                    self.assertIn(f"{name}: line {at + 1} differs\n  wanted  {lines[at]}\n", said)


if __name__ == "__main__":
    unittest.main()
