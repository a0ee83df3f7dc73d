"""The manual pages under groff and mandoc, as far as they are installed."""

import os
import re
import shutil
import subprocess
import unittest

from mm.tests.support import path_of

PAGES = ("mm.1", "mmachine.1")
WIDTH = 80
# A page that is not installed has no other to refer to.
NOT_INSTALLED = "referenced manual not found"


def shown(command, name):
    """The lines of a page, as a reader sees them at 80 columns."""
    env = {**os.environ, "MANWIDTH": str(WIDTH), "LC_ALL": "C.UTF-8", "GROFF_NO_SGR": "1"}
    words = [*command, path_of("docs", name)]
    return subprocess.run(words, capture_output=True, text=True, check=True, env=env).stdout.splitlines()


def plain(line):
    return re.sub(".\b", "", line)


class Manuals(unittest.TestCase):
    def rows(self, lines, heading):
        """The lines of a section."""
        start = next(at for at, line in enumerate(lines) if line.strip() == heading)
        return lines[start + 1 :]

    def look(self, command):
        for name in PAGES:
            lines = [plain(line) for line in shown(command, name)]
            self.assertEqual([line for line in lines if len(line) > WIDTH], [], name)
            # No text of a row that wraps jumps to the right of the row.
            far = [line for line in lines if re.match(r" {30,}[a-z]", line)]
            self.assertEqual(far, [], name)
        status = self.rows([plain(line) for line in shown(command, "mmachine.1")], "EXIT STATUS")
        row = next(line for line in status if "Refused" in line)
        under = status[status.index(row) + 1]
        self.assertEqual(len(under) - len(under.lstrip()), row.index("Refused"))

    @unittest.skipUnless(shutil.which("man") and shutil.which("groff"), "there is no man with groff")
    def test_groff(self):
        self.look(["man", "-l"])

    @unittest.skipUnless(shutil.which("mandoc"), "there is no mandoc")
    def test_mandoc(self):
        self.look(["mandoc", f"-Owidth={WIDTH}"])
        for name in PAGES:
            words = ["mandoc", "-Tlint", path_of("docs", name)]
            told = subprocess.run(words, capture_output=True, text=True, check=False).stdout.splitlines()
            self.assertEqual([line for line in told if NOT_INSTALLED not in line], [], name)
