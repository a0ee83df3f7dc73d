"""What is written by hand about the commands has each of them: the manual page, the completions and the tour."""

import ast
import os
import re
import unittest

from mm.cc.options import LEVELS
from mm.commands.hex import ALL
from mm.debugger.commands import ENTRIES
from mm.formats.hex import PARTS
from mm.help.texts import MADE
from mm.help.topics import TOPICS
from mm.machine.causes import Cause
from mm.machine.program import CHECKOUT
from mm.table import COMMANDS, GLOBAL_OPTIONS, HEAP, STACK
from mm.tests.support import read

NAMES = {command.name for command in COMMANDS}
MOST_LINES, MOST_OF_FUNCTION = 400, 40


class Written(unittest.TestCase):
    def test_manual_page(self):
        page = read("docs", "mm.1")
        self.assertEqual(set(re.findall(r"^\.(?:It )?Cm ([\w-]+)", page, re.M)) & NAMES, NAMES)
        options = {option.name for command in COMMANDS for option in command.options} | {
            option.name for option in GLOBAL_OPTIONS
        }
        self.assertEqual(
            {f"--{name}" for name in re.findall(r"^\.It Fl (?:\w , )?F?l?l? ?Fl (?:Fl )?([a-z-]+)", page, re.M)}
            - options,
            set(),
        )
        for option in options:
            self.assertRegex(page, rf"Fl Fl {option[2:]}\b")

    def test_bash(self):
        text = read("editors", "completions", "mm.bash")
        self.assertEqual(set(re.search(r"commands='([^']*)'", text)[1].split()), NAMES)
        self.assertEqual(set(re.search(r'help\).*-W "\$commands ([^"]*)"', text)[1].split()), {*TOPICS, *MADE})
        for command in COMMANDS:
            cases = [
                row
                for row in re.findall(r"^            ([\w |]+)\) options=\"\$options ([^\"]*)\"", text, re.M)
                if command.name in row[0].split(" | ")
            ]
            said = cases[0][1].split() if cases else []
            self.assertEqual(set(said), {option.name for option in command.options}, command.name)

    def test_zsh(self):
        text = read("editors", "completions", "_mm")
        self.assertEqual(set(re.findall(r"^    '([\w-]+):", text, re.M)), NAMES)
        self.assertEqual(set(re.search(r"topics=\(([^)]*)\)", text)[1].split()), {*TOPICS, *MADE})

    def test_values(self):
        """What may stand after an option is what `mm` takes."""
        for name in ("mm.bash", "_mm"):
            text = read("editors", "completions", name)
            for values in ([cause.title for cause in Cause], [*PARTS, ALL], LEVELS):
                self.assertRegex(text, rf"[('] ?{' '.join(values)}[)']", name)
        for option in (HEAP, STACK):
            row = re.search(rf"'{option.name}\[.*?(\d+) to (\d+)", text)
            self.assertIsNotNone(row, option.name)
            self.assertIn(f"{int(row[1])} to {int(row[2])}", option.says.replace(",", ""), option.name)

    def test_tour(self):
        page = read("docs", "MM.md")
        self.assertEqual({name for name in NAMES if not re.search(rf"\bmm {name}\b", page)}, set())

    def test_debugger_in_the_manual_page(self):
        page = read("docs", "mm.1").split(".Sh DEBUGGER")[1]
        self.assertEqual([entry.names[0] for entry in ENTRIES if not re.search(rf"\b{entry.names[0]}\b", page)], [])


class Code(unittest.TestCase):
    def test_modules_and_functions_are_short(self):
        for folder, _, names in os.walk(os.path.join(CHECKOUT, "mm")):
            for name in sorted(names):
                if not name.endswith(".py"):
                    continue
                with open(os.path.join(folder, name), encoding="utf-8") as file:
                    text = file.read()
                self.assertLessEqual(text.count("\n"), MOST_LINES, name)
                tree = ast.parse(text)
                self.assertTrue(ast.get_docstring(tree), f"{name} has no docstring")
                for node in ast.walk(tree):
                    if isinstance(node, ast.FunctionDef):
                        self.assertLessEqual(node.end_lineno - node.lineno, MOST_OF_FUNCTION, f"{name}: {node.name}")


if __name__ == "__main__":
    unittest.main()
