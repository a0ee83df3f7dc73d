"""Requests of a debug adapter that no recorded session makes: parts of lists, kinds of watches, places within a word."""

import base64
import io
import unittest

from mm.console import Console
from mm.dap.server import Server
from mm.debugger.points import PointKind
from mm.tests.support import folder, needs_program, write
from mm.words import read_words

# An empty word with a pointer, one with a number, and a thread.
SOURCE = """\
.segment main 5
begin: ldi r2, 5
  nop
  halt
.segment box 4
  .empty .ptr rw box
  .int 0x1122334455667788
.thread 0 0 none xu main
.thread 3 1 none xu main
"""


@needs_program
class Adapter(unittest.TestCase):
    def setUp(self):
        room = self.enterContext(folder()) if hasattr(self, "enterContext") else self.entered()
        console = Console(read_words(["dap"]))
        self.addCleanup(console.close)
        self.server = Server(console, io.BytesIO(), io.BytesIO())
        self.server.launch({"program": write(room, "p.asm", SOURCE)})
        self.box = next(region.base for region in self.server.session.symbols.regions if region.name == "box")

    def entered(self):
        """The folder, before Python 3.11."""
        kept = folder()
        self.addCleanup(kept.__exit__, None, None, None)
        return kept.__enter__()

    def kinds(self):
        return [point.kind for point in self.server.session.points]

    def test_kinds_of_watches(self):
        rows = [{"dataId": "box", "accessType": word} for word in ("read", "write", "readWrite")]
        self.server.set_words({"breakpoints": rows})
        self.assertEqual(self.kinds()[-3:], [PointKind.READ, PointKind.WATCH, PointKind.ACCESS])

    def test_a_condition_of_a_function(self):
        self.server.set_functions({"breakpoints": [{"name": "begin", "condition": "r2 == 5"}]})
        self.assertEqual(self.server.session.points[-1].condition.text, "r2 == 5")

    def test_parts_of_lists(self):
        whole = self.server.scopes({"frameId": 1})["scopes"]
        asked = {"variablesReference": whole[0]["variablesReference"], "start": 3, "count": 2}
        self.assertEqual([row["name"] for row in self.server.variables(asked)["variables"]], ["r2", "r3"])
        frames = self.server.stack({"threadId": 4, "startFrame": 1, "levels": 1})
        self.assertEqual((frames["stackFrames"], frames["totalFrames"]), ([], 1))

    def test_a_value_in_another_frame(self):
        self.server.evaluate({"expression": "r2", "frameId": 3001})
        self.assertEqual(self.server.session.slot, 3)

    def test_places_within_a_word(self):
        read = self.server.read({"memoryReference": hex(self.box + 11), "count": 4})
        self.assertEqual(base64.b64decode(read["data"]), bytes([0x55, 0x44, 0x33, 0x22]))
        code = self.server.code({"memoryReference": hex(self.box + 3), "instructionCount": 1})["instructions"]
        self.assertEqual(code[0]["address"], hex(self.box))

    def test_an_empty_word(self):
        memory = next(row for row in self.server.scopes({"frameId": 1})["scopes"] if row["name"] == "Memory")
        box = next(row for row in self.server.variables(memory)["variables"] if row["name"] == "box")
        self.assertRegex(self.server.variables(box)["variables"][0]["value"], "rw 2\\^4 box, empty$")


if __name__ == "__main__":
    unittest.main()
