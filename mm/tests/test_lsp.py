"""`mm lsp` and `mm dap`: the recorded sessions, messages that are none, and what is said of words of a source."""

import io
import json
import unittest

from mm.editing import words
from mm.lsp.frames import NoMessage, read_message, write_message
from mm.lsp.server import Server, path_of
from mm.source.text import read_source
from mm.tests import recorded
from mm.tests.support import needs_program

SOURCE = b"""\
; counts
.segment main 6
again: addi r1, r1, -1
  bnz r1, again
  add r2, add, r1
.segment box 3
add: .int 0
.thread 0 0 none xu main
.reg 3 ptr rw box
"""


class Frames(unittest.TestCase):
    def test_there_and_back(self):
        stream = io.BytesIO()
        for form in ({"a": "\u00e4"}, {}):
            write_message(stream, form)
        stream.seek(0)
        self.assertEqual([read_message(stream) for _ in range(3)], [{"a": "\u00e4"}, {}, None])

    def test_no_messages(self):
        for data in (b"x", b"\r\n", b"Content-Length: 9\r\n\r\n{}", b"Content-Length: 2\r\n\r\n[]",
                     b"Content-Length: x\r\n\r\n{}",
                     b"Content-Length: 1\r\n\r\n\xff", b"Content-Length: 999999999\r\n\r\n", b"A: b\r\n" * 200):
            with self.assertRaises(NoMessage, msg=data[:30]):
                read_message(io.BytesIO(data))


class Words(unittest.TestCase):
    def setUp(self):
        self.text = read_source("a.asm", SOURCE)

    def said(self, line, column):
        token = words.word_at(self.text, line, column)
        return words.about(self.text, line, token) if token else []

    def test_what_is_said(self):
        self.assertEqual(self.said(3, 9)[0], "addi rd, ra, NUMBER")
        self.assertEqual(self.said(4, 12)[0], "again: the word 0 bytes into main")
        self.assertEqual(self.said(9, 16)[0], "box: a segment of 2^3 bytes, of whose 1 words 1 are filled")
        self.assertEqual(self.said(5, 4)[0], "add rd, ra, rb")
        self.assertEqual(self.said(5, 12)[0], "add: the word 0 bytes into box")
        self.assertEqual(self.said(1, 4), [])
        self.assertEqual(self.said(8, 18)[0], "xu: execute-user, code 3")

    def test_names(self):
        self.assertEqual(words.definition(self.text, "again"), words.Place(3, 1, 6))
        self.assertEqual(words.definition(self.text, "box"), words.Place(6, 10, 13))
        self.assertIsNone(words.definition(self.text, "none"))
        self.assertEqual([place.line for place in words.uses(self.text, "again")], [3, 4])
        self.assertEqual([place.line for place in words.uses(self.text, "add")], [5, 7])
        self.assertEqual([(name, kind) for name, kind, _, _ in words.symbols(self.text)],
            [("main", "segment"), ("again", "label"), ("box", "segment"), ("add", "label")])

    def test_offers(self):
        begin = {offer.word for offer in words.offers(self.text, 4, 3)}
        self.assertTrue({"ld", ".segment"} <= begin and "again" not in begin)
        for before, wanted in (("  bnz r2, ", ["again", "add", "main", "box"]), ("  ld r1, r2, 0, ", ["any", "full", "empty"]),
            ("  ld r1, r2, 0, any, ", ["keep", "full", "empty"]), ("  ld r1, r2, ", []), ("x: add ", list(words.REGISTERS)),
            (".thread 0 0 none ", ["xu", "xp"]), (".reg 1 ptr rw ", ["again", "add", "main", "box"]), (".int ", []),
            (".reg 1 ", ["int", "ptr"]), (".segment ", []), (".thread 0 0 none xu main ", [])):
            text = read_source("a.asm", SOURCE + before.encode())
            found = words.offers(text, SOURCE.count(b"\n") + 1, len(before) + 1)
            self.assertEqual([offer.word for offer in found], wanted, before)
        self.assertIn("rw", {offer.word for offer in words.offers(read_source("a.asm", b".ptr "), 1, 6)})
        self.assertEqual(words.offers(self.text, 1, 9), [])


class Sessions(unittest.TestCase):
    def test_paths(self):
        self.assertEqual(path_of("file:///a%20b/c.asm"), "/a b/c.asm")
        self.assertEqual(path_of("untitled:1"), "untitled:1")

    def test_an_editor_that_goes(self):
        self.assertEqual(Server(None, io.BytesIO(), io.BytesIO()).loop(), 1)
        given = io.BytesIO()
        for form in ({"id": 1, "method": "initialize"}, {"id": 2, "method": "shutdown"}, {"method": "exit"}):
            write_message(given, form)
        given.seek(0)
        self.assertEqual(Server(None, given, io.BytesIO()).loop(), 0)

    @needs_program
    def test_a_debug_session_survives_what_is_wrong(self):
        """Each request that cannot be done is refused, and the next one is answered."""
        deep = "(" * 5000 + "1"
        asked = [
            ("initialize", {}), ("configurationDone", {}), ("launch", {"program": "examples/counter.asm", "cwd": "/no/such/folder"}),
            ("launch", {"program": f"{recorded.TOP}/examples/counter.asm"}), ("evaluate", {"expression": deep, "context": "watch"}),
            ("setExceptionBreakpoints", {"filters": ["fault"]}), ("setExceptionBreakpoints", {"filters": ["nothing of that name"]}),
            ("setFunctionBreakpoints", {"breakpoints": [{"name": "door", "condition": deep}]}), ("stackTrace", {"threadId": 1e999}),
            ("threads", {}), ("disconnect", {}),
        ]
        sent = [json.dumps({"seq": at + 1, "type": "request", "command": name, "arguments": given}) for at, (name, given) in enumerate(asked)]
        status, back = recorded.play("dap", sent)
        answers = {row["request_seq"]: row["success"] for row in map(json.loads, back) if row["type"] == "response"}
        self.assertEqual(status, 0)
        self.assertEqual([answers[at + 1] for at in range(len(asked))],
            [True, False, False, True, False, True, False, True, False, True, True])

    @needs_program
    def test_a_place_without_end(self):
        opened = {"textDocument": {"uri": "file:///a.asm", "languageId": "mm", "version": 1, "text": " nop\n"}}
        asked = {"textDocument": {"uri": "file:///a.asm"}, "position": {"line": 1e999, "character": 0}}
        rows = [{"id": 1, "method": "initialize", "params": {}}, {"method": "textDocument/didOpen", "params": opened},
            {"id": 2, "method": "textDocument/hover", "params": asked}, {"id": 3, "method": "shutdown"}, {"method": "exit"}]
        status, back = recorded.play("lsp", [json.dumps({"jsonrpc": "2.0", **row}) for row in rows])
        self.assertEqual(status, 0)
        self.assertEqual([("error" in row) for row in map(json.loads, back) if row.get("id") in (2, 3)], [True, False])

    @needs_program
    def test_recorded(self):
        names = recorded.names()
        self.assertGreaterEqual(len(names), 4)
        for name in names:
            self.assertEqual(recorded.differences(name), [])
            self.assertTrue(all(json.loads(row) for row in recorded.rows(recorded.lines_of(name), "<")))


if __name__ == "__main__":
    unittest.main()
