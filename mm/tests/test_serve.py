"""`mm serve` without a browser: what a request may ask for, how requests are read, what there is to begin from, and
processes with their limits. `.ci/serve` has the rest."""

import asyncio
import json
import os
import time
import unittest

from mm.editing.faults import column_of, letters, span
from mm.serve import panes
from mm.serve.asked import NotAllowed, read_asked, refuse_files
from mm.serve.child import carry_out
from mm.serve.deeds import known
from mm.serve.http import MOST_HEAD, BadRequest, read_head, read_request
from mm.serve.limits import ONE_PERSON, Limits, for_class
from mm.serve.marked import html_of
from mm.serve.page import files_of, policy
from mm.serve.server import Server
from mm.serve.shelf import shelf, without_folders
from mm.serve.words import for_page
from mm.table import BY_NAME
from mm.tests.hostile import INCLUDES, OK
from mm.tests.serving import Served, program
from mm.tests.support import folder, mm, needs_program, read

HOST = "Host: 127.0.0.1:0\r\n"


def asked(limits=ONE_PERSON, **form):
    return read_asked(json.dumps({"do": "run", "files": program(OK), **form}).encode(), limits)


def request(data, most=1000):
    """What a stream of bytes asks for."""

    async def read_it():
        reader = asyncio.StreamReader(limit=MOST_HEAD)
        reader.feed_data(data)
        reader.feed_eof()
        return await read_request(reader, most)

    return asyncio.run(read_it())


class Asked(unittest.TestCase):
    def test_a_request(self):
        found = asked(turns="0 1*5", cycles=7, words=["0", "box+8"])
        self.assertEqual((found.deed, found.turns, found.cycles, found.words), ("run", "0 1*5", 7, ("0", "box+8")))
        self.assertEqual([(source.name, source.data) for source in found.sources], [("mine.asm", OK.encode())])

    def test_names_of_sources_are_no_paths(self):
        for name in ("../a.asm", "/a.asm", "a/b.asm", "a\\b.asm", "-a.asm", ".asm", "a", "a.h", "a.asm\n",
            "a\0.asm", "@a.c", "x" * 99 + ".asm"):
            with self.assertRaises(NotAllowed, msg=name):
                asked(files=program(OK, name))

    def test_limits_are_told(self):
        few = Limits(bytes=200, sources=2, cycles=10)
        for form, said in (
            ({"files": program("x" * 201)}, "the limit here is 200"),
            ({"files": [{"name": f"{at}.asm", "text": ""} for at in range(3)]}, "the limit here is 2"),
            ({"turns": "0*11"}, "the limit here is 10"),
            ({"cycles": 11}, "from 0 to 10"),
        ):
            with self.assertRaisesRegex(NotAllowed, said) as caught:
                asked(few, **form)
            self.assertEqual(caught.exception.status, 413)

    def test_c_is_off_for_a_class(self):
        with self.assertRaisesRegex(NotAllowed, "C is off"):
            asked(for_class(False), files=program("int main(void) { return 0; }", "a.c"))
        self.assertTrue(asked(for_class(True), files=program("int main(void) { return 0; }", "a.c")).sources[0].in_c)

    def test_no_file_is_named_in_c(self):
        for form in (*INCLUDES, '#line 1 "{0}"', '# 1 "{0}"', '/* */ #line 1 "{0}"', '#/**/line 3 "{0}"',
            '#if __has_include(<{0}>)'):
            with self.assertRaises(NotAllowed, msg=form):
                refuse_files("a.c", form.format("/etc/passwd") + "\n")
        refuse_files("a.c",
            '#include <stdio.h> // out\n # include <mm.h>\n#define LINE(a) #a\n#if 1\nchar *s = "#line";\n#endif\n')

    def test_each_word_that_names_a_file_in_c(self):
        """Whatever stands before and after it; a longer word is another."""
        words = ("include", "include_next", "import", "embed", "incbin", "pragma", "_Pragma", "__has_include", "__has_embed",
            "__pragma", "module")
        for word in words:
            for line in (f"{word} a;", f"# {word} 1", f"int {word};", f'asm(".{word} x");', f"  @{word}", f"/* {word} */"):
                with self.assertRaises(NotAllowed, msg=line) as caught:
                    refuse_files("a.c", f"int a;\n{line}\nint b;\n")
                self.assertIn(f"`{word}` may stand only in lines such as", str(caught.exception))
                self.assertEqual(caught.exception.status, 403)
            refuse_files("a.c", f"int {'' if '__has' in word else f'{word}s, '}my_{word};\n")

    def test_limits_of_a_class(self):
        """Each is as SERVE.md says, and no greater than that of one person, but for how many may ask."""
        few, with_c = for_class(False), for_class(True)
        self.assertEqual((few.seconds, few.memory, few.file), (10, 1 << 30, 64 << 20))
        self.assertEqual((few.cycles, few.turns, few.states), (100_000, 5_000, 20_000))
        self.assertEqual((few.bytes, few.sources, few.waiting, few.patience, few.connections), (65_536, 8, 64, 20, 256))
        self.assertEqual((few.c, with_c.c, with_c.memory), (False, True, 8 << 30))
        self.assertEqual((with_c.seconds, with_c.states, with_c.cycles), (few.seconds, few.states, few.cycles))
        self.assertTrue(2 <= few.at_once <= max(2, os.cpu_count()))
        page = read("docs", "SERVE.md")
        for row in (
            f"bytes of all sources together | {ONE_PERSON.bytes:,} | {few.bytes:,}",
            f"sources | {ONE_PERSON.sources} | {few.sources}",
            f"seconds for a request | {ONE_PERSON.seconds} | {few.seconds}",
            f"memory for each process | {ONE_PERSON.memory >> 30} GiB | {few.memory >> 30} GiB, with C {with_c.memory >> 30} GiB",
            f"cycles of a run | {ONE_PERSON.cycles:,} | {few.cycles:,}",
            f"connections | {ONE_PERSON.connections} | {few.connections}",
        ):
            self.assertIn(f"\n| {row} |\n", page)
        with self.assertRaisesRegex(NotAllowed, "from 0 to 100000"):
            asked(few, cycles=100_001)
        self.assertEqual(asked(few, cycles=100_000).cycles, 100_000)

    def test_no_json(self):
        for body in (b"", b"[]", b"\xff", b"[" * 100_000, b'{"files": 1}', b'{"words": [1]}',
            b'{"words": ["--names"]}'):
            with self.assertRaises(NotAllowed, msg=body[:20]):
                read_asked(body, ONE_PERSON)


class Http(unittest.TestCase):
    def test_a_request(self):
        found = request(f"POST /a/do HTTP/1.1\r\n{HOST}Content-Length: 2\r\n\r\n{{}}".encode())
        self.assertEqual((found.method, found.path, found.headers["host"], found.body), ("POST", "/a/do",
            "127.0.0.1:0", b"{}"))
        self.assertIsNone(request(b""))

    def test_what_is_none(self):
        for head in ("GET", "GET / HTTP/2", "get / HTTP/1.1", "GET a HTTP/1.1",
            "GET / HTTP/1.1\r\nHost: a\r\nHost: b", "GET / HTTP/1.1\r\n b",
                     "GET / HTTP/1.1\r\na b: c"):
            with self.assertRaises(BadRequest, msg=head):
                read_head(head.encode())
        for rows, status in (("", 411), ("Content-Length: -1\r\n", 400), ("Content-Length: 1001\r\n", 413),
                             ("Transfer-Encoding: chunked\r\n", 411), ("Content-Length: 9\r\n", 400)):
            with self.assertRaises(BadRequest) as caught:
                request(f"POST / HTTP/1.1\r\n{HOST}{rows}\r\n{{}}".encode())
            self.assertEqual(caught.exception.status, status, rows)

    def test_strangers(self):
        server = Server(None, ONE_PERSON, "token", {}, True)
        self.addCleanup(server.close)

        def why(**headers):
            rows = "".join(f"{name.replace('_', '-')}: {value}\r\n" for name, value in headers.items())
            return server.stranger(read_head(f"POST / HTTP/1.1\r\n{rows}".rstrip("\r\n").encode()))

        self.assertEqual(why(Host="127.0.0.1:8017", Origin="http://127.0.0.1:8017"), "")
        self.assertEqual(why(Host="localhost:8017"), "")
        for headers in ({}, {"Host": "evil"}, {"Host": "127.0.0.1:1", "Origin": "http://evil"},
            {"Host": "127.0.0.1:1", "Origin": "null"},
                        {"Host": "127.0.0.1:1", "Sec_Fetch_Site": "cross-site"}, {"Host": "127.0.0.1:1",
                            "Origin": "http://127.0.0.1:2"}):
            self.assertNotEqual(why(**headers), "", headers)

    def test_a_page_of_another_origin_may_only_lead_here(self):
        """By a link, which is a GET; a form or a script of it may ask for nothing."""
        server = Server(None, ONE_PERSON, "token", {}, True)
        self.addCleanup(server.close)
        for method in ("GET", "HEAD", "POST"):
            for site in ("same-origin", "none", "same-site", "cross-site"):
                for mode in ("navigate", "cors", "no-cors", "same-origin"):
                    rows = f"Host: 127.0.0.1:8017\r\nSec-Fetch-Site: {site}\r\nSec-Fetch-Mode: {mode}"
                    said = server.stranger(read_head(f"{method} / HTTP/1.1\r\n{rows}".encode()))
                    right = site in ("same-origin", "none") or (method, mode) == ("GET", "navigate")
                    self.assertEqual(said, "" if right else "the request comes from another page", (method, site, mode))


class Shelf(unittest.TestCase):
    def test_what_there_is(self):
        found = shelf(True)
        self.assertEqual(found["examples"][0]["name"], "hello.asm")
        self.assertEqual([lesson["number"] for lesson in found["lessons"]], list(range(1, 13)))
        self.assertEqual(len(found["exercises"]), 27)
        self.assertEqual([each["name"] for each in found["exercises"] if not each["html"]], [])
        lab2 = next(each for each in found["exercises"] if each["name"] == "lab-2")
        self.assertEqual([bool(said) for said in lab2["meanings"]], [True] * len(lab2["asks"]))
        self.assertNotIn("mm grade lab-2", lab2["html"])
        self.assertEqual(without_folders("given ../lab/bank.asm gate account"), "given bank.asm gate account")
        counter = next(each for each in found["examples"] if each["name"] == "counter.asm")
        self.assertEqual(counter["turns"], "0 1*5")
        for item in found["c"]:
            for source in item["files"]:
                refuse_files(source["name"], source["text"])

    def test_a_page_is_escaped(self):
        made = html_of("# A <b>\n\n`<i>` **s** [to](5-gates.md) [x](javascript:alert)\n\n"
            "| a | b |\n|---|---|\n| `1\\|2` | <u> |\n")
        self.assertIn('<h3>A &lt;b&gt;</h3>', made)
        self.assertIn('<code>&lt;i&gt;</code> <strong>s</strong> <a href="#" data-lesson="5">to</a> x', made)
        self.assertIn("<td><code>1|2</code></td><td>&lt;u&gt;</td>", made)
        self.assertNotIn("javascript", made)
        shown = html_of("![a <b>](../pictures/gate.svg) ![c](../../x.svg)")
        self.assertEqual(shown, '<p><img src="pictures/gate.svg" alt="a &lt;b&gt;"> c</p>')

    def test_the_pages_of_lessons_have_no_marks_left(self):
        for lesson in shelf(False)["lessons"]:
            self.assertEqual(lesson["html"].count("<details>"), lesson["html"].count("</details>"), lesson["title"])
            self.assertNotIn("```", lesson["html"])

    def test_files(self):
        made = files_of(None, ONE_PERSON, {"files": [], "lesson": 0})
        self.assertEqual(sorted(name for name in made if not name.startswith("pictures/")),
            ["", "about.json", "page.css", "page.js"])
        self.assertIn(b"<svg", made["pictures/gate.svg"].body)
        self.assertIn("script-src 'self' 'sha256-", policy()["Content-Security-Policy"])
        self.assertNotIn("unsafe-inline", policy()["Content-Security-Policy"].split("style-src")[0])

    def test_panes_are_of_commands(self):
        self.assertEqual({pane.command for pane in panes.PANES} - set(BY_NAME), set())
        self.assertTrue(known("audit") and known("run") and not known("serve") and not known("net"))


class ForPage(unittest.TestCase):
    def test_what_is_typed_is_left_out(self):
        told = ["mm: why: missing WORD and KIND", "    usage: mm why FILE.. GROUP WORD KIND", "    `mm help why` explains it"]
        self.assertEqual(for_page(told), ["missing WORD and KIND"])
        long = "a run has at most 1000000 cycles: `mm save` and `mm continue` make a longer one of two"
        self.assertEqual(for_page([long, "mm: note: it is late", "3 cycles"]), ["a run has at most 1000000 cycles", "it is late",
            "3 cycles"])

    @needs_program
    def test_turns_that_do_nothing_and_orders_that_end(self):
        with Served() as served:
            files = program(read("examples", "counter.asm"), "counter.asm")

            def told(turns):
                form = served.do({"do": "run", "files": files, "turns": turns}).form
                return form["order_ends"], [note for note in form["notes"] if "did nothing" in note]

            self.assertEqual(told(""), ("", []))
            self.assertEqual(told("0 1*5"), ("6 turns", []))
            self.assertEqual(told("0*3 5*2"), ("5 turns",
                ["2 turns of the order did nothing: a slot had halted, or there is no such slot"]))
            self.assertEqual(told("0 1 " * 40)[0], "")


class Child(unittest.TestCase):
    def carry_out(self, deed, limits=ONE_PERSON):
        with folder() as room:
            try:
                return asyncio.run(carry_out(deed, limits, room))
            finally:
                self.assertEqual(os.listdir(room), [])

    def test_an_answer(self):
        self.assertEqual(self.carry_out(lambda: os.path.basename(os.getcwd())[:3]), b"tmp")

    def test_limits(self):
        few = Limits(seconds=1, memory=1 << 30, file=1 << 16)

        def write():
            with open("big", "wb") as file:
                file.write(b"x" * (1 << 20))
            return "written"

        for deed, said in ((lambda: time.sleep(60) or "", "more than 1 seconds"),
            (lambda: "x" * len(bytearray(4 << 30)), "memory"),
                           (write, "a limit"), (lambda: 1 // 0, "without an answer")):
            with self.assertRaisesRegex(NotAllowed, said):
                self.carry_out(deed, few)

    def test_nothing_outlives_a_request(self):
        with folder() as room:
            path = os.path.join(room, "late")

            def leave():
                if os.fork() == 0:
                    time.sleep(1)
                    open(path, "w").close()
                    os._exit(0)
                return "done"

            self.assertEqual(self.carry_out(leave), b"done")
            time.sleep(1.3)
            self.assertFalse(os.path.exists(path))


class Letters(unittest.TestCase):
    def test_columns_and_letters(self):
        line = "a \u00e4\U0001f600 b".encode().decode("latin-1")
        for column, letter in ((1, 0), (3, 2), (5, 3), (9, 5), (10, 6)):
            self.assertEqual(letters(line, column), letter)
            self.assertEqual(column_of(line, letter), column)
        self.assertEqual(span("  outt r1", 3), (2, 6))


@needs_program
class Whole(unittest.TestCase):
    def test_a_run(self):
        with Served() as served:
            found = served.do({"do": "run", "files": program(read("examples", "counter.asm"), "counter.asm")})
            self.assertEqual(found.status, 200)
            report = mm("run", "examples/counter.asm").out.replace("examples/", "")
            self.assertEqual("\n".join(found.form["report"]) + "\n", report)
            self.assertIn('id="run">', found.form["view"])
            bad = served.do({"do": "check", "files": program("ldi r1\n")}).form
            self.assertEqual([(fault["line"], fault["from"]) for fault in bad["faults"]], [(1, 5)])
            audit = served.do({"do": "audit", "files": program(OK)}).form
            self.assertIn("group 0 (slot 0)", audit["lines"][0])
            self.assertTrue(audit["picture"].startswith("<svg"))
            self.assertEqual(audit["behind"], "")
            counter = program(read("examples", "counter.asm"), "counter.asm")
            audit = served.do({"do": "audit", "files": counter}).form
            self.assertEqual((audit["behind"], [line for line in audit["lines"] if "mm keeps" in line]),
                ("gate and count", []))
            kept = served.do({"do": "keeps", "files": counter}).form
            self.assertEqual((kept["head"], kept["good"], kept["words"]),
                ("yes: the kernel keeps gate and count", True, ["gate", "count"]))
            kept = served.do({"do": "keeps", "files": counter, "words": ["count"]}).form
            self.assertEqual((kept["head"][:3], kept["good"], kept["words"]), ("no:", False, ["count"]))
            self.assertIn("No segment is there", served.do({"do": "keeps", "files": program(OK)}).form["missing"])
            self.assertIn("Say group, word and kind", served.do({"do": "why", "files": program(OK)}).form["missing"])
            graded = served.do({"do": "grade", "words": ["lab-2"], "files": program(read("docs", "course",
                "answers", "lab2.asm"))}).form
            self.assertEqual(graded["right"], len(graded["marks"]))
            self.assertEqual(served.request("/").status, 404)
            self.assertEqual(served.request(served.path + "../README.md").status, 404)
            self.assertEqual(served.request(served.path, Origin="http://evil").status, 403)
        with Served("--host", "0.0.0.0", "--token", "class-1") as served:
            self.assertEqual(served.path, "/class-1/")
            self.assertEqual(served.do({"do": "run", "files": program("int main(void) { return 0; }",
                "a.c")}).status, 403)


if __name__ == "__main__":
    unittest.main()
