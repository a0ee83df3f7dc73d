"""Requests that no page of `mm serve` makes: paths, lengths, encodings, other origins, programs that want too much.
None may be answered with anything of the machine, and none may keep the server from answering the next."""

from __future__ import annotations

import json
import os
import socket
import threading
import time
from itertools import product
from typing import Any, Iterator

from mm.machine.program import CHECKOUT
from mm.tests.serving import Got, Served, program, read_answer

OK = """\
.segment main 6
  ldi r1, 72
  out r1
  halt
.thread 0 0 none xu main
"""
ENDLESS = ".segment main 6\nagain: br again\n.thread 0 0 none xu main\n"
MANY = "".join(
    f".segment s{slot} 6\nldi r1, 9\n ldi r2, 9\n ldi r3, 9\n halt\n.thread {slot} {slot} none xu s{slot}\n"
    for slot in range(16))
WALK = ("..", "../", "%2e%2e/", "..%2f", "%2e%2e%2f", "..%5c", "..%c0%af", "%252e%252e%252f", "....//", "./", "//",
    "/%00/")
WANTED = ("etc/passwd", "etc/shadow", "proc/self/environ", "README.md", "mm/table.py", ".git/config", "")
INCLUDES = (
    '#include "{0}"', "#include <{0}>", '# include "{0}"', '#\\\ninclude "{0}"', '%:include "{0}"', '??=include "{0}"',
    '/* */ #include "{0}"', '#/**/include "{0}"', '#include/**/"{0}"', '#define X "{0}"\n#include X',
    '#include_next "{0}"', '#import "{0}"', '#if __has_include("{0}")\nint there;\n#endif', '#embed "{0}"',
    'asm(".incbin \\"{0}\\"");', '#pragma clang module import "{0}"', '_Pragma("include_alias(\\"a\\", \\"{0}\\")")',
    '#inc\\\nlude "{0}"', '#inc\\ \nlude "{0}"', '#include <stdio.h> /* */ \n#include "{0}"', '#in??/\nclude "{0}"',
    '#/* x\n*/include "{0}"', '#include <../../../../../../{0}>', '#include <stdio.h>\n#line 1 "{0}"\n#error x',
)
HOSTS = ("", "evil.example", "evil.example:{port}", "127.0.0.1.evil.example:{port}", "127.0.0.1@evil:{port}",
    "[::1", "a b", "\x00")
ORIGINS = ("http://evil.example", "null", "https://{host}", "http://127.0.0.1:1", "http://{host}.evil.example",
    "file://", "")
NAMES = ("../x.asm", "/etc/passwd", "a/b.asm", "a\\b.asm", "x.asm\x00", "x.asm\n", "-x.asm", "@x.c", ".asm", "x",
    "x.h", "x.asm.", "~x.asm",
    "\u202ex.asm", "x" * 100 + ".asm", "COM1.asm/..", "$(x).asm", "|x.asm", "x.asm;ls")


def requests(served: Served) -> Iterator[tuple[str, bytes]]:
    """Requests as bytes, with what is bad about each."""
    host, path = f"Host: {served.host}\r\n".encode(), served.path
    for walk, wanted in product(WALK, WANTED):
        for begin in (path, "/"):
            yield f"the path {begin}{walk}{wanted}", f"GET {begin}{walk}{wanted} HTTP/1.1\r\n".encode() + host + b"\r\n"
    for said in HOSTS:
        value = said.format(port=served.port).encode()
        yield f"the host {said!r}", f"GET {path} HTTP/1.1\r\n".encode() + (b"Host: " + value + b"\r\n" if said
            else b"") + b"\r\n"
    for line in ("", "GET", "GET /", "GET / HTTP/9.9", "get / HTTP/1.1", "GET http://evil/ HTTP/1.1",
        "CONNECT x:1 HTTP/1.1", "PRI * HTTP/2.0",
        "GET /\x01 HTTP/1.1", "GET / / HTTP/1.1", "GET \xff HTTP/1.1", "\x16\x03\x01",
            "GET /" + "a" * 5000 + " HTTP/1.1"):
        yield f"the first line {line[:40]!r}", line.encode("latin-1") + b"\r\n" + host + b"\r\n"
    for header in (b"X" * 20_000 + b": 1", b"A: " + b"b" * 20_000, b" folded: 1", b"no colon", b"Host: two",
        b"A\x00: b", b"A: \x80\xff", b": empty"):
        yield f"the header {header[:30]!r}", f"GET {path} HTTP/1.1\r\n".encode() + host + header + b"\r\n\r\n"
    post = f"POST {path}do HTTP/1.1\r\n".encode() + host + b"Content-Type: application/json\r\n"
    for length in (b"-1", b"+5", b"1e3", b"0x10", b"99999999999999999999", b"999999999", b"", b"5, 5", b"\xb2"):
        yield f"the length {length!r}", post + b"Content-Length: " + length + b"\r\n\r\n{}"
    yield "no length", post + b"\r\n{}"
    yield "two lengths", post + b"Content-Length: 2\r\nContent-Length: 3\r\n\r\n{}"
    yield "pieces", post + b"Transfer-Encoding: chunked\r\n\r\n2\r\n{}\r\n0\r\n\r\n"
    for method in ("PUT", "DELETE", "OPTIONS", "TRACE", "PATCH", "FOO"):
        yield f"the method {method}", f"{method} {path}do HTTP/1.1\r\n".encode() + host + b"Content-Length: 0\r\n\r\n"


def forms() -> Iterator[tuple[str, Any]]:
    """Bodies of requests, with what is bad about each."""
    yield from ((f"the body {body[:30]!r}", body) for body in (b"", b"x", b"[]", b"1", b"null", b"\xff\xfe",
        b'"run"', b"[" * 50_000, b"{" * 1000,
        b'{"do": "run"', b'{"do": "run", "files": [{"name": "a.asm", "text": "\\ud800"}]}', b'{"do":1e999}',
            b'{"do": "\x00"}'))
    for deed in ("", "serve", "lsp", "net", "cc", "grade", "help", "continue", "check-why", "../run", "__class__",
        "sweep", "save", "x" * 99):
        yield f"the deed {deed[:20]!r}", {"do": deed, "files": program(OK)}
    for name in NAMES:
        yield f"the name {name[:20]!r}", {"do": "run", "files": program(OK, name)}
    for key, value in (("files", "x"), ("files", [1]), ("files", [[]]), ("files", {}), ("files",
        [{"name": "a.asm"}]), ("turns", 1), ("turns", "x"),
        ("turns", "0*1000000 " * 9), ("turns", "-1"), ("turns", "0*99999999"), ("cycles", -1), ("cycles", "1"),
            ("cycles", 1e9), ("cycles", True),
        ("cycles", 10**30), ("from", 0), ("from", "x"), ("words", "x"), ("words", [1]), ("words", ["--program",
            "/bin/sh"]), ("words", ["-o", "x"]),
        ("words", ["../../etc/passwd"]), ("words", ["/etc/passwd"]), ("words", ["a"] * 999), ("level", "9"),
            ("level", 0)):
        yield f"{key} {str(value)[:30]}", {"do": "run", "files": program(OK), key: value}
    for words in (["/etc/passwd"], ["../../../etc/passwd"], ["lab-1", "x"], ["lab-99"], [], ["--help"],
        ["lab-1.txt"], [CHECKOUT]):
        yield f"the exercise {words}", {"do": "grade", "files": program(OK), "words": words}
    for pane in ("why", "holders", "keeps"):
        for words in (["--names", "/etc/passwd"], ["/etc/passwd"], ["0", "main", "x" * 70], ["0", "0x" + "f" * 70,
            "touch"], ["*"], ["main,99"]):
            yield f"{pane} {str(words)[:30]}", {"do": pane, "files": program(OK), "words": words}
    for at in range(17, 40, 11):
        yield f"{at} sources", {"do": "check", "files": [{"name": f"s{each}.asm", "text": OK} for each in range(at)]}
    yield "the same name twice", {"do": "check", "files": program(OK) * 2}
    yield "a long source", {"do": "check", "files": program("; x\n" * 2_000_000)}
    yield "a long line", {"do": "check", "files": program("x" * 60_000)}
    yield "many mistakes", {"do": "check", "files": program("bad bad\n" * 8_000)}
    yield "two long names", {"do": "check", "files": program(("a" * 20_000 + ": " + "b" * 20_000 + "\n"))}
    yield "bytes that act", {"do": "run",
        "files": program("\x1b[2J\x00\x07\u202e</script><script>alert(1)</script>\n" + OK)}
    yield "an endless program", {"do": "run", "files": program(ENDLESS), "cycles": None}
    yield "many schedules", {"do": "explore", "files": program(MANY)}


def in_c(secret: str) -> Iterator[tuple[str, Any]]:
    """Sources in C that want a file of the machine, or all of its time or memory."""
    for form in INCLUDES:
        text = form.format(secret) + "\nint main(void) { return 0; }\n"
        yield f"C: {form[:30]!r}", {"do": "run", "files": program(text, "mine.c")}
    bomb = "".join(f"#define A{n + 1} A{n} A{n} A{n} A{n} A{n} A{n} A{n} A{n} A{n} A{n}\n" for n in range(9))
    yield "C: a bomb of macros", {"do": "run",
        "files": program(f"#define A0 1+\n{bomb}int main(void) {{ return A9 1; }}\n", "mine.c")}
    yield "C: the names of files", {"do": "run",
        "files": program('#include <stdio.h>\nint main(void) { puts(__FILE__); return 0; }\n', "mine.c")}


def told(got: Got, secret: str) -> str:
    """What an answer tells of the machine; nothing if it tells nothing."""
    text = (got.head + got.body.decode("utf-8", "replace")).lower()
    for sign in (secret, CHECKOUT, "root:x:", "traceback", "mm-serve-", "/tmp/", "/usr/", "/home/",
        os.path.expanduser("~") + "/"):
        if sign.lower() in text:
            at = text.index(sign.lower())
            return text[max(0, at - 60) : at + 60]
    return ""


def slow_senders(served: Served, count: int) -> list[str]:
    """Many connections that send nothing, or a letter now and then: the server goes on answering others."""
    wrong, kept = [], []
    for at in range(count):
        there = socket.create_connection(("127.0.0.1", served.port), 60)
        if at % 2:
            there.sendall(b"GET / HTTP/1.1\r\nHost: ")
        kept.append(there)
    begin = time.monotonic()
    got = served.do({"do": "run", "files": program(OK)})
    if got.status != 200 or time.monotonic() - begin > 10:
        wrong.append(f"{count} slow senders: another request is answered {got.status} after {time.monotonic() - begin:.1f} s")
    ended = [read_answer(there).status for there in kept]
    for there in kept:
        there.close()
    if set(ended) - {0, 408, 503}:
        wrong.append(f"slow senders are answered {sorted(set(ended))}")
    if time.monotonic() - begin > 60:
        wrong.append(f"slow senders are kept for {time.monotonic() - begin:.0f} s")
    return wrong


def at_once(served: Served, forms_: list[Any]) -> list[tuple[float, Got]]:
    """The answers to requests that are made all at once, in their order, each with its seconds."""
    found: list[tuple[float, Got]] = [(0.0, Got(0))] * len(forms_)

    def one(at: int, form: Any) -> None:
        body = json.dumps(form).encode()
        begin = time.monotonic()
        got = served.do(body)
        found[at] = (time.monotonic() - begin, got)

    threads = [threading.Thread(target=one, args=row) for row in enumerate(forms_)]
    for thread in threads:
        thread.start()
    for thread in threads:
        thread.join()
    return found
