"""A server of `mm serve` for tests, and requests to it as bytes, so that any can be sent."""

from __future__ import annotations

import json
import os
import re
import socket
import subprocess
import sys
import time
from dataclasses import dataclass
from typing import Any, Mapping, Optional
from urllib.parse import urlsplit

from mm.machine.program import CHECKOUT

SAID = re.compile(r"The page is at (http://\S+)")
SECONDS = 90


@dataclass(frozen=True)
class Got:
    """An answer: its status, 0 where there was none, its headers and its bytes."""

    status: int
    head: str = ""
    body: bytes = b""

    @property
    def form(self) -> Any:
        return json.loads(self.body)


class Served:
    """A running server."""

    def __init__(self, *words: str, env: Optional[Mapping[str, str]] = None) -> None:
        command = [sys.executable, os.path.join(CHECKOUT, "bin", "mm"), "serve", "--port", "0", *words]
        self.process = subprocess.Popen(command, stdout=subprocess.PIPE, stderr=subprocess.PIPE, text=True,
            cwd=CHECKOUT, env={**os.environ, **(env or {})})
        assert self.process.stdout is not None
        line = self.process.stdout.readline()
        found = SAID.match(line)
        if not found:
            self.process.wait(SECONDS)
            raise OSError(f"the server says {line!r}, {self.process.stderr.read() if self.process.stderr else ''}")
        parts = urlsplit(found[1])
        self.url, self.port, self.path = found[1], parts.port or 0, parts.path
        self.host = f"{parts.hostname}:{self.port}"
        self.open_to_all = "--host" in words

    def __enter__(self) -> Served:
        return self

    def __exit__(self, *_: Any) -> None:
        self.close()

    def close(self) -> int:
        """Ends the server; its status."""
        self.process.terminate()
        status = self.process.wait(SECONDS)
        for stream in (self.process.stdout, self.process.stderr):
            if stream:
                stream.close()
        return status

    def raw(self, data: bytes, pause: float = 0.0, seconds: float = SECONDS) -> Got:
        """The answer to some bytes; with a pause they are sent in two halves."""
        with socket.create_connection(("127.0.0.1", self.port), seconds) as there:
            try:
                if pause:
                    there.sendall(data[: len(data) // 2])
                    time.sleep(pause)
                    there.sendall(data[len(data) // 2 :])
                else:
                    there.sendall(data)
            except OSError:
                pass  # The server may have answered and gone before it had all.
            return read_answer(there)

    def request(self, path: str, method: str = "GET", body: bytes = b"", **headers: str) -> Got:
        """The answer to a request with the headers that a browser sends; `_` in a name stands for `-`."""
        rows = {"Host": self.host, **{name.replace("_", "-"): value for name, value in headers.items()}}
        if method == "POST":
            rows.setdefault("Content-Length", str(len(body)))
        head = "".join(f"{name}: {value}\r\n" for name, value in rows.items() if value)
        return self.raw(f"{method} {path} HTTP/1.1\r\n{head}\r\n".encode("utf-8", "surrogateescape") + body)

    def do(self, form: Any, **headers: str) -> Got:
        """The answer to what the page asks for."""
        body = form if isinstance(form, bytes) else json.dumps(form).encode()
        rows = {"Content_Type": "application/json", "Origin": f"http://{self.host}", "Sec_Fetch_Site": "same-origin"}
        return self.request(f"{self.path}do", "POST", body, **{**rows, **headers})


def read_answer(there: socket.socket) -> Got:
    """All that comes back on a connection."""
    data = b""
    try:
        while True:
            more = there.recv(1 << 16)
            if not more:
                break
            data += more
    except OSError:
        pass
    head, _, body = data.partition(b"\r\n\r\n")
    status = re.match(rb"HTTP/1\.1 (\d{3}) ", head)
    return Got(int(status[1]) if status else 0, head.decode("latin-1"), body)


def program(text: str, name: str = "mine.asm") -> list[dict[str, str]]:
    """The sources of a request."""
    return [{"name": name, "text": text}]
