"""Requests of HTTP/1.1 from a stream, and answers to them: one for each connection. Nothing here knows of programs or
files.

A path is only ever compared as it stands: nothing in it is decoded, joined or looked up in a file system."""

from __future__ import annotations

import asyncio
import re
from dataclasses import dataclass, field
from http import HTTPStatus
from typing import Mapping, Optional

MOST_HEAD, HEAD_SECONDS, BODY_SECONDS, SEND_SECONDS = 16_384, 10, 20, 60
FIRST = re.compile(r"([A-Z]{1,16}) (/[!-~]{0,2000}) HTTP/1\.[01]")
HEADER = re.compile(r"([!#$%&'*+.^_`|~0-9A-Za-z-]{1,100}):[ \t]*([ -~]*?)[ \t]*")
LENGTH = re.compile(r"[0-9]{1,10}")
ONCE = ("host", "origin", "content-length", "content-type", "transfer-encoding", "sec-fetch-site")
# What each answer says to the browser: no other page may use it, nothing is kept, and a page takes nothing from
# elsewhere.
ALWAYS = {
    "Cache-Control": "no-store",
    "Connection": "close",
    "Cross-Origin-Opener-Policy": "same-origin",
    "Cross-Origin-Resource-Policy": "same-origin",
    "Referrer-Policy": "same-origin",
    "X-Content-Type-Options": "nosniff",
    "X-Frame-Options": "SAMEORIGIN",
}


class BadRequest(Exception):
    """A request that is not one of HTTP, or too long or too slow: its status, and why."""

    def __init__(self, status: int, why: str) -> None:
        super().__init__(why)
        self.status = status


@dataclass(frozen=True)
class Request:
    """A request: its method, its path as it stands, its headers by their names in small letters, and its body."""

    method: str
    path: str
    headers: Mapping[str, str]
    body: bytes = b""


@dataclass(frozen=True)
class Answer:
    """An answer: its status, its type, its bytes, and more headers."""

    status: int
    kind: str
    body: bytes
    headers: Mapping[str, str] = field(default_factory=dict)

    @property
    def bytes(self) -> bytes:
        """The answer as it is sent."""
        rows = {"Content-Type": self.kind, "Content-Length": str(len(self.body)), **ALWAYS, **self.headers}
        head = "".join(f"{name}: {value}\r\n" for name, value in rows.items())
        return f"HTTP/1.1 {self.status} {HTTPStatus(self.status).phrase}\r\n{head}\r\n".encode("latin-1") + self.body


def text(status: int, said: str) -> Answer:
    """A line of plain text."""
    return Answer(status, "text/plain; charset=utf-8", (said + "\n").encode())


def read_head(data: bytes) -> Request:
    """The first line and the headers of a request."""
    rows = data.decode("latin-1").split("\r\n")
    first = FIRST.fullmatch(rows[0])
    if first is None:
        raise BadRequest(400, "this is not a request of HTTP/1.1")
    headers: dict[str, str] = {}
    for row in rows[1:]:
        found = HEADER.fullmatch(row)
        if found is None:
            raise BadRequest(400, "a header is not one of HTTP/1.1")
        name = found[1].lower()
        if name in headers and name in ONCE:
            raise BadRequest(400, f"there are two headers {name}")
        headers[name] = found[2]
    return Request(first[1], first[2], headers)


def length_of(request: Request, most: int) -> int:
    """How many bytes the body has."""
    if "transfer-encoding" in request.headers:
        raise BadRequest(411, "say the length of the body")
    said = request.headers.get("content-length")
    if said is None:
        if request.method == "POST":
            raise BadRequest(411, "say the length of the body")
        return 0
    if not LENGTH.fullmatch(said):
        raise BadRequest(400, "the length of the body is not a number")
    if int(said) > most:
        raise BadRequest(413, f"the request is longer than {most} bytes, which is the limit here")
    return int(said)


async def read_request(reader: asyncio.StreamReader, most: int) -> Optional[Request]:
    """The request that a connection makes; none where it makes none."""
    try:
        head = await asyncio.wait_for(reader.readuntil(b"\r\n\r\n"), HEAD_SECONDS)
    except asyncio.IncompleteReadError as cut:
        if not cut.partial:
            return None
        raise BadRequest(400, "the request ends too early") from None
    except asyncio.LimitOverrunError:
        raise BadRequest(431, "the headers are too long") from None
    except asyncio.TimeoutError:
        raise BadRequest(408, "the request comes too slowly") from None
    request = read_head(head[:-4])
    length = length_of(request, most)
    try:
        body = await asyncio.wait_for(reader.readexactly(length), BODY_SECONDS)
    except asyncio.IncompleteReadError:
        raise BadRequest(400, "the body ends too early") from None
    except asyncio.TimeoutError:
        raise BadRequest(408, "the request comes too slowly") from None
    return Request(request.method, request.path, request.headers, body)


async def send(writer: asyncio.StreamWriter, answer: Answer, head_alone: bool = False) -> None:
    """Sends an answer, and ends the connection."""
    data = answer.bytes
    writer.write(data[: len(data) - len(answer.body)] if head_alone else data)
    await asyncio.wait_for(writer.drain(), SEND_SECONDS)
