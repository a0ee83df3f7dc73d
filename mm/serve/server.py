"""The server: which requests there are, who may make them, and how many at once."""

from __future__ import annotations

import asyncio
import contextlib
import hmac
import json
import re
import secrets
import shutil
import tempfile
from typing import Mapping, Optional

from mm.machine.program import Program
from mm.serve import deeds
from mm.serve.asked import Asked, NotAllowed, read_asked
from mm.serve.child import carry_out
from mm.serve.http import MOST_HEAD, Answer, BadRequest, Request, read_request, send, text
from mm.serve.limits import Limits

# Letters of a token that nobody takes for others, and how many.
LETTERS, LONG = "abcdefghjkmnpqrstuvwxyz23456789", 10
OURS = ("127.0.0.1", "localhost", "[::1]")
HOST = re.compile(r"([A-Za-z0-9.-]{1,253}|\[[0-9A-Fa-f:.]{2,45}\])(?::([0-9]{1,5}))?")
JSON = "application/json; charset=utf-8"
DO = "do"


def new_token() -> str:
    return "".join(secrets.choice(LETTERS) for _ in range(LONG))


def refusal(status: int, said: str) -> Answer:
    """A request that is not carried out, in words for the page."""
    return Answer(status, JSON, json.dumps({"refused": said}).encode())


class Server:
    """Answers requests for the files of the page, and carries out what the page asks for."""

    def __init__(self, program: Program, limits: Limits, token: str, files: Mapping[str, Answer], local: bool) -> None:
        self.program, self.limits, self.token, self.files, self.local = program, limits, token, files, local
        self.rooms = tempfile.mkdtemp(prefix="mm-serve-")
        self.places: asyncio.Semaphore  # Made in the loop that serves: before Python 3.10 it belongs to one.
        self.waiting = self.open = 0
        self.port = 0

    def close(self) -> None:
        shutil.rmtree(self.rooms, ignore_errors=True)

    async def listen(self, host: str, port: int) -> asyncio.AbstractServer:
        """Begins to listen; port 0 is any that is free."""
        self.places = asyncio.Semaphore(self.limits.at_once)
        server = await asyncio.start_server(self.connected, host, port, limit=MOST_HEAD)
        self.port = server.sockets[0].getsockname()[1]
        return server

    async def connected(self, reader: asyncio.StreamReader, writer: asyncio.StreamWriter) -> None:
        """Answers the request of a connection, and ends it."""
        self.open += 1
        head_alone = False
        try:
            if self.open > self.limits.connections:
                answer = refusal(503, "too many people are connected: try again in a moment")
            else:
                request = await read_request(reader, self.limits.body)
                if request is None:
                    return
                head_alone = request.method == "HEAD"
                answer = await self.answer(request)
            await send(writer, answer, head_alone)
        except BadRequest as bad:
            with contextlib.suppress(OSError, asyncio.TimeoutError):
                await send(writer, text(bad.status, str(bad)))
        except (OSError, asyncio.TimeoutError, asyncio.CancelledError):
            pass  # The other side has gone, or takes nothing; or the server ends.
        finally:
            self.open -= 1
            writer.close()
            with contextlib.suppress(OSError, asyncio.TimeoutError):
                await asyncio.wait_for(writer.wait_closed(), 5)

    async def answer(self, request: Request) -> Answer:
        """The answer to a request."""
        why = self.stranger(request)
        if why:
            return refusal(403, why)
        token, slash, name = request.path[1:].partition("/")
        if not hmac.compare_digest(token, self.token):
            return text(404,
                "There is nothing here. The address of the page has a word after the `/`: ask who started the server.")
        if name == DO and slash:
            return await self.do(request)
        if request.method not in ("GET", "HEAD"):
            return text(405, "This can only be read.")
        found = self.files.get(name) if slash else None
        if not slash:
            return Answer(301, "text/plain", b"", {"Location": f"/{self.token}/"})
        return found or text(404, "There is nothing of that name.")

    def stranger(self, request: Request) -> str:
        """Why a request is one of another origin; nothing if it is not."""
        host, origin = request.headers.get("host", ""), request.headers.get("origin")
        name = HOST.fullmatch(host)
        if name is None or (self.local and name[1].lower() not in OURS):
            return "the request is for another host"
        if origin is not None and origin.lower() != f"http://{host}".lower():
            return "the request comes from another page"
        site, mode = request.headers.get("sec-fetch-site", "none"), request.headers.get("sec-fetch-mode")
        opened = mode == "navigate" and request.method == "GET"
        return "" if site in ("same-origin", "none") or opened else "the request comes from another page"

    async def do(self, request: Request) -> Answer:
        """Carries out what the page asks for."""
        if request.method != "POST":
            return text(405, "This is asked for by POST.")
        if request.headers.get("content-type", "").split(";")[0].strip().lower() != "application/json":
            return refusal(415, "the request is not JSON")
        try:
            asked = read_asked(request.body, self.limits)
            if not deeds.known(asked.deed):
                raise NotAllowed("there is no such thing to ask for", 404)
            return Answer(200, JSON, await self.in_turn(asked))
        except NotAllowed as no:
            return refusal(no.status, str(no))

    async def in_turn(self, asked: Asked) -> bytes:
        """The answer to a request when there is room for it: so many at once, and so many that wait."""
        if self.waiting >= self.limits.waiting:
            raise NotAllowed("too many ask at once: try again in a moment", 503)
        self.waiting += 1
        try:
            await asyncio.wait_for(self.places.acquire(), self.limits.patience)
        except asyncio.TimeoutError:
            raise NotAllowed("too many ask at once: try again in a moment", 503) from None
        finally:
            self.waiting -= 1
        try:
            return await carry_out(lambda: deeds.carry_out(self.program, asked, self.limits), self.limits, self.rooms)
        finally:
            self.places.release()


def address(host: str, port: int, token: str) -> str:
    """The address of the page, as one types it."""
    return f"http://{f'[{host}]' if ':' in host else host}:{port}/{token}/"


def addresses_of_host(host: str) -> Optional[str]:
    """The address of this machine that others reach it by, where it listens to all."""
    if host not in ("0.0.0.0", "::"):
        return host
    import socket

    try:
        with socket.socket(socket.AF_INET, socket.SOCK_DGRAM) as probe:
            probe.connect(("192.0.2.1", 9))  # Nothing is sent: this only asks which address would be used.
            return str(probe.getsockname()[0])
    except OSError:
        return None
