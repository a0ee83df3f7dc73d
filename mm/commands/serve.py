"""`mm serve`: the page in which you edit, run and look at programs, from a small web server of its own."""

from __future__ import annotations

import asyncio
import ipaddress
import os
import re
import signal
from typing import Optional

from mm.build import read_file
from mm.console import Console
from mm.limits import TEXT_LIMIT
from mm.names.numbers import number_of
from mm.serve import deeds
from mm.serve.asked import NAME
from mm.serve.limits import ONE_PERSON, Limits, for_class
from mm.serve.page import files_of
from mm.serve.shelf import lessons
from mm.serve.server import OURS, Server, address, addresses_of_host, new_token
from mm.status import SIGNALLED, Status, Stop, usage
from mm.table import HOST, LESSON, PORT, TOKEN, WITH_C

USUAL_PORT, HERE = 8017, "127.0.0.1"
WORD = re.compile(r"[A-Za-z0-9-]{4,64}")


def _number(text: Optional[str], what: str, most: int, default: int) -> int:
    if text is None:
        return default
    number = number_of(text)
    if number is None or not 0 <= number <= most:
        raise usage(f"mm: serve: {what} is a number from 0 to {most}, not `{text}`")
    return number


def is_local(host: str) -> bool:
    """Whether a host is this machine for itself alone."""
    if host in OURS:
        return True
    try:
        return ipaddress.ip_address(host).is_loopback
    except ValueError:
        return False


def given(console: Console) -> list[dict[str, str]]:
    """The sources that the page begins with."""
    found = []
    for path in console.words:
        name, data = os.path.basename(path), read_file(path)
        if not NAME.fullmatch(name):
            raise usage(f"mm: serve: {path}: the page takes sources with names of letters and digits that end with .asm or .c")
        if len(data) > TEXT_LIMIT:
            raise usage(f"mm: serve: {path} is too long for a source")
        found.append({"name": name, "text": data.decode("utf-8", "replace")})
    return found


def limits_of(console: Console, host: str) -> Limits:
    """Those of one person on his own machine, or of a class."""
    if is_local(host):
        return ONE_PERSON
    return for_class(console.said.has(WITH_C))


def with_c(limits: Limits) -> Limits:
    """The same without C where there is no Clang. Where there is, its library is read now and not for each request."""
    from mm.records import replace

    from mm.cc.clang import find_clang, library

    if not limits.c:
        return limits
    try:
        find_clang()
        library()
    except Stop:
        return replace(limits, c=False)
    return limits


async def _serve(console: Console, server: Server, host: str, port: int) -> int:
    try:
        listening = await server.listen(host, port)
    except OSError as error:
        raise Stop(Status.USAGE, f"mm: serve: {host}:{port} cannot be listened to: {error.strerror}",
                   "    another port goes with --port, and --port 0 takes any that is free") from None
    shown = addresses_of_host(host) or host
    console.write([f"The page is at {address(shown, server.port, server.token)}", "It is there until you press Ctrl+C."])
    if not is_local(host):
        limits = server.limits
        console.write([
            f"Whoever has this address can run programs here: {limits.at_once} at once, each for at most {limits.seconds} seconds.",
            "C is taken: see docs/SERVE.md." if limits.c else "C is off.",
        ])
    console.out.flush()
    async with listening:
        ended = await until_signal()
    return Status.DONE if ended == signal.SIGINT else SIGNALLED + ended


async def until_signal() -> int:
    """Waits for one of the signals that end the server, here and not where it comes: that may be in the midst of an
    answer, and asyncio would keep it there."""
    loop = asyncio.get_running_loop()
    ended: asyncio.Future[int] = loop.create_future()

    def end(number: int) -> None:
        if not ended.done():
            ended.set_result(number)

    for number in (signal.SIGINT, signal.SIGTERM, signal.SIGHUP):
        loop.add_signal_handler(number, end, number)
    return await ended


def run(console: Console) -> int:
    host = console.said.value(HOST) or HERE
    port = _number(console.said.value(PORT), "--port", 65_535, USUAL_PORT)
    lesson = _number(console.said.value(LESSON), "--lesson", 99, 0)
    there = [each["number"] for each in lessons()]
    if lesson and lesson not in there:
        raise usage(f"mm: serve: there is no lesson {lesson}: {there[0]} to {there[-1]}" if there else
                    "mm: serve: this `mm` has no lessons beside it")
    token = console.said.value(TOKEN) or new_token()
    if not WORD.fullmatch(token):
        raise usage("mm: serve: --token is a word of 4 to 64 letters, digits and `-`")
    limits = with_c(limits_of(console, host))
    files = files_of(console.program, limits, {"files": given(console), "lesson": lesson})
    deeds.prepare()
    server = Server(console.program, limits, token, files, is_local(host))
    try:
        return asyncio.run(_serve(console, server, host, port))
    finally:
        server.close()
