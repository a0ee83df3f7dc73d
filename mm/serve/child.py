"""A process for each request, with a folder of its own: it has limits, and nothing of it is there afterwards."""

from __future__ import annotations

import asyncio
import contextlib
import os
import shutil
import signal
import tempfile
from typing import Callable, NoReturn

from mm.serve.asked import NotAllowed
from mm.serve.limits import Limits

# So many bytes an answer has at most, and so many files a process may have open.
MOST_ANSWER, MOST_OPEN = 64 << 20, 64
KEPT = 3
# The bytes of an answer's length, which comes before it: what a deed has started may hold the pipe open after its end.
LENGTH = 8
SIGNALS = (signal.SIGTERM, signal.SIGHUP, signal.SIGINT, signal.SIGCHLD, signal.SIGPIPE)


def bound(limits: Limits) -> None:
    """Bounds this process and those that it starts. One of C bounds Clang in the same way (mm.cc.clang)."""
    import resource

    for what, most in (
        (resource.RLIMIT_CPU, limits.seconds),
        (resource.RLIMIT_AS, limits.memory),
        (resource.RLIMIT_FSIZE, limits.file),
        (resource.RLIMIT_NOFILE, MOST_OPEN),
        (resource.RLIMIT_CORE, 0),
    ):
        _, hard = resource.getrlimit(what)
        least = most if hard == resource.RLIM_INFINITY else min(most, hard)
        resource.setrlimit(what, (least, least))


def _leave_parent(write: int, room: str) -> None:
    """Gives up all that belongs to the server: its group, its signals, its connections, its folder."""
    os.setsid()
    signal.set_wakeup_fd(-1)
    for number in SIGNALS:
        signal.signal(number, signal.SIG_DFL)
    os.dup2(write, KEPT)
    nothing = os.open(os.devnull, os.O_RDWR)
    for stream in range(3):
        os.dup2(nothing, stream)
    os.closerange(KEPT + 1, os.sysconf("SC_OPEN_MAX") if os.sysconf("SC_OPEN_MAX") < 1 << 16 else 1 << 16)
    os.environ["TMPDIR"] = room
    os.environ["MM_CACHE"] = ""
    tempfile.tempdir = room
    os.chdir(room)


def _child(deed: Callable[[], str], write: int, room: str, limits: Limits) -> NoReturn:
    """Carries a deed out and writes its answer, whatever happens."""
    try:
        _leave_parent(write, room)
        bound(limits)
        data = deed().encode()
        if len(data) > MOST_ANSWER:
            os._exit(3)
        with open(KEPT, "wb") as pipe:
            pipe.write(len(data).to_bytes(LENGTH, "big") + data)
    except MemoryError:
        os._exit(2)
    except BaseException:  # Nothing may get out of here: the caller is the server.
        os._exit(1)
    os._exit(0)


async def _read(pipe: int, seconds: int) -> bytes:
    """The answer that comes through a pipe; nothing if it is cut short."""
    loop = asyncio.get_running_loop()
    reader = asyncio.StreamReader()
    transport, _ = await loop.connect_read_pipe(lambda: asyncio.StreamReaderProtocol(reader), open(pipe, "rb"))
    try:
        async def whole() -> bytes:
            length = int.from_bytes(await reader.readexactly(LENGTH), "big")
            return b"" if length > MOST_ANSWER else await reader.readexactly(length)

        return await asyncio.wait_for(whole(), seconds)
    except asyncio.IncompleteReadError:
        return b""
    finally:
        transport.close()


def _end(process: int) -> int:
    """Ends a process with all that it started; its status."""
    with contextlib.suppress(OSError):
        os.killpg(process, signal.SIGKILL)
    with contextlib.suppress(OSError):
        os.kill(process, signal.SIGKILL)
    return os.waitstatus_to_exitcode(os.waitpid(process, 0)[1])


async def carry_out(deed: Callable[[], str], limits: Limits, rooms: str) -> bytes:
    """The answer of a deed as JSON. `rooms` is the server's folder, in which the deed gets one of its own."""
    room = tempfile.mkdtemp(dir=rooms)
    read, write = os.pipe()
    process = os.fork()
    if process == 0:
        _child(deed, write, room, limits)
    os.close(write)
    late = False
    try:
        data = await _read(read, limits.seconds)
    except asyncio.TimeoutError:
        data, late = b"", True
    finally:
        status = _end(process)
        shutil.rmtree(room, ignore_errors=True)
    if late or status == -signal.SIGXCPU:
        raise NotAllowed(f"this took more than {limits.seconds} seconds, which is the limit here, and was stopped", 413)
    if status == 2:
        raise NotAllowed(f"this took more than {limits.memory >> 30} GiB of memory, which is the limit here", 413)
    if status == 3:
        raise NotAllowed(f"the answer has more than {MOST_ANSWER >> 20} MiB, which is the limit here", 413)
    if not data:
        raise NotAllowed("this ended without an answer: it met a limit of the server, or a fault of `mm`", 500)
    return data
