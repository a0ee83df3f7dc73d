"""Grades one answer in a process of its own, which has limits of time and memory and a folder of its own.

The process is given JSON on its standard input: the sheet's text, and the answer's files as bytes. It writes JSON: the
marks, or why the answer is refused. It opens no file of an answer, and Clang, if it is wanted, sees only the answer and
the headers of `mm` and its own."""

from __future__ import annotations

import base64
import json
import os
import re
import signal
import subprocess
import sys
import tempfile
from dataclasses import dataclass, field
from typing import IO, Any, Optional

from mm.cc import cache
from mm.grading.answers import Answer
from mm.grading.sheet import Sheet
from mm.machine.program import CHECKOUT
from mm.records import replace
from mm.status import Refused, Status, Stop

# What an answer may take: seconds of processor of each process, seconds of the clock for all of it, bytes of memory,
# and bytes of a file that is written.
SECONDS, CLOCK, MEMORY, FILE = 60, 120, 4 << 30, 64 << 20
# How many bytes of its errors are looked at.
SHOWN = 500
START = "import sys; sys.path.insert(0, sys.argv[1]); from mm.grading.worker import main; main()"
# What the process has of the surroundings.
KEPT = ("PATH", "LANG", "LC_ALL", "MM_CLANG", "LD_LIBRARY_PATH")
# The folder of the process's own folder that has an answer in C.
ANSWER_FOLDER = "answer"


@dataclass(frozen=True)
class Line:
    """A mark as it is told: what was asked, whether it is so, and what is so in its place."""

    asked: str
    right: bool
    why: str = ""


@dataclass
class Graded:
    """An answer with its marks, or with the lines that say why it is refused."""

    name: str
    lines: list[Line] = field(default_factory=list)
    refused: list[str] = field(default_factory=list)
    status: int = Status.DONE

    @property
    def points(self) -> int:
        return sum(line.right for line in self.lines)


def grade(
    sheet: Sheet, text: str, answer: Answer, program: str, options: dict[str, list[str]], seed: int
) -> Graded:
    """The marks of an answer. `text` is that of the sheet, `options` are the words of the command for C, and `seed`
    draws inputs."""
    if answer.refused:
        return Graded(answer.name, refused=[answer.refused], status=Status.REFUSED)
    request = {
        "sheet": [sheet.name, text, os.path.abspath(sheet.folder)],
        "files": [[name, base64.b64encode(data).decode()] for name, data in answer.files],
        "program": program,
        "options": options,
        "seed": seed,
    }
    with tempfile.TemporaryDirectory(prefix="mm-") as room:
        said = _ask(json.dumps(request).encode(), room)
    if isinstance(said, str):
        return Graded(answer.name, refused=[said], status=Status.REFUSED)
    if said.get("sheet"):
        raise Stop(Status.REFUSED, *said["lines"])
    lines = [Line(*line) for line in said.get("marks", [])]
    return Graded(answer.name, lines, said.get("lines", []), said["status"])


def _ask(request: bytes, room: str) -> dict[str, Any] | str:
    """What the process says, or why it says nothing."""
    told = {name: os.environ[name] for name in KEPT if name in os.environ}
    told[cache.VARIABLE] = cache.folder() or ""
    command = [sys.executable, "-I", "-c", START, CHECKOUT]
    # A file, so that the limit of the process counts for what it writes there.
    errors = tempfile.TemporaryFile()
    process = subprocess.Popen(
        command, stdin=subprocess.PIPE, stdout=subprocess.PIPE, stderr=errors, cwd=room,
        env={**told, "TMPDIR": room, "HOME": room}, start_new_session=True,
    )  # fmt: skip
    try:
        out, _ = process.communicate(request, timeout=CLOCK)
        last = _last_line(errors)
    except subprocess.TimeoutExpired:
        return f"it takes more than {CLOCK} seconds"
    finally:
        _end(process)
        errors.close()
    if process.returncode in (-signal.SIGXCPU, -signal.SIGKILL):
        return f"it takes more than {SECONDS} seconds of processor"
    try:
        said: dict[str, Any] = json.loads(out)
        return said
    except ValueError:
        ended = f"the process that grades it ended with {process.returncode}{f': {last}' if last else ''}"
        told_of = f"it could not be graded, by a fault of `mm` and not of the answer: {ended}"
        return {"status": int(Status.OWN_FAULT), "lines": [told_of]}


def _last_line(errors: IO[bytes]) -> str:
    """The last line of a file of errors, without the folders that it names."""
    errors.seek(max(0, errors.seek(0, os.SEEK_END) - SHOWN))
    lines = [line.strip() for line in errors.read().decode("utf-8", "replace").splitlines() if line.strip()]
    return "".join(letter for letter in re.sub(r"\S*/", "", lines[-1]) if letter.isprintable()) if lines else ""


def _end(process: subprocess.Popen[bytes]) -> None:
    """Ends what is left of a process and of those that it started."""
    try:
        os.killpg(process.pid, signal.SIGKILL)
    except OSError:
        pass
    process.wait()
    for stream in (process.stdin, process.stdout):
        if stream:
            stream.close()


# In the process.


def _limit() -> None:
    """Takes the limits on, as far as those of the surroundings allow."""
    import resource

    limits = ((resource.RLIMIT_CPU, SECONDS), (resource.RLIMIT_AS, MEMORY), (resource.RLIMIT_FSIZE, FILE))
    for what, most in (*limits, (resource.RLIMIT_CORE, 0)):
        _, hard = resource.getrlimit(what)
        bound = most if hard == resource.RLIM_INFINITY else min(most, hard)
        resource.setrlimit(what, (bound, bound))


def _built(console: Any, request: dict[str, Any]) -> Any:
    """The program of an answer."""
    named, datas = [], []
    for name, coded in request["files"]:
        data = base64.b64decode(coded)
        if name.endswith(".c"):
            name, data = name + ".asm", _translated(console, name, data)
        named.append(name)
        datas.append(data)
    return console.workshop.build_of(named, datas)


def _translated(console: Any, name: str, data: bytes) -> bytes:
    """The source of an answer in C. Clang is shown a folder that has it alone, and the folders of headers."""
    from mm.cc.clang import INCLUDE
    from mm.cc.driver import source_of

    place = os.path.join(os.getcwd(), ANSWER_FOLDER)
    os.makedirs(place, exist_ok=True)
    path = os.path.join(place, os.path.basename(name))
    with open(path, "wb") as file:
        file.write(data)
    folders = {place: {os.path.basename(name): path}}
    for top in (INCLUDE, os.path.join(_resources(), "include")):
        for folder, _, names in os.walk(top):
            folders[os.path.abspath(folder)] = {each: os.path.join(folder, each) for each in names}
    roots = [
        {"name": folder, "type": "directory", "contents": [
            {"name": each, "type": "file", "external-contents": path} for each, path in files.items()]}
        for folder, files in folders.items()
    ]  # fmt: skip
    overlay = {"version": 0, "case-sensitive": "true", "fallthrough": False, "roots": roots}
    there = console.workshop.keep(json.dumps(overlay).encode(), ".yaml")
    options = console.workshop.options
    flags = [*options.flags, "-ivfsoverlay", there, "-fno-modules"]
    source: str = source_of([path], replace(options, flags=flags, lines=False))
    return source.encode("latin-1", "replace")


def _resources() -> str:
    """The folder of Clang's own headers."""
    from mm.cc.clang import find_clang

    words = [find_clang(), "-print-resource-dir"]
    return subprocess.run(words, capture_output=True, text=True, check=True).stdout.strip()


def _said(request: dict[str, Any]) -> dict[str, Any]:
    """What is said of an answer."""
    from mm.console import Console
    from mm.grading.marks import marks
    from mm.grading.sheet import read_sheet
    from mm.table import PROGRAM
    from mm.words import Words

    console = Console(Words(values={**request["options"], PROGRAM.name: [request["program"]]}))
    try:
        sheet = read_sheet(*request["sheet"])
        try:
            built = _built(console, request)
        except Stop as stop:
            return {"status": int(stop.status), "lines": _without_folders(_lines_of(stop))}
        try:
            found = marks(console, built, sheet, request["seed"])
        except Refused as stop:
            return {"status": int(stop.status), "lines": _without_folders(_lines_of(stop))}
        except Stop as stop:
            return {"status": int(stop.status), "lines": _lines_of(stop), "sheet": True}
        return {"status": 0, "marks": [[one.expectation.text, one.right, one.why_not or ""] for one in found]}
    finally:
        console.close()


def _lines_of(stop: Stop) -> list[str]:
    """What a message says, without colours."""
    from mm.views.style import Style

    lines = list(stop.lines)
    if isinstance(stop, Refused):
        lines += [line for one in stop.diagnostics for line in one.render(Style(False))]
    return lines


def _without_folders(lines: list[str]) -> list[str]:
    """Lines without the folders of this process and of this machine."""
    for folder in (f"{os.getcwd()}/{ANSWER_FOLDER}/", f"{os.getcwd()}/", f"{CHECKOUT}/"):
        lines = [line.replace(folder, "") for line in lines]
    return lines


def main() -> None:
    """Reads a request, and writes what is said."""
    request = json.loads(sys.stdin.buffer.read())
    _limit()
    said: Optional[dict[str, Any]] = None
    try:
        said = _said(request)
    except MemoryError:
        said = {"status": int(Status.NO_MEMORY), "lines": [f"it takes more than {MEMORY >> 30} GiB of memory"]}
    except RecursionError:
        said = {"status": int(Status.REFUSED), "lines": ["it is nested too deeply to be read"]}
    print(json.dumps(said))
