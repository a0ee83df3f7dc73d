"""Clang, which reads C and optimises: its text is what is translated here."""

from __future__ import annotations

import os
import shutil
import subprocess
import sys
from typing import Optional, Sequence

from mm.cc import cache
from mm.cc.alignment import lowered, without_debug
from mm.cc.failures import of_headers
from mm.cc.ir import Module
from mm.cc.parse import read_module
from mm.shown import shown
from mm.status import Status, Stop

VARIABLE = "MM_CLANG"
VERSIONS = range(22, 13, -1)
HERE = os.path.dirname(os.path.abspath(__file__))
INCLUDE = os.path.join(HERE, "include")
LIBRARY = os.path.join(HERE, "runtime")
# A target whose pointers have 64 bits, whose structures are always in memory, and which has no vectors.
TARGET = ("-target", "wasm64-unknown-unknown", "-S", "-emit-llvm", "-o", "-", "-fno-vectorize", "-fno-slp-vectorize",
          "-fno-exceptions", "-fvisibility=default")
# An overflow of an `int` that C does not define wraps around, so that each `int` has a value of its type.
FRONT = ("-nostdlibinc", "-isystem", INCLUDE, "-fwrapv")
# What Clang warns of: that a variable is used before it has a value, and the like. What nothing uses is no mistake, but
# for results that must not be thrown away.
WARNINGS = ("-Wall", "-Wno-unused", "-Wunused-result")
# What a sanitizer finds becomes a trap. Clang would join the traps of a function if it were to optimise, and their
# lines would be lost.
SANITIZE, TRAPPED = "-fsanitize=", ("-fsanitize-trap=all", "-O0", "-Xclang", "-disable-O0-optnone")
# With one of these no overflow wraps around, since that would be no mistake.
OF_OVERFLOW = {"undefined", "signed-integer-overflow", "integer", "all"}
# Clang is asked twice: for its text as it is before it is optimised, and to optimise that.
AS_WRITTEN = ("-Xclang", "-disable-llvm-passes")
OPTIMISED = ("-x", "ir", "-", "-w", "-Qunused-arguments")
# What Clang may take: seconds of processor, seconds of the clock, and bytes of memory.
SECONDS, CLOCK, MEMORY = 60, 600, 8 << 30
NOT_THERE = (
    "mm: C is read by Clang, and there is none.",
    "    Install it: `apt-get install clang` (Debian, Ubuntu), `dnf install clang` (Fedora), `brew install llvm`",
    f"    (macOS); version 14 or later. Or say where it is: `export {VARIABLE}=FILE`.",
)


class NoC(Stop):
    """A file that Clang does not take, with Clang's own messages."""


def find_clang() -> str:
    named = os.environ.get(VARIABLE)
    names = [named] if named else ["clang", *[f"clang-{version}" for version in VERSIONS]]
    for name in names:
        path = shutil.which(name)
        if path:
            return path
    raise Stop(Status.NO_PROGRAM, *NOT_THERE)


def _bound() -> None:
    """Bounds what Clang may take, where the system can: a file of C can ask for any amount of it."""
    import resource

    for what, most in ((resource.RLIMIT_CPU, SECONDS), (resource.RLIMIT_AS, MEMORY)):
        _, hard = resource.getrlimit(what)
        bound = most if hard == resource.RLIM_INFINITY else min(most, hard)
        resource.setrlimit(what, (bound, hard))


def _run(words: Sequence[str], text: Optional[str] = None, warns: bool = False) -> str:
    """What Clang writes, given words and, it may be, a text. Its warnings are shown where that is wanted."""
    given = text.encode("utf-8", "surrogateescape") if text is not None else b""
    try:
        ended = subprocess.run(
            [find_clang(), *TARGET, *words], input=given, stdout=subprocess.PIPE, stderr=subprocess.PIPE, check=False,
            timeout=CLOCK, preexec_fn=_bound if os.name == "posix" else None,
        )
    except subprocess.TimeoutExpired:
        raise NoC(Status.REFUSED, f"mm: Clang was stopped: it took more than {CLOCK} seconds") from None
    said = ended.stderr.decode("utf-8", "replace").rstrip()
    if ended.returncode < 0:
        raise NoC(Status.REFUSED, *said.splitlines()[:4],
                  f"mm: Clang was stopped: it may take {SECONDS} seconds and {MEMORY >> 30} GiB of memory")
    if ended.returncode:
        raise NoC(Status.REFUSED, *said.splitlines(), *of_headers(said))
    if said and warns:
        print(*map(shown, said.splitlines()), sep="\n", file=sys.stderr)
    return ended.stdout.decode("utf-8", "surrogateescape")


def as_file(path: str) -> str:
    """A path that Clang takes for a file: an absolute one, since a name that begins with a dash would be an option. Clang reads
    the last part of a path as a word too, and a word that begins with an at sign names a file of options."""
    if os.path.basename(path).startswith("@"):
        raise NoC(Status.REFUSED, f"mm: {path}: Clang would take this name for options: give the file another one, without `@`")
    return os.path.abspath(path)


def text_of(path: str, level: str = "1", more: Sequence[str] = (), lines: bool = False) -> str:
    """LLVM's text of a file, with its lines and the names of its locals where these are wanted."""
    names = ["-fno-discard-value-names"] if lines else []
    full = as_file(path)
    front = [*FRONT, *(WARNINGS if lines else ()), *_told_as(path, full), "-g", *names, f"-O{level}",
             *_sanitized(more), *more, *([] if level == "0" else AS_WRITTEN)]
    text = lowered(_run([*front, full], warns=lines), lines)
    if level == "0":
        return text
    optimised = _run([*names, f"-O{level}", *more, *OPTIMISED], text)
    # What is made of loops takes its lines from what is said of these.
    return optimised if lines else "\n".join(without_debug(optimised.splitlines())) + "\n"


def _sanitized(more: Sequence[str]) -> list[str]:
    """The words of Clang that go before those that were given, if these ask for a sanitizer."""
    asked = {kind for word in more if word.startswith(SANITIZE) for kind in word[len(SANITIZE):].split(",")}
    return [*(["-fno-wrapv"] if asked & OF_OVERFLOW else []), *(TRAPPED if asked else ())]


def _told_as(path: str, full: str) -> list[str]:
    """How C's `__FILE__` names a file: as it was named here."""
    old, new = os.path.dirname(full).rstrip("/") + "/", os.path.dirname(path)
    return [] if "=" in old else [f"-fmacro-prefix-map={old}={new and new.rstrip('/') + '/'}"]


def module_of(path: str, level: str = "1", more: Sequence[str] = (), lines: bool = False) -> Module:
    """The module of a file."""
    return read_module(text_of(path, level, more, lines), path)


_LIBRARY: dict[tuple[str, ...], Module] = {}


def library(more: Sequence[str] = ()) -> Module:
    """The library, read once in a process, and translated by Clang once on a machine."""
    key = (find_clang(), *more)
    found: Optional[Module] = _LIBRARY.get(key)
    if found is None:
        path = os.path.join(LIBRARY, "library.c")
        flags = ["-fno-builtin", "-ffreestanding", *more]
        text = cache.text(_library_key(flags), lambda: text_of(path, "2", flags))
        found = _LIBRARY[key] = read_module(text, path)
    return found


def _library_key(flags: Sequence[str]) -> list[bytes]:
    """All that the text of the library depends on: its files, the headers, Clang, its options, and what is changed in
    its text."""
    found = [" ".join([*TARGET, *FRONT, *AS_WRITTEN, *OPTIMISED, *flags]).encode()]
    clang = os.path.realpath(find_clang())
    about = os.stat(clang)
    found.append(f"{clang} {about.st_size} {about.st_mtime_ns}".encode())
    files = [os.path.join(folder, name) for top in (LIBRARY, INCLUDE) for folder, _, names in sorted(os.walk(top))
             for name in sorted(names)]
    for name in [*files, os.path.join(HERE, "alignment.py"), os.path.join(HERE, "clang.py")]:
        with open(name, "rb") as file:
            found += [name.encode(), file.read()]
    return found
