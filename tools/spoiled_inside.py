"""Runs scripts of the merge check that are written in Python in a process of tools/spoiled itself.

What the program writes of the same words, input and files it writes again. So it is asked once, while the script runs
with the program as it is, and the runs with a spoiled one take from there what it wrote; what was not asked then is
asked. What is asked in other ways than by `subprocess.run`, as at a terminal, and by processes that the script begins,
is done by the stand-in of tools/spoiled, and counted in the same file."""

import concurrent.futures
import contextlib
import hashlib
import multiprocessing
import os
import pickle
import runpy
import stat
import subprocess
import sys

PLAIN = subprocess.run
PIPE, DEVNULL = subprocess.PIPE, subprocess.DEVNULL
FORMS = {"stdin", "stdout", "stderr", "cwd", "text", "encoding", "errors", "universal_newlines", "preexec_fn"}
# Longer texts are not kept.
MOST_KEPT = 4_000_000


class OneByOne:
    """A pool that does one thing after the other, so that the runs have the same order each time."""

    def __init__(self, *_words, **_options):
        pass

    def __enter__(self):
        return self

    def __exit__(self, *_what):
        return False

    @staticmethod
    def map(what, *lists, **_options):
        return map(what, *lists)

    imap = map


def other(byte):
    """Another byte than this one."""
    return b"Y" if byte == b"Z" else b"Z"


def spoiled(way, status, out, diag):
    """A run that is spoiled in a way, as the stand-in of tools/spoiled does it."""
    ways = {
        "none": (status, out, diag),
        "status": (0 if status else 1, out, diag),
        "out-first": (status, other(out[:1]) + out[1:], diag),
        "out-last": (status, out[:-1] + other(out[-1:]), diag),
        "out-cut": (status, out[:-1], diag),
        "out-more": (status, out + b"more\n", diag),
        "out-moved": (status, b"", diag + out),
        "diag-first": (status, out, other(diag[:1]) + diag[1:]),
        "diag-cut": (status, out, diag[:-1]),
        "diag-more": (status, out, diag + b"more\n"),
        "diag-moved": (status, out + diag, b""),
    }
    return ways[way]


def asked(words, folder, given):
    """What decides what the program writes: its words, each file by what is in it, and its input; nothing if a word is
    something else."""
    parts = [given]
    for word in words:
        path = os.path.join(folder or ".", word)
        try:
            kind = os.stat(path).st_mode
        except (OSError, ValueError):
            parts.append(word)
            continue
        if not stat.S_ISREG(kind):
            return None
        with open(path, "rb") as file:
            parts.append(hashlib.sha256(file.read()).digest())
    return tuple(parts)


class Between:
    """Stands between a script and the program, in the place of `subprocess.run`."""

    def __init__(self, here, program, at, way, known):
        self.here, self.program, self.at, self.way, self.known = here, program, at, way, known
        self.stand_in = os.path.join(here, "mmachine")

    def number(self):
        """The number of this run: each has another one, since it has a file of that name."""
        with open(os.path.join(self.here, "count"), encoding="ascii") as file:
            number = int(file.read() or 0)
        while True:
            number += 1
            with contextlib.suppress(FileExistsError):
                os.close(os.open(os.path.join(self.here, f"run.{number}"), os.O_CREAT | os.O_EXCL))
                break
        with open(os.path.join(self.here, "count"), "w", encoding="ascii") as file:
            file.write(f"{number}\n")
        return number

    def is_plain(self, args, how):
        """Whether a call is one that is done here."""
        if not isinstance(args, (list, tuple)) or not args or args[0] != self.stand_in or set(how) - FORMS:
            return False
        out = how.get("stdout")
        is_file = hasattr(out, "fileno") and stat.S_ISREG(os.fstat(out.fileno()).st_mode)
        return (out == PIPE or is_file) and how.get("stdin") in (None, DEVNULL) and how.get("preexec_fn") is None

    def answer(self, words, folder, given):
        """What the program does, from what is known if it is."""
        key = asked(words, folder, given)
        if key in self.known:
            return self.known[key]
        ended = PLAIN([self.program, *words], input=given, stdout=PIPE, stderr=PIPE, cwd=folder, check=False)
        answer = ended.returncode, ended.stdout, ended.stderr
        if key is not None and len(ended.stdout) <= MOST_KEPT:
            self.known[key] = answer
        return answer

    def tell(self, number, status, out, diag, takes_nothing, words):
        """Writes a run down, as the stand-in does."""
        with open(os.path.join(self.here, f"told.{number}"), "w", encoding="utf-8", errors="surrogateescape") as file:
            file.write(f"{number} {status} {len(out)} {len(diag)} {2 * takes_nothing} {' '.join(words)}".replace("\n", " "))

    def run(self, args, *, input=None, capture_output=False, timeout=None, check=False, **how):
        if capture_output:
            how.update(stdout=PIPE, stderr=PIPE)
        if not self.is_plain(args, how):
            return PLAIN(args, input=input, timeout=timeout, check=check, **how)
        is_text = any(how.get(name) for name in ("text", "encoding", "errors", "universal_newlines"))
        given = input.encode(how.get("encoding") or "utf-8") if isinstance(input, str) else bytes(input or b"")
        words, number = [str(word) for word in args[1:]], self.number()
        status, out, diag = self.answer(words, how.get("cwd"), given)
        if self.at == 0:
            error = how.get("stderr")
            self.tell(number, status, out, diag, getattr(error, "name", error) in ("/dev/full", DEVNULL), words)
        elif number == self.at:
            status, out, diag = spoiled(self.way, status, out, diag)
        if how["stdout"] != PIPE:
            how["stdout"].flush()
            os.write(how["stdout"].fileno(), out) if out else None
            out = None
        diag = diag if how.get("stderr") == PIPE else None
        if is_text:
            decoded = [it and it.decode(how.get("encoding") or "utf-8", how.get("errors") or "strict") for it in (out, diag)]
            out, diag = ["" if it == b"" else it and it.replace("\r\n", "\n").replace("\r", "\n") for it in decoded]
        if check and status:
            raise subprocess.CalledProcessError(status, args, out, diag)
        return subprocess.CompletedProcess(args, status, out, diag)


def run_here(words, between):
    """The exit status of a script, given as its words, in this process, which then has to end."""
    subprocess.run = between.run
    multiprocessing.Pool = OneByOne
    concurrent.futures.ProcessPoolExecutor = concurrent.futures.ThreadPoolExecutor = OneByOne
    sys.argv = list(words)
    try:
        if words[0] == "-m":
            sys.argv = list(words[1:])
            sys.path.insert(0, os.getcwd())
            runpy.run_module(words[1], run_name="__main__", alter_sys=True)
        else:
            sys.path.insert(0, os.path.dirname(os.path.abspath(words[0])))
            runpy.run_path(words[0], run_name="__main__")
    except SystemExit as end:
        if isinstance(end.code, str):
            print(end.code, file=sys.stderr)
        return end.code if isinstance(end.code, int) else 1 if end.code else 0
    return 0


def load(path):
    """What was asked before."""
    try:
        with open(path, "rb") as file:
            return pickle.load(file)
    except OSError:
        return {}


def save(path, known):
    with open(path, "wb") as file:
        pickle.dump(known, file)
