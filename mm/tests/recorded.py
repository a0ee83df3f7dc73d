"""Sessions of `mm lsp` and `mm dap` as they were recorded: lines `> MESSAGE` that an editor sends, and `< MESSAGE` that come
back. `@TOP` stands for the folder of this checkout."""

from __future__ import annotations

import io
import json
import os
import shutil
import subprocess
import sys
from itertools import zip_longest
from typing import Any, Iterator, Optional, Sequence

from mm.lsp.frames import read_message, write_message
from mm.machine.program import CHECKOUT

FOLDER = os.path.join(CHECKOUT, "mm", "tests", "sessions")
TOP, SECONDS = "@TOP", 300
Json = Any


def names() -> list[str]:
    """The sessions: what begins with `lsp` is of the language server, what begins with `dap` of the debug adapter."""
    return sorted(name[:-4] for name in os.listdir(FOLDER) if name.endswith(".txt"))


def lines_of(name: str) -> list[str]:
    with open(os.path.join(FOLDER, f"{name}.txt"), encoding="utf-8") as file:
        return file.read().splitlines()


def rows(lines: Sequence[str], mark: str) -> list[str]:
    """The messages of one side, as they stand."""
    return [line[2:] for line in lines if line.startswith(mark)]


def play(name: str, sent: Sequence[str]) -> tuple[int, list[str]]:
    """What comes back if messages are sent: the status, and the messages, with the checkout's folder taken out."""
    given = io.BytesIO()
    for row in sent:
        write_message(given, json.loads(row.replace(TOP, CHECKOUT)))
    words = [sys.executable, os.path.join(CHECKOUT, "bin", "mm"), name.split("-")[0]]
    ended = subprocess.run(words, input=given.getvalue(), capture_output=True, cwd=CHECKOUT, timeout=SECONDS,
        check=False)
    return ended.returncode, [json.dumps(each).replace(CHECKOUT, TOP) for each in messages(ended.stdout)]


def messages(data: bytes) -> Iterator[Json]:
    stream = io.BytesIO(data)
    while True:
        message = read_message(stream)
        if message is None:
            return
        yield message


def differences(name: str) -> list[str]:
    """What is otherwise than it was recorded."""
    lines = lines_of(name)
    status, came = play(name, rows(lines, ">"))
    pairs = zip_longest(came, rows(lines, "<"))
    found = [f"{name}: {is_so} in place of {wanted}" for is_so, wanted in pairs if is_so != wanted]
    return found + ([f"{name}: it ends with status {status}"] if status else [])


# What Neovim's client is given by `mm lsp`, as sessions/neovim.lua writes it.
BY_NEOVIM = """\
mistake 3 6 10 there is no operation `outt` / hint: do you mean `out`?
mended
hover ldi rd, NUMBER
definition 3
references 2
symbols 1
offer ldi
offer ldhi
offer ld
""".splitlines()


def by_neovim() -> Optional[list[str]]:
    """What Neovim is given otherwise; none where there is no Neovim."""
    program = os.environ.get("NVIM_FOR_TESTS") or shutil.which("nvim")
    if program is None:
        return None
    words = [program, "--headless", "-u", "NONE", "-i", "NONE", "-n", "-c", f"luafile {FOLDER}/neovim.lua"]
    env = {**os.environ, "MM_FOR_TESTS": os.path.join(CHECKOUT, "bin", "mm")}
    ended = subprocess.run(words, capture_output=True, text=True, env=env, timeout=SECONDS, check=False)
    pairs = zip_longest(ended.stdout.splitlines(), BY_NEOVIM)
    return [f"neovim: {is_so!r} in place of {wanted!r}" for is_so, wanted in pairs if is_so != wanted]


def record(name: str) -> None:
    """Writes what comes back now."""
    sent = rows(lines_of(name), ">")
    _, came = play(name, sent)
    kept = [line for line in lines_of(name) if not line.startswith("<")]
    with open(os.path.join(FOLDER, f"{name}.txt"), "w", encoding="utf-8") as file:
        file.write("\n".join([*kept, *(f"< {row}" for row in came)]) + "\n")
