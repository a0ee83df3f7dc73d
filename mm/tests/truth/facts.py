"""What was compared, and what was wrong."""

from __future__ import annotations

import hashlib
import json
import os
import re
import subprocess
from collections import Counter
from typing import Any, Callable, Optional, Union

from mm.machine import program as machine_program
from mm.machine.isa import OPERATIONS
from mm.tests.support import mm

SHOWN = 3
LONGEST = 900
# With which words the lines of a text begin; of those that are not here a text has bytes.
REPORT = "cycles group o slot r pending page cell counts".split()
FIRST_WORDS = {
    "run": REPORT, "continue": REPORT, "solo": REPORT, "net": [*REPORT, "node", "link"], "trace": [*REPORT, "t", "m"],
    "log": [*REPORT, *"t m ip state load event taken out".split()],
    "grants": "group touch write apart".split(),
    "explore": "explored group touched wrote fault by outcome slot o".split(),
    "keeps": "keeps door slot reads writes code cell leak group touch write apart".split(),
    "dis": [*OPERATIONS, *".spare .segment .int .ptr .empty .fill .thread .reg".split()],
    "debug": "stepped stopped back slot r pending cell none no bad break watch bye".split(),
    "holders": "ip reg cell".split(),
}
# The lines of refusals, by their status.
REFUSALS = {
    1: "usage", 3: "read fault", 4: "write fault", 5: "out of memory",
    2: r"file \d+ too long|file \d+ (image|object) fault \d+ at \d+|file \d+ (checkpoint|schedule|links) fault at \d+|no group"
    r"|source fault \d+ at \d+:\d+|link fault \d \S+|crosses slot \d+|held slot \d+|privileged group \d+|no node link \d+",
}


class Facts:
    """Counts facts by their kinds, and keeps the first that are wrong."""

    def __init__(self) -> None:
        self.count: Counter[str] = Counter()
        self.wrong: dict[str, list[str]] = {}
        self.case = ""

    def check(self, kind: str, right: Any, what: Union[Callable[[], Any], Any] = "") -> None:
        self.count[kind] += 1
        if not right:
            said = what() if callable(what) else what
            self.wrong.setdefault(kind, []).append(f"{self.case}: {str(said)[:LONGEST]}")

    def lines(self) -> list[str]:
        """What was wrong."""
        found = []
        for kind, wrong in sorted(self.wrong.items()):
            found.append(f"{len(wrong)} of {self.count[kind]} are wrong: {kind}")
            found += [f"    {each}" for each in wrong[:SHOWN]]
        return found


def misfit(command: str, status: int, out: bytes, err: bytes) -> bool:
    """Whether the program cannot have ended so."""
    if status:
        line = re.fullmatch(rb"mmachine: (.*)\n", err)
        return bool(out) or not line or not re.fullmatch(REFUSALS.get(status, ""), line[1].decode("latin-1"))
    lines = out.decode("latin-1").split("\n")
    if command == "why":
        return bool(err) or lines.pop() != "" or lines != ["no"] and [line.split(" ")[0] for line in lines] != [
            str(number) for number in range(1, len(lines) + 1)
        ]
    if command in ("link", "extract", "migrate"):  # images
        return bool(err) or out[:4] != b"MMI1" or len(out) != 16 + 142 * int.from_bytes(out[6:8], "big") + 4232 * int.from_bytes(out[10:12], "big")
    if command not in FIRST_WORDS:
        return bool(err)
    return bool(err) or lines.pop() != "" or not {line.split(" ")[0] for line in lines} <= set(FIRST_WORDS[command])


class Watched:
    """Stands in the place of `subprocess` between those who ask the program and it: what the program writes has its form,
    and to the same words, files and input it writes the same again."""

    PIPE, DEVNULL = subprocess.PIPE, subprocess.DEVNULL

    def __init__(self, facts: Facts) -> None:
        self.facts, self.known = facts, dict[bytes, tuple[int, bytes, bytes]]()

    def run(self, args: list[str], **how: Any) -> Any:
        key = hashlib.sha256(how.get("input") or b"")
        for word in args[1:]:
            data = word.encode()
            if os.path.isfile(word):
                with open(word, "rb") as file:
                    data = file.read()
            key.update(hashlib.sha256(data).digest())
        ended = subprocess.run(args, **how)
        out = ended.stdout
        if out is None:
            how["stdout"].seek(0)
            out = how["stdout"].read()
        answer = ended.returncode, out, ended.stderr or b""
        if misfit(args[1], *answer):
            self.facts.check("answers have their form", False, (args, answer))
        if self.known.setdefault(key.digest(), answer) != answer:
            self.facts.check("answers are the same again", False, (args, answer))
        return ended


class Asking:
    """The program and `mm`, asked the same."""

    def __init__(self, program: str, facts: Facts, room: str) -> None:
        self.program, self.facts, self.room = program, facts, room
        self.watched = Watched(facts)
        setattr(machine_program, "subprocess", self.watched)

    def raw(self, *words: object, data: bytes = b"") -> str:
        """What the program writes."""
        ended = self.watched.run([self.program, *map(str, words)], input=data, capture_output=True, check=False)
        self.facts.check(f"mmachine {words[0]}", ended.returncode == 0, lambda: (words, ended.stderr))
        return ended.stdout.decode("latin-1")

    def mm(self, *words: object, lines: Optional[str] = None) -> str:
        """What `mm` writes."""
        ended = mm("--program", self.program, *map(str, words), lines=lines)
        self.facts.check(f"mm {words[0]}", ended.status == 0, lambda: (words, ended.err))
        return ended.out

    def form(self, *words: object) -> Any:
        """What `mm` writes with --json."""
        return json.loads(self.mm(*words, "--json"))

    def file(self, name: str, data: bytes) -> str:
        path = os.path.join(self.room, name)
        with open(path, "wb") as file:
            file.write(data)
        return path
