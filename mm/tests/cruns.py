"""Runs of C programs on the host and on the machine, for the tools that compare them."""

from __future__ import annotations

import os
import subprocess
from dataclasses import dataclass
from typing import Optional, Sequence

from mm.cc.clang import find_clang
from mm.machine.program import Program
from mm.outputs.report import Report, read_report

ABORTED = 134
TRAP, OUTPUT_FULL = 11, 13
CYCLES = 1_000_000
HOST_SECONDS = 10


@dataclass
class Ended:
    """How a program ended: its status, 134 where it gave up by `abort`, and its output."""

    status: int
    output: bytes

    def is_as(self, host: Ended) -> bool:
        """Whether it is the end on the host; of output that was not written yet when it gave up the host loses some."""
        if self.status == host.status == ABORTED:
            return self.output.startswith(host.output)
        return self == host


def on_host(path: str, flags: Sequence[str], made: str) -> Optional[Ended]:
    """How a program ends on the host. None if Clang does not take it, or where it does not end."""
    built = subprocess.run([find_clang(), *flags, "-o", made, path, "-lm"], stdout=subprocess.DEVNULL,
                           stderr=subprocess.DEVNULL, check=False)
    if built.returncode:
        return None
    try:
        ran = subprocess.run([made], stdout=subprocess.PIPE, stderr=subprocess.DEVNULL, timeout=HOST_SECONDS, check=False)
    except subprocess.TimeoutExpired:
        return None
    return Ended(ABORTED if ran.returncode == -6 else ran.returncode & 255, ran.stdout)


class Machine:
    """The built program, with a folder for its files."""

    def __init__(self, program: Program, room: str) -> None:
        self.program, self.room = program, room

    def place(self, name: str) -> str:
        return os.path.join(self.room, name)

    def make(self, words: list[str], name: str) -> str:
        """What stands in the way of a file that the program makes; nothing where it is made."""
        answer = self.program.run(words)
        if not answer.status:
            with open(self.place(name), "wb") as file:
                file.write(answer.out)
        return answer.line if answer.status else ""

    def report_of(self, image: str) -> Report:
        """A run of up to 1,000,000 cycles, and where that is too short one of twice as many, in two pieces."""
        report = read_report(self.program.run(["run", image, str(CYCLES)]).text.splitlines())
        if report.slots[0].running:
            self.make(["save", image, str(CYCLES)], "saved")
            answer = self.program.run(["continue", image, self.place("saved"), str(CYCLES)])
            report = read_report(answer.text.splitlines())
        return report

    def run(self, source: str) -> tuple[Optional[Ended], str]:
        """How a source ended, or why it did not."""
        path, image = self.place("test.asm"), self.place("test.img")
        with open(path, "w", encoding="latin-1", errors="replace") as file:
            file.write(source)
        why = self.make(["asm", path], "test.obj") or self.make(["link", self.place("test.obj")], "test.img")
        if why:
            return None, why
        report = self.report_of(image)
        if report.slots[0].fault == OUTPUT_FULL:
            self.make(["migrate", image, "plain"], "plain.img")
            report = self.report_of(self.place("plain.img"))
        slot, output = report.slots[0], report.outputs.get(0, b"")
        if slot.running:
            return None, f"more than {2 * CYCLES} cycles"
        if slot.fault == OUTPUT_FULL:
            return None, "more than 65536 bytes of output"
        if slot.fault == TRAP:
            return Ended(ABORTED, output), ""
        if slot.fault:
            return None, f"fault {slot.fault}"
        word = slot.register(0)
        return Ended((word.bits if word else 0) & 255, output), ""
