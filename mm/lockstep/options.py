"""The words of `tools/lockstep`."""

from __future__ import annotations

import argparse
import sys
from typing import Sequence

from mm.formats.schedule import MOST
from mm.lockstep.code import operations_in
from mm.lockstep.programs import IMAGE

ABOUT = """\
Runs two programs side by side on random images, mmachine and yours, compares their commit logs turn by turn as they
come, and stops at the first difference. Then it makes the case small while the two still differ in the same way, keeps its
image and its schedule as files, and tells both sides with the instruction and what it reads."""
COMMAND = """\
COMMAND.. is your program. In its words {image}, {cycles} and {schedule} stand for the name of an image file, a number,
and the name of a schedule file. It writes its commit log (docs/COMMITS.md) to the standard output. It may leave out the
report at the end, and in the report the line of counts.

Cases are numbered, and a case depends on its seed and its number alone. The exit status is 0 if all cases are the same,
1 if one differs, and 2 if a program cannot be run or the words are wrong. docs/HARDWARE.md tells more."""


def parser() -> argparse.ArgumentParser:
    found = argparse.ArgumentParser(
        prog="tools/lockstep",
        usage="tools/lockstep [OPTIONS] COMMAND..\n       tools/lockstep --logs FOLDER | --tally | --write FOLDER [OPTIONS]",
        description=ABOUT,
        epilog=COMMAND,
        formatter_class=argparse.RawDescriptionHelpFormatter,
    )
    add = found.add_argument
    add("--seed", type=int, default=1, metavar="N", help="another series of cases; default: 1")
    add("--first", type=int, default=0, metavar="N", help="the number of the first case; else 0")
    add("--count", type=int, default=100, metavar="N", help="how many cases; else 100")
    add("--operations", metavar="LIST", help="cases that carry out these operations alone: halt,ldi,add")
    add("--plain", action="store_true", help="cases without split machines")
    add("--jobs", type=int, default=1, metavar="N", help="how many cases at a time; else 1")
    add("--all", action="store_true", help="go on after a difference, and tell which cases differ")
    add("--whole", action="store_true", help="leave the image and the schedule of a difference as they are")
    add("--tries", type=int, default=600, metavar="N", help="how often both run to make a difference small; else 600")
    add("--follow", action="store_true", help="your program decides the order of turns")
    add("--image", metavar="FILE", help="this image alone, in place of random ones")
    add("--schedule", metavar="FILE", help="the schedule of --image; else round robin")
    add("--cycles", type=int, default=10_000, metavar="N", help="how many cycles of --image at most; else 10000")
    add("--keep", default=".", metavar="FOLDER", help="where the files of a difference go; else this folder")
    add("--seconds", type=int, default=60, metavar="N", help="after how long a program is stopped; else 60")
    add("--model", metavar="FILE", help="which mmachine; else $MMACHINE, this checkout's, or that on the path")
    add("--write", metavar="FOLDER", help="write the images and schedules of the cases, and run nothing")
    add("--hex", action="store_true", help="with --write: write their texts for Verilog's $readmemh too")
    add("--logs", metavar="FOLDER", help="in place of a command: take the logs NAME.log from a folder")
    add("--skip-lines", action="append", default=[], metavar="TEXT", help="skip lines that begin so, beside # - and %%")
    add("--progress", action="store_true", default=sys.stderr.isatty(), help="say now and then how far it is")
    add("--json", metavar="FILE", help="write what came of each case as JSON")
    add("--junit", metavar="FILE", help="write it as the XML of JUnit")
    add("--tally", action="store_true", help="run the model alone, and count operations by outcomes")
    add("command", nargs=argparse.REMAINDER, metavar="COMMAND", help=argparse.SUPPRESS)
    return found


def read_options(given: Sequence[str]) -> argparse.Namespace:
    """The options; words that are wrong end the program."""
    made = parser()
    options = made.parse_args(list(given))
    if options.command[:1] == ["--"]:
        del options.command[0]
    alone = options.tally or options.write is not None
    if [bool(options.command), alone, options.logs is not None].count(True) != 1:
        made.error("say which program to compare with, or --logs, --tally or --write")
    options.whole = options.whole or options.logs is not None
    if options.command and not options.whole and not any(IMAGE in word for word in options.command):
        made.error(f"no word of the command has {IMAGE}")
    if options.schedule and not options.image:
        made.error("--schedule belongs to --image")
    if options.image and (options.plain or options.operations is not None):
        made.error("--operations and --plain belong to random cases")
    if options.operations is not None:
        try:
            options.operations = operations_in(options.operations)
        except ValueError as error:
            made.error(str(error))
    if min(options.jobs, options.seconds) < 1 or min(options.count, options.first, options.tries) < 0:
        made.error("a number is out of its range")
    if not 0 <= options.cycles <= MOST:
        made.error(f"--cycles is 0 to {MOST}")
    return options
