"""The runs that tools/hostile tries: each command, over small files and over long ones, and some that are refused.

To add a command, add a line to `SMALL` and one to `LONG`: tools/hostile says so if a command of docs/COMMANDS.md has
none. A word like `{counter.obj}` is a file of `MADE`, which is made of other files by the program, or of `TEXTS`."""

import re
import shlex

PIECE = 65_536  # bytes that a read asks for
LINKS_MOST = 65_536

# The words of which a file is the text, in an order in which they can be made.
MADE = {
    "counter.obj": "asm examples/counter.asm",
    "letterbox.obj": "asm examples/letterbox.asm",
    "more.obj": "asm {more.asm}",
    "counter.ck": "save examples/counter.img 7",
    "split.img": "migrate examples/split.img split",
    "split.ck": "save {split.img} 9 examples/split.schedule",
    "long.img": "gen 7 16",
    "long.ck": "save {long.img} 9",
    "long.obj": "asm {long.asm}",
}

# Texts of which something stands past the first piece that is read.
GAP = b" " * PIECE
LINES = b"break 0 0x100008\nwatch 0x100200\nrun\nregs 0\nmem 0x100000 4\nrun\nstep 3\nback 4\nstep 2\n"
LINES += b"regs 20\njump\nquit\n"
LINK = b"0.1052672>1.1052672"
SOURCE = b".segment long 17\n.fill 9000\n;" + GAP
SOURCE += b"\n.segment code 4\n  nop\n  halt\n.thread 7 0 none xu code\n"
TEXTS = {
    "away.links": b"0.8>2.8\n",
    "long.schedule": b"0 1*3 15" + GAP + b"2*4 0*2 128\n",
    "long.links": LINK + b"\n#" + b" " * (LINKS_MOST - len(LINK) - 3) + b"\n",
    "long.events": b"0:0 +0" + GAP + b"1:1*3 0@0\n",
    "long.asm": SOURCE,
    "more.asm": b".segment more 4\n  halt\n.thread 5 1 none xu more\n",
}
LONG_INPUT = b"step 1\n" * 1200 + GAP + b"\nregs 0\nback 7\nregs 0\n"

SMALL = """
run examples/hello.img 10
run examples/letterbox.img 100 examples/letterbox.schedule
run examples/counter.img 10000
run examples/sweeper.img 1000
run {split.img} 100 examples/split.schedule
trace examples/counter.img 100
trace examples/counter.img 100 examples/counter.schedule
log examples/counter.img 100
log examples/counter.img 100 examples/counter.schedule
log {split.img} 100 examples/split.schedule
solo examples/counter.img 0 6 examples/counter.schedule
grants examples/counter.img
grants examples/letterbox.img 0,1
explore examples/hello.img 100
explore examples/letterbox.img 2000
why examples/counter.img 0 1048576 touch
why examples/kernel.img 0 1048576 write
keeps examples/counter.img 10000 1048768/6,1048840/3
keeps examples/kernel.img 10000 1048832/3
extract examples/letterbox.img 1
asm examples/counter.asm
link {counter.obj}
link {counter.obj} {more.obj}
dis {counter.obj}
gen 7 2
soak 7 2 1000
migrate examples/letterbox.img split
holders examples/counter.img 1048832 8
sweep examples/letterbox.img 1049088 3
debug examples/letterbox.img
debug examples/counter.img examples/counter.schedule
save examples/letterbox.img 5
save examples/counter.img 4 examples/counter.schedule
save {split.img} 9 examples/split.schedule
continue examples/counter.img {counter.ck} 100
continue examples/counter.img {counter.ck} 3 examples/counter.schedule
continue {split.img} {split.ck} 30
net examples/nodes.links examples/nodes.events 1000 examples/ask.img examples/answer.img
"""

LONG = """
run {long.img} 50 {long.schedule}
trace {long.img} 50 {long.schedule}
log {long.img} 50 {long.schedule}
solo {long.img} 0 50 {long.schedule}
grants {long.img} 0
explore {long.img} 5
why {long.img} 0 1048576 touch
keeps {long.img} 200 0/54
extract {long.img} 0
asm {long.asm}
link {long.obj} {counter.obj}
dis {long.obj}
gen 7 16
soak 7 16 1000
migrate {long.img} split
holders {long.img} 1048832 8
sweep {long.img} 1052672 3
debug {long.img} {long.schedule}
save {long.img} 5 {long.schedule}
continue {long.img} {long.ck} 50 {long.schedule}
net {long.links} {long.events} 100 {long.img} {long.img}
"""

REFUSED = """
run examples/hello.img
run examples/hello.img 10 examples/hello.img
run examples/hello.asm 10
solo examples/letterbox.img 7 10 examples/letterbox.schedule
explore examples/hello.img 0
why examples/hello.img 0 12 touch
keeps examples/hello.img 10 8/3,8/3
keeps examples/hello.asm 10 8/3
asm examples/hello.img
link {counter.obj} {letterbox.obj} {letterbox.obj}
dis examples/hello.img
sweep examples/letterbox.img 1048576 8
continue examples/counter.img {spoiled.ck} 3
net {away.links} examples/nodes.events 10 examples/ask.img examples/answer.img
net examples/nodes.events examples/nodes.events 10 examples/ask.img
net examples/nodes.links examples/nodes.links 10 examples/ask.img examples/answer.img
"""


def commands(page):
    """The commands that docs/COMMANDS.md has in its table, in its order."""
    return list(dict.fromkeys(re.findall(r"^\| `([a-z]+)[ `]", page, re.M)))


def rows(text, places):
    """The words of each line, with the paths of the files that are made."""
    lines = [shlex.split(line) for line in text.split("\n") if line]
    return [[places[word[1:-1]] if word.startswith("{") else word for word in words] for words in lines]


def make_files(program):
    """Makes the files; their paths by their names."""
    places = {name: program.put(name, text) for name, text in TEXTS.items()}
    for name, line in MADE.items():
        made = program.end(rows(line, places)[0])
        if made.status:
            raise SystemExit(f"hostile: {line} ended with {made.status}: {made.diag!r}")
        places[name] = program.put(name, made.out)
    with open(places["counter.ck"], "rb") as file:
        places["spoiled.ck"] = program.put("spoiled.ck", file.read()[:-1])
    return places


def all_runs(program):
    """Each run: its words, what standard input has, the status that is wanted, and whether its files are long."""
    places, found = make_files(program), []
    for text, status, is_long in ((SMALL, 0, False), (REFUSED, 2, False), (LONG, 0, True)):
        given = LONG_INPUT if is_long else LINES
        found += [(words, given if words[0] == "debug" else b"", status, is_long) for words in rows(text, places)]
    return found
