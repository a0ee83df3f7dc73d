#!/usr/bin/env python3
"""Makes the inputs of the debugger in docs/PERFORMANCE.md in a folder: sessions.py FOLDER"""
import sys
from pathlib import Path

CODE = 0x100 * 4096
DATA = 0x200 * 4096  # the store of hits.img and collisions.img is to DATA + 64
MARKS = 64

# breaks of the slot that runs, after its loop, and watches of words beside the one that it stores to: none of them ever stops the run
marks = [f"break 0 {CODE + 64 + 8 * k}" for k in range(MARKS)]
marks += [f"watch {DATA + 512 + 8 * k}" for k in range(MARKS)]


# breaks at the spots of the addresses of the loop, so that each is looked for at each cycle
spots = [f"break 0 {CODE + 8192 * (k + 1) + 8 * (k % 4)}" for k in range(MARKS)] + marks[MARKS:]


def text(lines):
    return "".join(line + "\n" for line in lines)


inputs = {
    "run.txt": text(["run"]),
    "marks.txt": text(marks + ["run"]),
    "spots.txt": text(spots + ["run"]),
    "steps.txt": text(["step 1"] * 100_000),
    "half.txt": text(["step 1"] * 50_000),
    "words.txt": text([f"mem {CODE} 64"] * 50_000),
}

folder = Path(sys.argv[1])
for name, lines in inputs.items():
    (folder / name).write_text(lines)
