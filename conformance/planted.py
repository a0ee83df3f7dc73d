"""The bugs: their names, the texts that each makes of the sources, and what they are bugs in.

They are the wrong bodies of the crates that a run goes through, edits in the folders must-fail/ and wrong/ of each,
and those of `bugs/`, which were planted to measure the suite."""

import glob
import os
from fnmatch import fnmatch

HERE = os.path.dirname(os.path.abspath(__file__))
TOP = os.path.dirname(HERE)
CRATES = ("mm_word", "mm_isa", "mm_thread", "mm_machine", "mm_sched", "mm_mem", "mm_frames", "mm_cache", "mm_vmem")
PLANTED = "bugs"
GROUPS = (*CRATES, PLANTED)
# The files of the plain memory. A bug in them alone is seen only in a program that runs on it.
PLAIN_FILES = ("plain.rt", "flat.rt", "frame.rt", "search.rt")
# The program without a bug: on the cached memory, and on the plain one.
RIGHT, RIGHT_PLAIN = "none", "none_plain"


def bugs(patterns=()):
    """The files of the bugs whose names match one of the patterns, or of all, by their names."""
    found = {}
    for crate in CRATES:
        for folder in ("must-fail", "wrong"):
            for path in sorted(glob.glob(f"{TOP}/crates/{crate}/{folder}/*.edit")):
                found[f"{crate}/{name_of(path)}"] = path
    for path in sorted(glob.glob(f"{HERE}/{PLANTED}/*.edit")):
        found[f"{PLANTED}/{name_of(path)}"] = path
    return {name: path for name, path in found.items() if not patterns or any(fnmatch(name, it) for it in patterns)}


def name_of(path):
    return os.path.basename(path).removesuffix(".edit")


def edited(name, path, before=None):
    """The files that a bug changes, by their names from the top, with their new texts; over those of other bugs."""
    texts = dict(before or {})
    if path is None:
        return texts
    crate = "" if name.startswith(f"{PLANTED}/") else f"crates/{name.partition('/')[0]}/"
    file = old = None
    with open(path, encoding="utf-8") as lines:
        for line in lines.read().split("\n"):
            word, _, rest = line.partition(":")
            rest = rest.removeprefix(" ")
            if word == "file":
                file = crate + rest.strip()
            elif word == "old":
                old = rest
            elif word == "new":
                if file not in texts:
                    with open(f"{TOP}/{file}", encoding="utf-8") as source:
                        texts[file] = source.read()
                if texts[file].count(old) != 1:
                    raise ValueError(f"{name}: its text is in {file} {texts[file].count(old)} times")
                texts[file] = texts[file].replace(old, rest)
    return texts


def is_plain(name, path):
    """Whether a program is run on the plain memory: that with a bug in it alone, and one of those without a bug."""
    files = edited(name, path)
    in_plain = any(os.path.basename(file) in PLAIN_FILES and "mm_mem" in file for file in files)
    return name == RIGHT_PLAIN or in_plain


def reasons():
    """Why no case can find a bug, by its name."""
    with open(f"{HERE}/unseen", encoding="utf-8") as lines:
        pairs = [line.strip().partition(": ") for line in lines if ": " in line and not line.startswith("#")]
    return {name: reason for name, _, reason in pairs}
