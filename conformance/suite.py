"""The suite: its cases, the files that they make, and the logs that are stored of them.

The logs are kept as `mmachine log` writes them, theme by theme, in files of `logs/` that are compressed: lines of
logs are much alike, and take a fortieth of their size so. A log is a text between two lines `== NAME KEY`, where KEY
is a checksum of the case's image, schedule and cycles, so that a log of another image is seen to be one."""

import hashlib
import importlib
import lzma
import os
from collections import Counter
from fnmatch import fnmatch

HERE = os.path.dirname(os.path.abspath(__file__))
THEMES = ("integers", "pointers", "memory", "jumps", "handlers", "pages", "outputs", "split", "machines", "chains")
HEAD = "== "
STEP = 89


class Wrong(Exception):
    """What is wrong with the suite itself."""


def cases_of(theme):
    """The cases of a theme, in their order."""
    return list(importlib.import_module(f"cases.{theme}").cases())


def all_cases(patterns=(), skipped=()):
    """The cases whose names match one of the patterns, or all, with their themes, without those that are skipped."""
    found, names = [], set()
    for theme in THEMES:
        for case in cases_of(theme):
            if case.name in names:
                raise Wrong(f"two cases are named {case.name}")
            names.add(case.name)
            if (not patterns or matches(case.name, patterns)) and not matches(case.name, skipped):
                found.append((theme, case))
    return found


def mixed(cases):
    """The cases with those of all themes in turn, so that few of them show most of what the suite shows."""
    sizes, seen, placed = Counter(theme for theme, _ in cases), Counter(), []
    for theme, case in cases:
        # A step that has no factor in common with most sizes goes through a theme in an order that jumps.
        seen[theme] += STEP
        placed.append((seen[theme] % sizes[theme] / sizes[theme], len(placed), theme, case))
    return [(theme, case) for _, _, theme, case in sorted(placed, key=lambda place: place[:2])]


def matches(name, patterns):
    """Whether a name matches one of the patterns."""
    return any(fnmatch(name, pattern) for pattern in patterns)


def key_of(case, data):
    """A checksum of all that a case gives a machine."""
    return hashlib.sha256(f"{case.cycles} {case.schedule}\n".encode("ascii") + data).hexdigest()[:16]


def write_case(case, folder):
    """Writes the image and the schedule into a folder: the image's bytes, and the names of both; the last one is none
    in round robin."""
    data = case.image.data
    image = os.path.join(folder, f"{case.name}.img")
    with open(image, "wb") as file:
        file.write(data)
    if case.schedule is None:
        return data, image, None
    schedule = os.path.join(folder, f"{case.name}.schedule")
    with open(schedule, "w", encoding="ascii", newline="") as file:
        file.write(case.schedule)
    return data, image, schedule


def store_of(theme):
    return os.path.join(HERE, "logs", f"{theme}.xz")


def store(theme, logs):
    """Stores the logs of a theme, a key and a text for each name, if they are not those that are stored already."""
    if list(stored(theme).items()) == list(logs.items()):
        return
    text = "".join(f"{HEAD}{name} {key}\n{log}" for name, (key, log) in logs.items())
    os.makedirs(os.path.join(HERE, "logs"), exist_ok=True)
    with open(store_of(theme), "wb") as file:
        file.write(lzma.compress(text.encode("ascii"), preset=9 | lzma.PRESET_EXTREME))


def stored(theme):
    """The stored logs of a theme: the key and the text of each name."""
    if not os.path.isfile(store_of(theme)):
        return {}
    with open(store_of(theme), "rb") as file:
        text = lzma.decompress(file.read()).decode("ascii")
    found = {}
    for part in text.split(HEAD)[1:]:
        head, _, log = part.partition("\n")
        name, key = head.split(" ")
        found[name] = key, log
    return found


def all_stored():
    """The stored logs of all themes."""
    return {name: entry for theme in THEMES for name, entry in stored(theme).items()}

