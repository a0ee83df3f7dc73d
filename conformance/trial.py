"""Cases that a program is tried on: those of the suite, and random ones as `tools/lockstep` makes them."""

import hashlib
import os
import subprocess
from dataclasses import dataclass
from typing import Optional

import suite
from building import Stopped
from differs import first_difference
from mm.lockstep.case import case_of, schedule_text

SEED = 1
COUNTS = "counts "


@dataclass(frozen=True)
class Given:
    """A case as files: the words that name it, and the file of the log that is wanted."""

    name: str
    words: tuple[str, ...]
    wanted: str

    @property
    def log(self):
        with open(self.wanted, encoding="latin-1") as file:
            return file.read()


@dataclass
class Found:
    """What was found in a program: the first case that differs with its place, the first of which only the line of
    counts differs, and how many cases were tried and how many of them differ."""

    case: Optional[str] = None
    place: int = 0
    counts: Optional[str] = None
    counts_place: int = 0
    differing: int = 0
    tried: int = 0


def suite_cases(folder):
    """The cases of the suite, with those of all themes in turn."""
    os.makedirs(folder)
    logs, found = suite.all_stored(), []
    for _, case in suite.mixed(suite.all_cases()):
        _, image, schedule = suite.write_case(case, folder)
        wanted = write(f"{folder}/{case.name}.log", logs[case.name][1].encode("latin-1"))
        found.append(Given(case.name, (image, str(case.cycles), *([schedule] if schedule else [])), wanted))
    return found


def suite_key():
    """A checksum of the stored logs."""
    keys = sorted((name, key) for name, (key, _) in suite.all_stored().items())
    return hashlib.sha256(repr(keys).encode()).hexdigest()[:12]


def random_cases(folder, right, count, seconds):
    """So many random cases, with the logs that the program without a bug writes of them."""
    os.makedirs(folder)
    found = []
    for number in range(count):
        case = case_of(SEED, number)
        image = write(f"{folder}/{case.name}.img", case.image)
        schedule = write(f"{folder}/{case.name}.schedule", schedule_text(case.items).encode("ascii"))
        given = Given(case.name, (image, str(len(case.items)), schedule), f"{folder}/{case.name}.log")
        text, failed = log_of(right, given, seconds)
        if failed:
            raise OSError(f"{case.name}: the program without a bug {failed}")
        write(given.wanted, text.encode("latin-1"))
        found.append(given)
    return found


def write(name, data):
    with open(name, "wb") as file:
        file.write(data)
    return name


def log_of(command, given, seconds):
    """The log that a command writes of a case, and how it fails, one of them none."""
    words = [*command, *given.words]
    try:
        ended = subprocess.run(words, stdin=subprocess.DEVNULL, capture_output=True, timeout=seconds)
    except subprocess.TimeoutExpired:
        return None, f"does not end in {seconds:g} seconds"
    if ended.returncode:
        return None, f"ends with status {ended.returncode}"
    return ended.stdout.decode("latin-1"), None


def tried(command, cases, seconds, stopping, whole=False):
    """Tries a command on cases up to the first that differs; on all of them with `whole`, if each run ends."""
    found = Found()
    for given in cases:
        if stopping.is_set():
            raise Stopped
        found.tried += 1
        text, failed = log_of(command, given, seconds)
        log = given.log
        if text == log:
            continue
        if not failed and first_difference(log, text, counts=False) is None:
            if found.counts is None and any(line.startswith(COUNTS) for line in text.splitlines()):
                found.counts, found.counts_place = given.name, found.tried
            continue
        found.differing += 1
        if found.case is None:
            found.case, found.place = given.name, found.tried
        if not whole or failed and "does not end" in failed:
            break
    return found
