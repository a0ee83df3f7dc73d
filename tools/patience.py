"""Limits of time for scripts of the merge check, that grow in the measure in which this computer is slow just now.

A limit of the clock finds what does not end. Beside other work it would also find what has not had a processor yet, so
what is out of time is given more where work of a tenth of a second takes longer than that by the clock."""

import subprocess
import time

# Seconds of a processor, and how many times as long a limit may become.
WORK, MOST_TIMES = 0.1, 50


def slowness():
    """How many times as long work takes just now as on a processor of its own."""
    began, worked = time.monotonic(), time.process_time()
    while time.process_time() - worked < WORK:
        pass
    return min(MOST_TIMES, max(1.0, (time.monotonic() - began) / WORK))


def run(words, seconds, **how):
    """How words end in so many seconds. If they do not, and this computer is slow, they are run once more, with more of them."""
    try:
        return subprocess.run(words, timeout=seconds, check=False, **how)
    except subprocess.TimeoutExpired:
        times = slowness()
        if times < 1.5:
            raise
        return subprocess.run(words, timeout=2 * times * seconds, check=False, **how)


def communicate(process, seconds):
    """What a process writes until it ends. If it does not end in so many seconds, or more while this computer is slow, that
    is raised."""
    began = time.monotonic()
    while True:
        try:
            return process.communicate(timeout=seconds)
        except subprocess.TimeoutExpired:
            if time.monotonic() - began > seconds * slowness():
                raise
