"""Runs the tests of `mm`, as many modules of them at once as there are processors.

usage: python3 -m mm.tests [--jobs N] [MODULE..]

All modules of this folder are run if none is named, such as `test_terminals`. What a module that fails says is shown, and
for what reasons tests are left out; the last line but one is `Ran N tests ..`, and the exit status is 1 if a test failed. If $FIRST_WRONG is set, the first one that
fails ends its module."""

from __future__ import annotations

import glob
import io
import os
import sys
import time
import unittest
from concurrent.futures import ProcessPoolExecutor

HERE = os.path.dirname(os.path.abspath(__file__))
TOP = os.path.dirname(os.path.dirname(HERE))


def modules() -> list[str]:
    """All modules of tests, the longest first, so that none that takes long comes last."""
    paths = sorted(glob.glob(os.path.join(HERE, "test_*.py")), key=os.path.getsize, reverse=True)
    return [os.path.basename(path)[: -len(".py")] for path in paths]


def run(module: str) -> tuple[int, list[str], str]:
    """How many tests of a module were run, why some of these were left out, and what it says if one failed."""
    said = io.StringIO()
    suite = unittest.defaultTestLoader.discover(HERE, f"{module}.py", TOP)
    result = unittest.TextTestRunner(said, verbosity=0, failfast=bool(os.environ.get("FIRST_WRONG"))).run(suite)
    return result.testsRun, [reason for _, reason in result.skipped], "" if result.wasSuccessful() else f"{module}:\n{said.getvalue()}"


def main(words: list[str]) -> int:
    jobs = os.cpu_count() or 1
    if words[:1] == ["--jobs"] and len(words) > 1 and words[1].isdecimal() and int(words[1]):
        jobs, words = int(words[1]), words[2:]
    named = words or modules()
    if not set(named) <= set(modules()):
        print(__doc__)
        return 0 if words == ["--help"] else 2
    began = time.monotonic()
    with ProcessPoolExecutor(jobs) as pool:
        ends: list[tuple[int, bool]] = []
        reasons: list[str] = []
        for tests, why, said in pool.map(run, named):
            ends.append((tests, bool(said)))
            reasons += why
            print(said, end="", flush=True)
    tests, failed = sum(count for count, _ in ends), sum(is_wrong for _, is_wrong in ends)
    print("".join(f"left out: {reasons.count(reason)} tests: {reason}\n" for reason in sorted(set(reasons))), end="")
    print(f"Ran {tests} tests in {time.monotonic() - began:.0f}s, {len(reasons)} of them left out")
    print(f"FAILED: {failed} modules" if failed else "OK")
    return 1 if failed else 0


if __name__ == "__main__":
    sys.exit(main(sys.argv[1:]))
