"""`mm keeps`: whether a kernel keeps its segments, whatever code its callers run."""

from __future__ import annotations

from typing import Sequence

from mm.build import C_SUFFIX, OUR_SUFFIXES, Built
from mm.commands.behind import asked_of, audit_of, behind_doors, names_of
from mm.console import Console
from mm.names.kept import Segment, kept_of, word_of
from mm.names.numbers import number_of
from mm.outputs.keeps import Kept, read_keeps
from mm.status import Status, Stop, usage
from mm.table import JSON, THREADS
from mm.views.keeps import MOST_THREADS, KeepsView
from mm.views.keptdata import KeptForm
from mm.views.keptwords import shortly

USUAL = 100_000


def is_file(word: str) -> bool:
    """Whether a word after the first names a file: by its ending alone."""
    return word.endswith((*OUR_SUFFIXES, C_SUFFIX))


def files_and_segments(words: Sequence[str]) -> tuple[list[str], list[str]]:
    """The files, which come first, and the segments after them."""
    first = next((at for at, word in enumerate(words) if at and not is_file(word)), len(words))
    late = [word for word in words[first:] if is_file(word)]
    if late:
        raise usage(f"mm: keeps: `{late[0]}` is a file, and files come before segments: `{words[first]}` is taken for one")
    return list(words[:first]), list(words[first:])


def threads_of(console: Console) -> int:
    """How many threads are looked at."""
    said = console.said.value(THREADS)
    found = USUAL if said is None else number_of(said)
    if found is None or not 1 <= found <= MOST_THREADS:
        raise usage(f"mm: keeps: --threads is a number from 1 to {MOST_THREADS}, not `{said}`")
    return found


def missing(console: Console, built: Built) -> Stop:
    """That no segment was named, with those that only doors lead to."""
    behind = names_of(built, behind_doors(console, built, audit_of(console, built)))
    return usage(
        "mm: keeps: missing SEGMENT: what is to be kept",
        *([f"    only doors lead to {shortly(behind)}: `{asked_of(console, built, behind)}`"] if behind else []),
        "    `mm help keeps` says how segments are named",
    )


def answer_of(console: Console, built: Built, kept: Sequence[Segment], threads: int) -> Kept:
    """What the program answers."""
    return read_keeps(console.ask(["keeps", built.path, str(threads), word_of(kept)], [built.file]).text)


def run(console: Console) -> int:
    names, words = files_and_segments(console.words)
    threads = threads_of(console)
    built = console.build(names)
    if not words:
        raise missing(console, built)
    kept = kept_of(words, built.symbols)
    found = answer_of(console, built, kept, threads)
    if console.said.has(JSON):
        console.write_json(KeptForm(built.image, built.symbols, kept, threads, found).form())
    else:
        console.write(KeepsView(built.image, built.symbols, kept, console.style).lines(found, threads))
    return Status.DONE
