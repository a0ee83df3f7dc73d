"""`mm holders` and `mm sweep`: ranges of addresses, by name."""

from __future__ import annotations

import os

from mm.build import Built
from mm.console import Console
from mm.machine.words import LONGEST, Word, bytes_in_words
from mm.names.expressions import NoAddress, span_of
from mm.names.numbers import number_of
from mm.status import Status, usage
from mm.views.spell import Speller

WORD_LOG = 3


def range_of(text: str, built: Built) -> tuple[int, int]:
    """The base and the logarithm of a range: a segment has its own length, anything else is a word, and `ADDRESS,LOG` says it."""
    place, comma, length = text.partition(",")
    try:
        address, size = span_of(place, built.symbols)
    except NoAddress as error:
        raise usage(f"mm: {error}") from None
    segment = any(symbol.segment for symbol in built.symbols.named(place))
    log = number_of(length) if comma else (size - 1).bit_length() if segment else WORD_LOG
    if log is None or not 3 <= log <= LONGEST:
        raise usage(f"mm: `{length}` is not a logarithm of a length: 3 to {LONGEST}, as 3 for a word of 2^3 bytes")
    if address & (1 << log) - 1:
        base = address >> log << log
        raise usage(
            f"mm: a range of 2^{log} bytes begins at a multiple of its length, and {built.symbols.show(address)} is at 0x{address:x}",
            f"    take {built.symbols.show(base)},{log}, which begins before it, or several shorter ranges",
        )
    return address, log


def _files_and_range(console: Console) -> tuple[list[str], str]:
    """The words of a command, of which the last is the range."""
    *names, text = console.words
    if len(names) > 1 and number_of(text) is not None and not os.path.exists(names[-1]):
        raise usage(
            f"mm: {console.name}: a range is one word, the last: `{names[-1]},{text}`",
            "    `mm help ranges` explains them",
        )
    return names, text


def _holder(line: str, speller: Speller) -> str:
    """A line of holders with names."""
    words = line.split()
    word = speller.word(Word.parse(words[-1]))
    if words[0] == "ip":
        return f"slot {words[1]} runs by     {word}"
    if words[0] == "reg":
        return f"slot {words[1]} r{words[2]:<3} holds  {word}"
    return f"memory {speller.symbols.show(int(words[1], 16))} holds  {word}"


def _holders(console: Console) -> int:
    names, text = _files_and_range(console)
    built = console.build(names)
    base, log = range_of(text, built)
    answer = console.ask(["holders", built.path, str(base), str(log)], [built.file])
    lines = answer.text.splitlines()
    where = f"{built.symbols.show(base)} ({bytes_in_words(log)} from 0x{base:x} on)"
    if not lines:
        console.write([f"nobody holds a pointer that meets {where}"])
        return Status.DONE
    console.write([f"pointers that meet {where}:", *(f"  {_holder(line, Speller(built.symbols))}" for line in lines)])
    return Status.DONE


def _sweep(console: Console) -> int:
    names, text = _files_and_range(console)
    built = console.build(names)
    base, log = range_of(text, built)
    return console.put(console.ask(["sweep", built.path, str(base), str(log)], [built.file]).out)


COMMANDS = {"holders": _holders, "sweep": _sweep}


def run(console: Console) -> int:
    return COMMANDS[console.name](console)
