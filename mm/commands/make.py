"""Commands that make a file: `asm`, `link`, `extract`, `migrate`, `save`, `gen`; and `soak`, the summary of a generated image's run."""

from __future__ import annotations

from mm.build import read_file
from mm.console import Console
from mm.names.numbers import number_of
from mm.status import Status, usage
from mm.words import MOST_CYCLES, groups_of

MODES = ("plain", "split")


def _asm(console: Console) -> int:
    name = console.words[0]
    return console.put(console.workshop.assemble(name, read_file(name)).data)


def _link(console: Console) -> int:
    return console.put(console.build(console.words).data)


def _extract(console: Console) -> int:
    *names, groups = console.words
    built = console.build(names)
    return console.put(console.ask(["extract", built.path, groups_of(groups)], [built.file]).out)


def _migrate(console: Console) -> int:
    *names, mode = console.words
    if mode not in MODES:
        raise usage(f"mm: migrate: `{mode}` is not a mode: plain (loads answer at once) or split (they answer later)")
    built = console.build(names)
    return console.put(console.ask(["migrate", built.path, mode], [built.file]).out)


def _save(console: Console) -> int:
    built, order = console.build(console.words), console.order()
    words = ["save", built.path, str(console.cycles(MOST_CYCLES)), *order.words]
    return console.put(console.ask(words, [built.file, *order.files]).out)


def _number(text: str, what: str, low: int, high: int) -> str:
    number = number_of(text)
    if number is None or not low <= number <= high:
        raise usage(f"mm: `{text}` is not a {what}: {low} to {high}")
    return str(number)


def _generated(console: Console) -> list[str]:
    number, size = console.words
    return [_number(number, "number of an image", 0, (1 << 64) - 1), _number(size, "number of slots", 1, 16)]


def _gen(console: Console) -> int:
    return console.put(console.ask(["gen", *_generated(console)], []).out)


def _soak(console: Console) -> int:
    console.write(console.ask(["soak", *_generated(console), str(console.cycles(MOST_CYCLES))], []).text.splitlines())
    return Status.DONE


COMMANDS = {
    "asm": _asm,
    "link": _link,
    "extract": _extract,
    "migrate": _migrate,
    "save": _save,
    "gen": _gen,
    "soak": _soak,
}


def run(console: Console) -> int:
    return COMMANDS[console.name](console)
