"""The words of a command line: options anywhere, all others in their order."""

from __future__ import annotations

import os
from typing import Optional, Sequence

from mm.names.numbers import number_of
from mm.records import dataclass, field
from mm.status import usage
from mm.table import ALIASES, BY_NAME, GLOBAL_OPTIONS, Command, Option

MOST_CYCLES = 1_000_000
MOST_GROUP = 63
MOST_STATES = 100_000_000


@dataclass
class Words:
    """What a command line says: the command, its words, and the values of its options by name."""

    command: Optional[Command] = None
    words: list[str] = field(default_factory=list)
    values: dict[str, list[str]] = field(default_factory=dict)

    def has(self, option: Option) -> bool:
        return option.name in self.values

    def value(self, option: Option) -> Optional[str]:
        """The value of an option, the last where it was given several times."""
        return self.values[option.name][-1] if option.name in self.values else None

    def all(self, option: Option) -> list[str]:
        return self.values.get(option.name, [])


def _known(command: Optional[Command]) -> dict[str, Option]:
    options = (*GLOBAL_OPTIONS, *(command.options if command else ()))
    return {name: option for option in options for name in (option.name, option.short) if name}


def _near(name: str, names: list[str]) -> list[str]:
    """A name that may have been meant."""
    import difflib

    return difflib.get_close_matches(name[:64], names, 1)


def _command(name: str) -> Command:
    found = BY_NAME.get(ALIASES.get(name, name))
    if found is None and os.path.exists(name):
        raise usage(f"mm: missing command before {name}, as `mm run {name}`", "    `mm help` lists the commands")
    if found is None:
        near = _near(name, [*BY_NAME, *ALIASES])
        raise usage(
            f"mm: there is no command `{name}`" + (f"; do you mean `{near[0]}`?" if near else ""),
            "    `mm help` lists the commands",
        )
    return found


def read_words(given: Sequence[str]) -> Words:
    """What words say. An unknown option, or one without its value, is refused."""
    said, rest, plain = Words(), list(given), False
    while rest:
        word = rest.pop(0)
        if plain or not word.startswith("-") or word == "-" or number_of(word) is not None:
            if said.command is None:
                said.command = _command(word)
            else:
                said.words.append(word)
        elif word == "--":
            plain = True
        else:
            _take_option(said, word, rest)
    return said


def _take_option(said: Words, word: str, rest: list[str]) -> None:
    name, equals, value = word.partition("=")
    option = _known(said.command).get(name)
    short = _known(said.command).get(word[:2])
    if option is None and short is not None and short.value:
        option, equals, value = short, "=", word[2:]
    if option is None:
        where = f"`mm {said.command.name}`" if said.command else "`mm`"
        near = _near(name, list(_known(said.command)))
        raise usage(
            f"mm: {where} has no option {name}" + (f"; do you mean {near[0]}?" if near else ""),
            f"    `mm help{' ' + said.command.name if said.command else ''}` lists them",
        )
    if option.value and not equals:
        if not rest:
            raise usage(f"mm: {name} wants {option.value}: {option.says}")
        value = rest.pop(0)
    elif equals and not option.value:
        raise usage(f"mm: {name} takes no value")
    said.values.setdefault(option.name, []).append(value)


def check_count(said: Words) -> None:
    """Refuses a command with too few or too many words."""
    command, count = said.command, len(said.words)
    if command is None or command.least <= count <= (count if command.most is None else command.most):
        return
    operands = command.operands.replace("..", "").split()
    if count < command.least:
        what = f"missing {' and '.join(operands[count:])}"
    else:
        what = f"unexpected `{said.words[command.most or 0]}`"
    raise usage(
        f"mm: {command.name}: {what}",
        f"    usage: mm {command.name} {command.operands}",
        f"    `mm help {command.name}` explains it",
    )


def groups_of(text: str) -> str:
    """Groups as `mmachine` takes them, ascending and once each; numbers may have any base and order."""
    numbers = {number_of(part.strip()) for part in text.split(",")}
    known = sorted(number for number in numbers if number is not None and 0 <= number <= MOST_GROUP)
    if len(known) < len(numbers):
        raise usage(f"mm: `{text}` is not a list of groups: numbers 0 to {MOST_GROUP} with commas between, as 0 or 0,2")
    return ",".join(map(str, known))


def cycles_of(text: Optional[str]) -> Optional[int]:
    """A number of cycles, in any base."""
    if text is None:
        return None
    number = number_of(text)
    if number is None or not 0 <= number <= MOST_CYCLES:
        raise usage(f"mm: `{text}` is not a number of cycles: 0 to {MOST_CYCLES}")
    return number
