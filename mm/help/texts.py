"""Texts that are made from the tables."""

from __future__ import annotations

import re
from itertools import chain
from typing import Callable, Iterator, Optional

from mm.grading.lines import FORMS, line_lines
from mm.help.overview import command_lines
from mm.help.topics import TOPICS
from mm.machine.causes import Cause
from mm.machine.isa import OPERATIONS, Kind
from mm.machine.words import BY_SHORT
from mm.source.letters import TEXT_DIRECTIVES
from mm.source.wants import DIRECTIVES as OF_MMACHINE
from mm.table import ALIASES, BY_NAME

DIRECTIVES = {**OF_MMACHINE, **TEXT_DIRECTIVES}
# The number of a fault.
NUMBER = re.compile("[0-9]{1,9}")


def operation_lines(name: str) -> Iterator[str]:
    operation = OPERATIONS[name]
    yield f"{operation.usage}"
    yield f"    {operation.effect}"
    yield f"    for example: {operation.example}"
    yield f"    operation 0x{operation.number:02x}" + (
        f"; faults, in the order of the tests: {', '.join(operation.tests.split())}"
        if operation.tests
        else "; it has no fault of its own"
    )
    if Kind.PRE in operation.operands:
        yield "    the last two operands: what the synchronisation bit must be (any, full, empty), and what it becomes (keep, full, empty)"


SHORTER = (("any|full|empty", "PRE"), ("keep|full|empty", "POST"), ("retry|skip|kill", "HOW"), ("NUMBER", "N"))


def operations() -> Iterator[str]:
    for operation in OPERATIONS.values():
        usage = operation.usage
        for long, short in SHORTER:
            usage = usage.replace(long, short)
        yield f"  {usage:<24}  {operation.effect}"
    yield "PRE is what the word's bit must be: any, full or empty. POST is what it becomes: keep, full or empty. HOW is retry, skip or kill."


def directives() -> Iterator[str]:
    for directive in DIRECTIVES.values():
        yield f"  {directive.usage}"
        yield f"      {directive.meaning}; for example: {directive.example}"
    yield "`.ascii` and `.asciiz` are forms of `mm`: `mmachine asm` is given a line `.int` for each letter."


def directive_lines(name: str) -> Iterator[str]:
    directive = DIRECTIVES[name]
    yield directive.usage
    yield f"    {directive.meaning}"
    yield f"    for example: {directive.example}"


def faults() -> Iterator[str]:
    for cause in Cause:
        yield f"  {cause.number:>2}  {cause.title:<11} {cause.meaning}"
    yield "A slot that faults halts, or its handler gets an event. Only after Sync a slot without a handler does not halt: it tries again."


def cause_lines(cause: Cause) -> Iterator[str]:
    yield f"fault {cause.number}, {cause.title}: {cause.meaning}"
    tested = [operation.name for operation in OPERATIONS.values() if cause.title in operation.tests.split()]
    yield f"    operations that have it: {', '.join(tested) or 'every turn can'}"
    if cause.title in ("Bounds", "Align", "NoPage"):
        yield "    and the fetch of any instruction"


def letters() -> Iterator[str]:
    codes = list(range(32, 127))
    rows = 16
    for row in range(rows):
        yield "  ".join(
            f"{code:>3} {chr(code) if code > 32 else 'blank'}".ljust(9) for code in codes[row::rows]
        ).rstrip()
    yield "10 ends a line. In a source write 'A' for 65 and '\\n' for 10, or a text by `.ascii` or `.asciiz` (`mm help .ascii`)."


def debugger() -> Iterator[str]:
    from mm.debugger.commands import ENTRIES

    for entry in ENTRIES:
        yield f"  {', '.join(entry.names):<30}  {entry.words:<14}  {entry.says}"


def permission_lines(short: str) -> Iterator[str]:
    permission = BY_SHORT[short]
    can = [
        what
        for what, may in (
            ("load", permission.loads),
            ("store", permission.stores),
            ("run as code", permission.executes),
            ("be jumped to", permission.executes or permission.enters),
        )
        if may
    ]
    yield f"{short}: {permission.full}, code {permission.code}"
    yield f"    it may {', '.join(can) or 'do nothing: it is a ticket'}"
    yield f"    `restrict` can turn it into: {', '.join(each.short for each in permission.may_become) or 'nothing'}"


MADE: dict[str, Callable[[], Iterator[str]]] = {
    "operations": operations,
    "directives": directives,
    "faults": faults,
    "letters": letters,
    "debugger": debugger,
}


def topic_lines(topic: str) -> Optional[Iterator[str]]:
    """The text of a topic, or none if it is none. If it is a kind of line of an exercise too, that comes after it."""
    found = _topic_lines(topic)
    if topic not in FORMS:
        return found
    return line_lines(topic) if found is None else chain(found, [""], line_lines(topic))


def _topic_lines(topic: str) -> Optional[Iterator[str]]:
    """The text of a topic of the machine or of `mm`. A command comes before an operation of the same name."""
    word = topic.lower()
    name = ALIASES.get(word, word)
    cause = Cause.of_number(int(word)) if NUMBER.fullmatch(word) else Cause.of_title(word)
    if name in BY_NAME:
        return command_lines(BY_NAME[name])
    if word in OPERATIONS:
        return operation_lines(word)
    for directive in (word, "." + word):
        if directive in DIRECTIVES:
            return directive_lines(directive)
    if cause:
        return cause_lines(cause)
    if word in BY_SHORT:
        return permission_lines(word)
    if word in TOPICS:
        return iter(TOPICS[word].text.splitlines())
    return MADE[word]() if word in MADE else None


def all_topics() -> list[str]:
    return [
        *BY_NAME,
        *ALIASES,
        *OPERATIONS,
        *DIRECTIVES,
        *(cause.title.lower() for cause in Cause),
        *BY_SHORT,
        *TOPICS,
        *MADE,
        *FORMS,
    ]
