"""The line of an exercise that compares a run with a run of its first answer, under the same inputs."""

from __future__ import annotations

from typing import Callable, Optional, Union

from mm.grading.checks import Check, output, said
from mm.grading.program import NotSo, Program, WrongLine, register_in
from mm.machine.words import Word

# An output, a word, or a register without one, whose load has not arrived.
Found = Union[bytes, Word, None]


def _register(program: Program, number: str, name: str) -> Optional[Word]:
    return program.slot(number).register(register_in(name))


def _word(program: Program, name: str) -> Word:
    return program.cell(name).word


FINDERS: dict[str, Callable[..., Found]] = {"says": output, "letters": output, "register": _register, "word": _word}


def like(program: Program, what: str, *words: str) -> Optional[str]:
    """What a run came to is what the answer came to."""
    found = FINDERS[what](program, *words)
    try:
        wanted = FINDERS[what](program.official, *words)
    except NotSo as not_so:
        raise WrongLine(f"{program.sheet.answers[0]}: {not_so}") from None
    is_so = found == wanted
    if what == "letters" and isinstance(found, bytes) and isinstance(wanted, bytes):
        is_so = sorted(found) == sorted(wanted)
    return None if is_so else f"{_shown(program, found)}, and in the answer {_shown(program, wanted)}"


def _shown(program: Program, found: Found) -> str:
    return said(found) if isinstance(found, bytes) else f"it is {program.speller.register(found)}"


OF_THE_ANSWER: dict[str, Check] = {"like": like}
