"""The text of an exercise: a title, how the program is run, and what is expected."""

from __future__ import annotations

import os
from dataclasses import dataclass, field
from typing import Optional

from mm.grading import draws
from mm.grading.lines import CONDITIONS, FORMS, HIDDEN, OF_RUN, SETTINGS
from mm.grading.values import not_a_value
from mm.machine.isa import OPERATIONS
from mm.names.expressions import nearest
from mm.names.numbers import number_of
from mm.status import Status, Stop

# Those of whose operands some are operations, with `|` between some and `*N` after some: the place of the first, of the
# last.
OF_OPERATIONS = {"uses": (0, None), "without": (0, None), "executes": (1, None), "repeats": (1, 2), "gives": (1, 2),
                 "twins": (1, 2), "reloads": (1, 2), "runs": (1, None), "faults": (2, None)}  # fmt: skip
# The place of the value that a line expects.
OF_VALUES = {"register": 2, "word": 1, "gives": 2, "through": 1, "stops": 1}
# What stands in the place of a value, and is none.
PAST = {"stops": "past"}
KINDS = ("asm", "c", "object", "image")
# Lines whose last operand is a text that may have blanks.
OF_TEXT = ("says", "matches", "differs")
# Lines of a run that may stand there once, and lines of the exercise that name one file.
ONCE = ("cycles", "schedule")
OF_A_FILE = {"file": "file", "from": "start"}


@dataclass(frozen=True)
class Expectation:
    """A line: what is looked at, its operands, and the line as it stands."""

    kind: str
    words: tuple[str, ...]
    text: str
    number: int = 0

    @property
    def is_condition(self) -> bool:
        """Whether an empty program meets it too: its groups print nothing, and its registers hold 0."""
        nothing = self.kind == "says" and len(self.words) == 1
        zero = self.kind in ("register", "word", "enters") and number_of(self.words[-1]) == 0
        return self.kind in CONDITIONS or nothing or zero


@dataclass
class Case:
    """A run of the program: what is other in it than in the program itself, and what is expected of it. The first one
    is shown line by line; each other one has a title, and counts as one line."""

    title: str = ""
    cycles: Optional[str] = None
    schedule: Optional[str] = None
    inputs: list[Expectation] = field(default_factory=list)
    expectations: list[Expectation] = field(default_factory=list)
    number: int = 1

    @property
    def is_condition(self) -> bool:
        """Whether an empty program meets all of it too."""
        return all(line.is_condition for line in self.expectations)

    @property
    def is_drawn(self) -> bool:
        """Whether some of its inputs are drawn."""
        return any(draws.draw_in(word) for line in self.inputs for word in values_put(line))

    def drawn(self, seed: int, time: int) -> Case:
        """The same run with the inputs that a seed draws."""
        dice = draws.Dice(seed, self.number, time)
        inputs = [_with_values(line, dice.words(values_put(line))) for line in self.inputs]
        return Case(self.title, self.cycles, self.schedule, inputs, self.expectations, self.number)


def is_of_register(line: Expectation) -> bool:
    """Whether a line `put` is about a register: it begins with the number of a slot."""
    return line.kind == "put" and number_of(line.words[0]) is not None


def values_put(line: Expectation) -> tuple[str, ...]:
    """What a line puts into memory or into a register."""
    if line.kind != "put":
        return ()
    return line.words[2:] if is_of_register(line) else line.words[1:]


def _with_values(line: Expectation, found: tuple[str, ...]) -> Expectation:
    """A line `put` with other values."""
    begin = line.words[: len(line.words) - len(values_put(line))]
    return Expectation(line.kind, (*begin, *found), line.text, line.number)


@dataclass
class Sheet:
    """An exercise."""

    name: str = ""
    title: str = ""
    folder: str = "."
    takes: tuple[str, ...] = ("asm",)
    file: Optional[str] = None
    start: Optional[str] = None
    answers: list[str] = field(default_factory=list)
    fakes: list[str] = field(default_factory=list)
    cases: list[Case] = field(default_factory=lambda: [Case()])

    @property
    def expectations(self) -> list[Expectation]:
        """What is expected of the run that is shown."""
        return self.cases[0].expectations

    def path(self, name: str) -> str:
        """A file that the sheet names, from its folder on."""
        return os.path.join(self.folder, name)


def wrong(name: str, number: int, why: str) -> Stop:
    return Stop(Status.REFUSED, f"mm: {name}:{number}: {why}")


def _fits(kind: str, words: tuple[str, ...]) -> bool:
    """Whether a line has one of the forms of its kind."""
    return any(_fits_form(kind, form.split()[1:], words) for form in FORMS[kind])


def _fits_form(kind: str, form: list[str], words: tuple[str, ...]) -> bool:
    many = form[-1].endswith("..") or kind in ("schedule", HIDDEN)
    # What a group prints may be nothing.
    least = len(form) - (kind in ("says", "differs"))
    # A word of small letters stands for itself.
    alike = all(word == wanted for word, wanted in zip(words, form) if wanted.isalpha() and wanted.islower())
    return alike and least <= len(words) and (many or len(words) <= len(form))


def operations_in(words: tuple[str, ...]) -> list[str]:
    """The operations that operands name: `ld`, `bz|bnz`, `jal*2`."""
    return [each for word in words for each in word.partition("*")[0].split("|")]


class _Reader:
    """A sheet that is being read."""

    def __init__(self, name: str, folder: str) -> None:
        self.sheet = Sheet(name, folder=folder)

    def refuse(self, number: int, why: str) -> Stop:
        return wrong(self.sheet.name, number, why)

    def line(self, number: int, line: str) -> None:
        kind = line.split()[0]
        if kind not in FORMS:
            near = nearest(kind, list(FORMS))
            meant = f"; do you mean `{near}`?" if near else f": {', '.join(FORMS)}"
            raise self.refuse(number, f"unknown line `{kind}`{meant}")
        rest = tuple(line.split(None, 2 if kind in OF_TEXT else -1)[1:])
        if not _fits(kind, rest):
            raise self.refuse(number, f"this line has the form `{' | '.join(FORMS[kind])}`")
        found = Expectation(kind, rest, line.strip(), number)
        self.operations(found)
        self.values(found)
        if kind in SETTINGS:
            self.setting(found)
        else:
            self.sheet.cases[-1].expectations.append(found)

    def operations(self, line: Expectation) -> None:
        first, last = OF_OPERATIONS.get(line.kind, (0, 0))
        unknown = [name for name in operations_in(line.words[first:last]) if name not in OPERATIONS]
        if unknown:
            near = nearest(unknown[0], list(OPERATIONS))
            meant = f"; do you mean `{near}`?" if near else ""
            raise self.refuse(line.number, f"unknown operation `{unknown[0]}`{meant}")

    def values(self, line: Expectation) -> None:
        """Refuses a value that is none, of a line that expects it or puts it somewhere."""
        put, of_register = values_put(line), is_of_register(line)
        # Before the offset of a pointer stands its permission.
        faults = [draws.not_put(word, of_register) for word in (put[-1:] if of_register else put)]
        if line.kind in OF_VALUES and line.words[-1] != PAST.get(line.kind):
            faults.append(not_a_value(line.words[OF_VALUES[line.kind]]))
        why = next(filter(None, faults), None)
        if why:
            raise self.refuse(line.number, why)

    def setting(self, line: Expectation) -> None:
        sheet, case, words = self.sheet, self.sheet.cases[-1], line.words
        if line.kind == HIDDEN:
            sheet.cases.append(Case(" ".join(words), number=line.number))
        elif line.kind in ONCE:
            if getattr(case, line.kind) is not None:
                raise self.refuse(line.number, f"this run has a line `{line.kind}` already")
            setattr(case, line.kind, " ".join(words))
        elif line.kind in OF_A_FILE:
            if getattr(sheet, OF_A_FILE[line.kind]) is not None:
                raise self.refuse(line.number, f"this exercise has a line `{line.kind}` already")
            setattr(sheet, OF_A_FILE[line.kind], words[0])
        elif line.kind == "takes":
            other = next((word for word in words if word not in KINDS), None)
            if other is not None:
                raise self.refuse(line.number, f"unknown kind of answer `{other}`: {', '.join(KINDS)}")
            sheet.takes = words
        elif any(line.kind in row.kinds for row in OF_RUN):
            case.inputs.append(line)
        else:
            (sheet.answers if line.kind == "answer" else sheet.fakes).extend(words)

    def whole(self) -> Sheet:
        """The sheet, once all its lines are read."""
        drawn = next((line for line in self.sheet.cases[0].inputs if any(map(draws.draw_in, values_put(line)))), None)
        if drawn:
            raise self.refuse(drawn.number, "inputs are drawn for a `hidden` run")
        for case in self.sheet.cases:
            if not case.expectations:
                run = f" of the run `{case.title}`" if case.title else ""
                raise self.refuse(case.number, f"nothing is expected{run}")
            like = next((line for line in case.expectations if line.kind == "like"), None)
            if like and not self.sheet.answers:
                raise self.refuse(like.number, "this line asks the first `answer`, and the exercise names none")
        return self.sheet


def read_sheet(name: str, text: str, folder: str = ".") -> Sheet:
    """The exercise that a text means. The first comment is its title."""
    reader = _Reader(name, folder)
    for number, line in enumerate(text.splitlines(), 1):
        if line.lstrip().startswith("#"):
            reader.sheet.title = reader.sheet.title or line.lstrip("# ").strip()
        elif line.strip():
            reader.line(number, line)
    return reader.whole()
