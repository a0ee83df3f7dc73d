"""A mark for each line of an exercise, and one for each of its runs with other inputs."""

from __future__ import annotations

from dataclasses import dataclass
from functools import cached_property
from typing import Optional

from mm.build import Built
from mm.console import Console
from mm.grading import draws
from mm.grading.checks import OF_THE_END, Check
from mm.grading.doings import OF_A_RUN
from mm.grading.inputs import other_inputs, told
from mm.grading.keeping import OF_KEEPING
from mm.grading.lines import HIDDEN
from mm.grading.official import OF_THE_ANSWER
from mm.grading.parts import OF_PARTS
from mm.grading.program import NotSo, Program, WrongLine
from mm.grading.sheet import Case, Expectation, Sheet, wrong
from mm.status import Refused, Status, Stop

CHECKS: dict[str, Check] = {**OF_THE_END, **OF_THE_ANSWER, **OF_A_RUN, **OF_PARTS, **OF_KEEPING}
NOTHING_DONE = "this counts once something else of the exercise is done"
ONLY_HERE = "it is so here, but not with other inputs"
UNTITLED = "other inputs"
# How many operands of a line come before the value that it expects.
VALUES = {"register": 2, "word": 1, "says": 1, "differs": 1, "matches": 1, "gives": 2}
# Lines about what a group prints.
OF_OUTPUT = ("says", "differs", "matches", "shows", "letters")


@dataclass(frozen=True)
class Mark:
    """A line of an exercise, and what is so in its place; nothing if it is as it should be."""

    expectation: Expectation
    why_not: Optional[str]

    @property
    def right(self) -> bool:
        return self.why_not is None


def mark(program: Program, line: Expectation) -> Mark:
    """What is not so of a line."""
    try:
        return Mark(line, CHECKS[line.kind](program, *line.words))
    except NotSo as not_so:
        return Mark(line, str(not_so))
    except WrongLine as why:
        raise wrong(program.sheet.name, line.number, str(why)) from None


class Grading:
    """An exercise by which programs are graded. The same seed draws the same inputs."""

    def __init__(self, console: Console, sheet: Sheet, seed: int) -> None:
        self.console, self.sheet, self.seed = console, sheet, seed

    def _built(self, name: str) -> Built:
        """A program that the sheet names."""
        try:
            return self.console.workshop.build([self.sheet.path(name)])
        except Refused:
            raise WrongLine(f"{name} cannot be read, or has a mistake") from None

    @cached_property
    def answer(self) -> Built:
        """The first answer of the sheet."""
        return self._built(self.sheet.answers[0])

    @cached_property
    def start(self) -> Optional[Built]:
        """The source that the exercise gives, if it gives one."""
        try:
            return self._built(self.sheet.start) if self.sheet.start is not None else None
        except WrongLine as why:
            raise Stop(Status.REFUSED, f"mm: {self.sheet.name}: {why}") from None

    def program(self, built: Built, case: Case) -> Program:
        """A program under a run."""

        def other(one: Built) -> Built:
            return other_inputs(self.console, one, self.sheet, case)

        def official() -> Program:
            return Program(self.console, other(self.answer), self.sheet, case)

        return Program(self.console, other(built), self.sheet, case, official)

    def shown(self, built: Built) -> list[Mark]:
        """A mark for each line of the run that is shown."""
        try:
            program = self.program(built, self.sheet.cases[0])
        except NotSo as not_so:
            return [Mark(line, str(not_so)) for line in self.sheet.expectations]
        return [mark(program, line) for line in self.sheet.expectations]

    def hidden(self, built: Built, case: Case) -> tuple[Mark, list[Expectation]]:
        """One mark for a run with other inputs, and what is not so in it. A run with inputs that are drawn is made
        several times, and the first one that is not as it should be is told."""
        title = Expectation(HIDDEN, (), case.title or UNTITLED, case.number)
        for time in range(draws.TIMES if case.is_drawn else 1):
            try:
                failed = self._failed(built, case.drawn(self.seed, time))
            except NotSo as not_so:
                return Mark(title, str(not_so)), case.expectations
            except WrongLine as why:
                raise wrong(self.sheet.name, case.number, str(why)) from None
            if failed:
                drawn = case.drawn(self.seed, time) if case.is_drawn else None
                why_not = self._shown(drawn, failed) if drawn else _not_shown(failed)
                return Mark(title, why_not), [one.expectation for one in failed]
        return Mark(title, None), []

    def _failed(self, built: Built, case: Case) -> list[Mark]:
        program = self.program(built, case)
        return [one for one in (mark(program, line) for line in case.expectations) if not one.right]

    def _shown(self, case: Case, failed: list[Mark]) -> str:
        """What is told of a run with inputs that were drawn: all, since nobody knows them before."""
        lines = "; ".join(f"{one.expectation.text}: {one.why_not}" for one in failed)
        return f"with {told(case)} (`--seed {self.seed}`) this is not right: {lines}"

    def is_new(self, one: Mark, case: Optional[Case]) -> bool:
        """Whether a mark is right, and neither an empty program nor the source that the exercise gives has it."""
        return one.right and not (case or one.expectation).is_condition and not self._is_given(one.expectation, case)

    def _is_given(self, line: Expectation, case: Optional[Case]) -> bool:
        """Whether the source that the exercise gives meets a line, or all of another run."""
        if self.start is None:
            return False
        if case is not None:
            return self.hidden(self.start, case)[0].right
        return next(one.right for one in self.of_start if one.expectation is line)

    @cached_property
    def of_start(self) -> list[Mark]:
        return self.shown(self.start) if self.start is not None else []


def _not_shown(failed: list[Mark]) -> str:
    """What is told of a run with inputs that a student shall not see."""
    kinds = ", ".join(dict.fromkeys(_named(one.expectation) for one in failed))
    return f"with other inputs, which are not shown, these lines are not right: {kinds}"


def marks(console: Console, built: Built, sheet: Sheet, seed: Optional[int] = None) -> list[Mark]:
    """Each line of the run that is shown, with what is not so, and then each other run as one line.

    A result that is right here alone, and not in another run, is not right. A line that an empty program meets too, or
    the source that the exercise gives, is not right as long as nothing else is."""
    grading = Grading(console, sheet, draws.new_seed() if seed is None else seed)
    hidden = [grading.hidden(built, case) for case in sheet.cases[1:]]
    failed = {_about(line) for _, lines in hidden for line in lines}
    shown = [
        Mark(one.expectation, ONLY_HERE) if one.right and _about(one.expectation) in failed else one
        for one in grading.shown(built)
    ]
    cases: list[tuple[Mark, Optional[Case]]] = [(one, None) for one in shown]
    cases += [(one, case) for (one, _), case in zip(hidden, sheet.cases[1:])]
    found = [one for one, _ in cases]
    if any(grading.is_new(one, case) for one, case in cases):
        return found
    return [Mark(one.expectation, NOTHING_DONE) if one.right else one for one in found]


def _about(line: Expectation) -> tuple[str, ...]:
    """What a line is about, without the value that it expects."""
    kind, *words = line.words if line.kind == "like" else (line.kind, *line.words)
    kept = words[: VALUES.get(kind, len(words))]
    return ("output", kept[0]) if kind in OF_OUTPUT else (kind, *kept)


def _named(line: Expectation) -> str:
    """A line without the values that would give an input away."""
    most = VALUES.get(line.kind, len(line.words))
    return " ".join([line.kind, *line.words[:most], *([".."] if most < len(line.words) else [])])
