"""`mm grade`: whether a program is what an exercise asks for."""

from __future__ import annotations

import glob
import os
from typing import Iterator, Optional, Sequence

from mm.build import read_file
from mm.console import Console
from mm.grading.answers import Answer, answers_in, one_answer
from mm.grading.draws import new_seed
from mm.grading.sheet import Sheet, read_sheet
from mm.grading.told import as_csv, as_form, feedback, table
from mm.grading.worker import Graded, grade
from mm.machine.program import CHECKOUT
from mm.names.numbers import number_of
from mm.status import Status, Stop, usage
from mm.table import C, CHECK, CSV, FEEDBACK, JSON, SEED

FOLDER = os.path.join(CHECKOUT, "docs", "course", "grade")


def exercises() -> list[str]:
    """The names of the exercises that are there."""
    return sorted(os.path.basename(path)[:-4] for path in glob.glob(os.path.join(FOLDER, "*.txt")))


def sheet_of(name: str) -> Sheet:
    """What an exercise of the course asks for."""
    path = os.path.join(FOLDER, f"{name}.txt")
    return read_sheet(os.path.relpath(path), read_file(path).decode("utf-8", "replace"), FOLDER)


def seed_of(text: Optional[str]) -> int:
    """The seed of --seed, or a new one."""
    seed = new_seed() if text is None else number_of(text)
    if seed is None or seed < 0:
        raise usage(f"mm: `{text}` is not a seed: a number, as the feedback names it")
    return seed


class Grader:
    """An exercise, and what grades answers to it: all with the same inputs."""

    def __init__(self, console: Console, name: str) -> None:
        path = name if os.path.isfile(name) else os.path.join(FOLDER, f"{name}.txt")
        if not os.path.isfile(path):
            raise usage(f"mm: grade: there is no exercise `{name}`: {', '.join(exercises())}, or a file of your own")
        self.console, self.name = console, os.path.splitext(os.path.basename(path))[0]
        self.text = read_file(path).decode("utf-8", "replace")
        self.sheet: Sheet = read_sheet(os.path.relpath(path), self.text, os.path.dirname(path))
        self.seed = seed_of(console.said.value(SEED))

    def of(self, answer: Answer) -> Graded:
        said = self.console.said
        options = {option.name: said.all(option) for option in C if said.has(option)}
        return grade(self.sheet, self.text, answer, self.console.program.path, options, self.seed)

    def file(self, name: str) -> Graded:
        """The marks of a file that the sheet names."""
        return self.of(one_answer(self.sheet, [self.sheet.path(name)]))


def _one(console: Console, grader: Grader, files: Sequence[str]) -> int:
    """Grades the answer that files make."""
    graded = grader.of(one_answer(grader.sheet, files))
    if console.said.has(JSON):
        console.write_json(as_form(grader.sheet, grader.name, [graded]))
    elif console.said.has(CSV):
        console.out.write(as_csv(grader.sheet, [graded]))
    elif graded.refused:
        raise Stop(graded.status, *graded.refused)
    else:
        console.write(feedback(grader.sheet, grader.name, graded))
    return graded.status or (Status.DONE if graded.points == len(graded.lines) else Status.USAGE)


def _all(console: Console, grader: Grader, folder: str) -> int:
    """Grades the answers of a folder."""
    place = console.said.value(FEEDBACK)
    if place is not None and os.path.commonpath([os.path.realpath(each) for each in (place, folder)]) == os.path.realpath(folder):
        raise usage(f"mm: grade: {place} is in the folder of the answers: give --feedback another one")
    found = [grader.of(answer) for answer in answers_in(grader.sheet, folder)]
    if place is not None:
        _write_feedback(grader, place, found)
    if console.said.has(JSON):
        console.write_json(as_form(grader.sheet, grader.name, found))
    elif console.said.has(CSV):
        console.out.write(as_csv(grader.sheet, found))
    else:
        console.write(table(grader.sheet, grader.name, found))
    return Status.DONE


def _write_feedback(grader: Grader, place: str, found: Sequence[Graded]) -> None:
    """Writes what each student is shown into a file of the student's name."""
    from mm.outfile import write_whole
    from mm.shown import shown

    try:
        os.makedirs(place, exist_ok=True)
        for graded in found:
            text = "".join(shown(line) + "\n" for line in feedback(grader.sheet, grader.name, graded))
            path = os.path.join(place, f"{graded.name}.txt")
            if os.path.islink(path):
                raise Stop(Status.WRITE_FAULT, f"mm: {path} is a link: feedback is written into files alone")
            write_whole(path, text.encode("utf-8", "backslashreplace"))
    except OSError as error:
        raise Stop(Status.WRITE_FAULT, f"mm: {place}: cannot be written: {error.strerror}") from None


def _tried(grader: Grader) -> Iterator[tuple[str, bool]]:
    """Each answer and each fake of a sheet, and the source that it gives, with whether it gets what it should."""
    for name in grader.sheet.answers:
        graded = grader.file(name)
        full = not graded.refused and graded.points == len(graded.lines)
        yield f"answer {name}: " + _points(graded), full
    for name in grader.sheet.fakes:
        graded = grader.file(name)
        full = not graded.refused and graded.points == len(graded.lines)
        yield f"fake {name}: " + _points(graded), not full
    if grader.sheet.start is not None:
        graded = grader.file(grader.sheet.start)
        yield f"from {grader.sheet.start}: " + _points(graded), not graded.refused and not graded.points


def _points(graded: Graded) -> str:
    return f"refused: {graded.refused[0]}" if graded.refused else f"{graded.points} of {len(graded.lines)}"


def _check(console: Console, grader: Grader) -> int:
    """Tries a sheet: each answer that it names must have all points, no fake may, and what it gives must have none."""
    if not grader.sheet.answers:
        raise usage(f"mm: grade: {grader.sheet.name} names no answer by which it can be checked: write `answer FILE`")
    good = True
    for line, is_so in _tried(grader):
        console.write([f"  {'yes' if is_so else 'no '}  {line}"])
        good = good and is_so
    return Status.DONE if good else Status.USAGE


def run(console: Console) -> int:
    name, *files = console.words
    grader = Grader(console, name)
    if console.said.has(CHECK):
        if files:
            raise usage("mm: grade: --check takes an exercise alone: mm grade EXERCISE --check")
        return _check(console, grader)
    if not files:
        raise usage("mm: grade: missing FILE", "    usage: mm grade EXERCISE FILE..")
    if console.said.has(JSON) and console.said.has(CSV):
        raise usage("mm: grade: give --json or --csv, not both")
    if len(files) == 1 and os.path.isdir(files[0]):
        return _all(console, grader, files[0])
    if console.said.has(FEEDBACK):
        raise usage("mm: grade: --feedback goes with a folder of answers")
    return _one(console, grader, files)
