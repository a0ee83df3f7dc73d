"""Marks as they are told: as text for one student or for a teacher, as CSV, and as JSON."""

from __future__ import annotations

import csv
import io
from typing import Any, Iterator, Sequence

from mm.grading.sheet import Sheet
from mm.grading.worker import Graded
from mm.shown import visible

FORM = 1
# A table of numbers takes a cell that begins so for something to calculate.
CALCULATED = ("=", "+", "-", "@", "\t", "\r")


def feedback(sheet: Sheet, name: str, graded: Graded) -> Iterator[str]:
    """What a student is shown."""
    yield f"{name}: {sheet.title}" if sheet.title else name
    if graded.refused:
        yield from (f"  {line}" for line in graded.refused)
        yield "refused"
        return
    for line in graded.lines:
        yield f"  {'yes' if line.right else 'no '}  {line.asked}"
        if not line.right:
            yield f"       {line.why}"
    kinds = [asked.kind for asked, line in zip(sheet.expectations, graded.lines) if not line.right]
    if kinds:
        yield f"`mm help {kinds[0]}` explains a line `{kinds[0]}`"
    yield f"{graded.points} of {len(graded.lines)}"


def table(sheet: Sheet, name: str, all_graded: Sequence[Graded]) -> Iterator[str]:
    """A line for each student."""
    yield f"{name}: {sheet.title}" if sheet.title else name
    width = max(len(visible(graded.name)) for graded in all_graded)
    for graded in all_graded:
        said = f"{graded.points} of {len(graded.lines)}"
        missing = [line.asked for line in graded.lines if not line.right]
        if graded.refused:
            said, missing = "refused", graded.refused[:1]
        more = f"  {'; '.join(missing)}" if missing else ""
        yield f"  {visible(graded.name):<{width}}  {said}{more}"
    right = sum(not graded.refused and graded.points == len(graded.lines) for graded in all_graded)
    refused = sum(bool(graded.refused) for graded in all_graded)
    some = len(all_graded) - right - refused
    yield f"{len(all_graded)} answers: {right} with all points, {some} without, {refused} refused"


def _cell(text: str) -> str:
    """A cell that no program takes for something to calculate."""
    shown = visible(text)
    return f"'{shown}" if shown.startswith(CALCULATED) else shown


def as_csv(sheet: Sheet, all_graded: Sequence[Graded]) -> str:
    """A row for each student, and a column for each line of the exercise."""
    file = io.StringIO()
    writer = csv.writer(file, lineterminator="\n")
    asked = _asked(sheet)
    writer.writerow(["answer", "points", "of", "refused", *map(_cell, asked)])
    for graded in all_graded:
        marks: list[object] = [int(line.right) for line in graded.lines] or [0] * len(asked)
        refused = _cell(graded.refused[0]) if graded.refused else ""
        writer.writerow([_cell(graded.name), graded.points, len(asked), refused, *marks])
    return file.getvalue()


def _asked(sheet: Sheet) -> list[str]:
    """The lines of an exercise, as marks have them."""
    from mm.grading.marks import UNTITLED

    return [line.text for line in sheet.expectations] + [case.title or UNTITLED for case in sheet.cases[1:]]


def as_form(sheet: Sheet, name: str, all_graded: Sequence[Graded]) -> dict[str, Any]:
    """The form of JSON."""
    answers = [
        {
            "answer": visible(graded.name),
            "points": graded.points,
            "of": len(_asked(sheet)),
            "refused": "\n".join(graded.refused) or None,
            "marks": [{"asked": line.asked, "right": line.right, "why": line.why or None} for line in graded.lines],
        }
        for graded in all_graded
    ]
    return {"form": FORM, "exercise": name, "title": sheet.title, "answers": answers}
