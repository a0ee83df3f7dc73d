"""The lines that the text of an exercise can have: how each is written, and what it means. `mm help` shows a row of
these tables, and GRADING.md has them all."""

from __future__ import annotations

from typing import Iterator

from mm.records import dataclass


@dataclass(frozen=True)
class Row:
    """One or several forms of lines, with what they mean."""

    forms: tuple[str, ...]
    meaning: str

    @property
    def kinds(self) -> list[str]:
        """The first words of the forms, each once."""
        return list(dict.fromkeys(form.split()[0] for form in self.forms))

    @property
    def page(self) -> str:
        """The row as GRADING.md has it."""
        forms = ", ".join(f"`{form}`" for form in self.forms)
        meaning = self.meaning.replace("|", "\\|")
        return f"| {forms} | {meaning} |"


def _row(*words: str) -> Row:
    *forms, meaning = words
    return Row(tuple(forms), meaning)


HIDDEN = "hidden"
# fmt: off
OF_SHEET = (
    _row("takes KIND..", "which files are answers: `asm`, `c`, `object`, `image`; without this line `asm` alone"),
    _row("file NAME", "the file of a student's folder that is the answer"),
    _row("from FILE", "the source that the exercise gives: what it meets counts only if some other line is right"),
    _row("answer FILE..", "fake FILE..", "programs that `--check` tries: each answer must have all points, and no fake may"),
    _row("hidden TITLE", "another run begins; the lines after it are about this run"),
)
OF_RUN = (
    _row("cycles N", "the run has at most N cycles; without this line 100,000"),
    _row("schedule ITEMS", "the run follows this schedule (`mm help schedules`); without this line it is in round robin"),
    _row("put NAME VALUE..", "these integers are in memory from this label or segment on"),
    _row("put SLOT rN VALUE", "the register begins with this integer, or with a pointer that is drawn (`pointer`)"),
    _row("put SLOT rN PERMISSION OFFSET", "the register begins with a pointer with this permission, OFFSET bytes into the segment to which it pointed"),
    _row("code SLOT FILE SEGMENT", "the slot runs this segment of a source in place of its own code"),
)
OF_END = (
    _row("says GROUP TEXT", "differs GROUP TEXT", "the output of the group is this text, or is another one; `\\n`, `\\x07` and the like stand for bytes; `says` without TEXT means no output"),
    _row("matches GROUP PATTERN", "the whole output of the group matches this pattern, a regular expression of Python"),
    _row("shows GROUP NAME", "the last byte that the group prints is the low byte of the word there, as it is at the end"),
    _row("halts SLOT..", "each of these slots has halted without a fault"),
    _row("runs SLOT OPERATION..", "the slot still runs, and has carried out each of these operations in the second half of the run"),
    _row("faults SLOT FAULT", "faults SLOT FAULT OPERATION", "this fault has stopped the slot, at such an operation; FAULT is a name, such as `Bounds`, or a number"),
    _row("stops SLOT VALUE", "the slot stands at a word with this value, or (`past`) past the end of its segment"),
    _row("together SLOT..", "these slots stand at the same instruction"),
    _row("register SLOT rN VALUE", "word NAME VALUE", "the register, or the word at this label or segment, has this value"),
    _row("changes NAME", "the word there is not what it was at the beginning"),
    _row("like says GROUP", "like letters GROUP", "like register SLOT rN", "like word NAME", "the output, its letters in any order, the register or the word is as in the first `answer` with the same inputs"),
    _row("fields SLOT rA rB rC rP", "rA, rB and rC have the permission, the length and the address of the pointer with which rP began"),
    _row("clears SLOT", "through its registers the slot can load and store only where it could at the beginning"),
)
OF_DOINGS = (
    _row("executes SLOT OPERATION..", "the slot has carried out each of these operations; `bnz|bz` means one of the two, `jal*2` at least two of them"),
    _row("repeats SLOT OPERATION N", "the slot has carried out one such instruction at least N times: a loop"),
    _row("gives SLOT OPERATION VALUE", "such an instruction of the slot has given this value"),
    _row("twins SLOT OPERATION", "such an instruction has given a pointer, and another one the integer with the same bits"),
    _row("reloads SLOT OPERATION", "the slot has stored a pointer and the integer with the same bits, loaded both from there, and carried out this operation on each"),
    _row("through SLOT VALUE", "loses SLOT", "forges SLOT NAME", "what the instruction at which a fault stopped the slot used as a pointer: this; or an integer with the bits of a pointer that the slot has held; or with those of a pointer to this place"),
    _row("stores SLOT NAME", "loads SLOT NAME", "empties SLOT NAME", "the slot has stored there; or loaded from there; or, by a load, changed the synchronisation bit there, as one that takes a lock"),
    _row("enters SLOT NAME N", "doors SLOT N", "the slot has gone to this place, or (`any`) to any, through an enter pointer exactly N times; or to at least N different places"),
    _row("hides SLOT NAME", "the slot has called this place through an enter pointer, and after it each register has what it had before, or 0, or the way back"),
    _row("holds SLOT NAME..", "at one moment the slot has taken all these words by their bits, and given none back"),
)
OF_PROGRAM = (
    _row("given FILE SEGMENT..", "these segments are as in this source"),
    _row("starts FILE SLOT..", "these threads have the groups, handlers, permissions and registers that they have in this source, and no other pointers"),
    _row("slots SLOT..", "there are threads in these slots and in no others"),
    _row("lacks SLOT NAME", "the thread has no pointer by which it could load or store there, in a register or in memory that it can load without a gate"),
    _row("alike SLOT rN SLOT rN", "the first register begins with a pointer, and the second with the integer of the same bits"),
    _row("apart GROUP..", "shares GROUP..", "these groups are there, and by the audit they stand apart from the rest together, or do not"),
    _row("can GROUP KIND NAME", "cannot GROUP KIND NAME", "by the audit the group can touch, or write, all of this place (KIND is `touch` or `write`), or cannot"),
    _row("common GROUP GROUP", "by the audit the first group can write a word that the second can touch"),
    _row("own GROUP", "the group has a pointer to data that no other group can touch, in a register or in memory that it can load"),
    _row("keeps NAME..", "a gate keeps these segments, whatever its callers do; `gates` means all behind enter pointers, `NAME*` all that begin so"),
    _row("outcomes N", "over all schedules, the program can end or go on for ever in exactly N ways (`mm explore`)"),
    _row("never stuck", "never faults", "under no schedule does the program get stuck or go on for ever, or a slot fault"),
    _row("uses OPERATION..", "without OPERATION..", "each of these operations is in the source; or none is, and none is carried out"),
)
# fmt: on
# Each table with the heading that GRADING.md has over it.
TABLES = {
    "line of the exercise": OF_SHEET,
    "line of a run": OF_RUN,
    "line about the end of a run": OF_END,
    "line about what was carried out": OF_DOINGS,
    "line about the program": OF_PROGRAM,
}
ROWS = tuple(row for rows in TABLES.values() for row in rows)
KINDS = tuple(dict.fromkeys(kind for row in ROWS for kind in row.kinds))
# What each kind of line may look like.
FORMS = {kind: tuple(form for row in ROWS for form in row.forms if form.split()[0] == kind) for kind in KINDS}
SETTINGS = tuple(kind for row in (*OF_SHEET, *OF_RUN) for kind in row.kinds)
# Lines that an empty program meets too. They count if something else of the exercise is done.
CONDITIONS = frozenset("halts together apart cannot never outcomes without given starts slots lacks alike clears".split())
CONDITION = "even an empty program can meet it, so it counts only if some other line is right"
# What the word VALUE in a form stands for.
VALUE_PUT = "VALUE is an integer, or is drawn for each grading: `65..90` from this range, `random` from all, "
VALUE_PUT += "`random*4` four times"
VALUE = "VALUE is an integer or, for any word of its kind, `integer`, `pointer`, a permission such as `ro`, or a length "
VALUE += "such as `2^4`"


def line_lines(kind: str) -> Iterator[str]:
    """What `mm help` shows of a kind of line."""
    for row in ROWS:
        if kind in row.kinds:
            yield ", ".join(row.forms)
            yield f"    {row.meaning}"
    if any("VALUE" in form for form in FORMS[kind]):
        yield f"    {VALUE_PUT if kind == 'put' else VALUE}"
    if kind in CONDITIONS:
        yield f"    {CONDITION}"
    yield "    a line of an exercise of `mm grade`; docs/course/GRADING.md has all of them"
