"""`mm audit`: what each group can read and write."""

from __future__ import annotations

from typing import Iterator

from mm.build import Built
from mm.commands.behind import asked_of, audit_of, behind_doors, names_of
from mm.console import Console
from mm.formats.shut import has_doors
from mm.outputs.audit import Audit
from mm.status import Status
from mm.table import DOORS_SHUT, GROUPS, JSON
from mm.views.audit import AuditView
from mm.views.data import audit_form
from mm.views.keptwords import shortly
from mm.words import groups_of

SHUT = ("with the doors shut: each enter pointer counts as a key, by which nobody enters anything", "")


def run(console: Console) -> int:
    built = console.build(console.words)
    groups, shut = console.said.value(GROUPS), console.said.has(DOORS_SHUT)
    audit = audit_of(console, built, shut, groups_of(groups) if groups is not None else None)
    here, doors = {slot.group for slot in built.image.slots}, has_doors(built.image)
    empty = [group for group in groups_of(groups).split(",") if int(group) not in here] if groups is not None else []
    if empty:
        console.tell(f"mm: note: no thread is in group {', '.join(empty)}")
    if shut and not doors:
        console.tell("mm: note: there is no enter pointer, so there is no door to shut")
    if console.said.has(JSON):
        console.write_json({**audit_form(audit, built.symbols), "doors_shut": shut})
        return Status.DONE
    slots: dict[int, list[int]] = {}
    for slot in built.image.slots:
        slots.setdefault(slot.group, []).append(slot.number)
    console.write(SHUT if shut else ())
    console.write(AuditView(built.symbols, console.style).lines(audit, slots))
    if doors and not shut:
        console.write(hint(console, built, audit))
    return Status.DONE


def hint(console: Console, built: Built, audit: Audit) -> Iterator[str]:
    """What an audit cannot say of the code behind doors, and what can."""
    behind = names_of(built, behind_doors(console, built, audit))
    if behind:
        yield ""
        yield f"only doors lead to {shortly(behind)}; an audit takes the code there for unknown, and this reads it:"
        yield f"  {asked_of(console, built, behind)}"
