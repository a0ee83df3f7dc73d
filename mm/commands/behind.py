"""Audits, also with the doors shut, and what only a door leads to."""

from __future__ import annotations

from shlex import quote
from typing import Optional

from mm.build import Built
from mm.console import Console
from mm.formats.image import image_bytes
from mm.formats.shut import with_doors_shut
from mm.names.kept import Segment
from mm.outputs.audit import Audit, read_audit
from mm.table import NAMES
from mm.views.keptwords import KeptWords


def audit_of(console: Console, built: Built, shut: bool = False, groups: Optional[str] = None) -> Audit:
    """The audit of an image, or of the image in which each enter pointer is a key."""
    path = console.workshop.keep(image_bytes(with_doors_shut(built.image)), ".img") if shut else built.path
    return read_audit(console.ask(["grants", path, *([groups] if groups else [])], [built.file]).text)


def behind_doors(console: Console, built: Built, audit: Audit) -> list[Segment]:
    """The segments that groups can touch, but not with the doors shut: ascending, none of them in another. Who is privileged can
    touch all, and then none is told."""
    if any(reach.privileged for reach in audit.reaches):
        return []
    shut = audit_of(console, built, True)
    without = {segment for reach in shut.reaches for segment in reach.touch}
    found: list[Segment] = []
    for base, log in sorted({segment for reach in audit.reaches for segment in reach.touch}, key=lambda one: (one[0], -one[1])):
        inside = any(at <= base and base + (1 << log) <= at + (1 << length) for at, length in without)
        if not inside and not (found and base < found[-1][0] + (1 << found[-1][1])):
            found.append((base, log))
    return found


def names_of(built: Built, segments: list[Segment]) -> list[str]:
    words = KeptWords(built.symbols)
    return [words.segment(*segment) for segment in segments]


def patterns_of(built: Built, names: list[str]) -> list[str]:
    """The same segments in fewer words: `gate_*` in the place of all whose names begin so."""
    found: list[str] = []
    for name in names:
        begin, under, _ = name.partition("_")
        alike = [region.name for region in built.symbols.regions if region.name.startswith(begin + "_")]
        word = f"{begin}_*" if under and len(alike) > 1 and set(alike) <= set(names) else name
        if word not in found:
            found.append(word)
    return found


def asked_of(console: Console, built: Built, segments: list[str]) -> str:
    """The command that asks whether segments are kept."""
    names = [word for name in console.said.all(NAMES) for word in (NAMES.name, name)]
    return " ".join(map(quote, ["mm", "keeps", *console.file_words, *names, *patterns_of(built, segments)]))
