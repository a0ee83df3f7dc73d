"""Audits: what each group can touch and write."""

from __future__ import annotations

from typing import Optional

from mm.records import dataclass, field


@dataclass
class Reach:
    """What one group is granted: segments as their first address and the logarithm of their length."""

    group: int
    privileged: bool
    touch: list[tuple[int, int]] = field(default_factory=list)
    write: list[tuple[int, int]] = field(default_factory=list)


@dataclass(frozen=True)
class Apart:
    """Whether groups stand apart from all others; if not, the group that writes and the word, or the slot whose handler is on the other side."""

    groups: str
    apart: bool
    writer: Optional[int] = None
    word: Optional[int] = None
    handler: Optional[int] = None


@dataclass
class Audit:
    """An audit: what each group can reach, and the apart lines by their groups."""

    reaches: list[Reach] = field(default_factory=list)
    aparts: list[Apart] = field(default_factory=list)


def read_apart(words: list[str]) -> Apart:
    """What the words of a line say of groups that stand apart, or not."""
    if words[2] == "writer":
        return Apart(words[1], False, writer=int(words[3]), word=int(words[5], 16))
    return Apart(words[1], words[2] == "yes", handler=int(words[3]) if words[2] == "handler" else None)


def read_audit(text: str) -> Audit:
    """The audit that a text spells."""
    audit = Audit()
    for line in text.splitlines():
        words = line.split()
        if words[0] == "group":
            audit.reaches.append(Reach(int(words[1]), words[2] == "privileged"))
        elif words[0] == "apart":
            audit.aparts.append(read_apart(words))
        else:
            segments = audit.reaches[-1].touch if words[0] == "touch" else audit.reaches[-1].write
            segments.append((int(words[1], 16), int(words[2])))
    return audit
