"""The line that `mmachine` writes on its standard error where it refuses."""

from __future__ import annotations

import re
from enum import Enum
from typing import Optional

from mm.records import dataclass


class RefusalKind(Enum):
    """The lines, each as a pattern whose groups are a file, a fault, places and names."""

    USAGE = r"usage"
    TOO_LONG = r"file (?P<file>\d+) too long"
    IMAGE = r"file (?P<file>\d+) image fault (?P<fault>\d+) at (?P<offset>\d+)"
    OBJECT = r"file (?P<file>\d+) object fault (?P<fault>\d+) at (?P<offset>\d+)"
    CHECKPOINT = r"file (?P<file>\d+) checkpoint fault at (?P<offset>\d+)"
    SCHEDULE = r"file (?P<file>\d+) schedule fault at (?P<offset>\d+)"
    LINKS = r"file (?P<file>\d+) links fault at (?P<offset>\d+)"
    SOURCE = r"source fault (?P<fault>\d+) at (?P<line>\d+):(?P<column>\d+)"
    LINK = r"link fault (?P<fault>\d+) (?P<name>\S+)"
    NO_GROUP = r"no group"
    CROSSES = r"crosses slot (?P<slot>\d+)"
    HELD = r"held slot (?P<slot>\d+)"
    PRIVILEGED = r"privileged group (?P<group>\d+)"
    NO_NODE = r"no node link (?P<link>\d+)"
    READ_FAULT = r"read fault"
    WRITE_FAULT = r"write fault"
    NO_MEMORY = r"out of memory"


PATTERNS = [(kind, re.compile("mmachine: " + kind.value)) for kind in RefusalKind]


@dataclass(frozen=True)
class Refusal:
    """A refusal: its kind, and the numbers and the name in its line."""

    kind: RefusalKind
    numbers: dict[str, int]
    name: str = ""

    def __getitem__(self, key: str) -> int:
        return self.numbers[key]


def read_refusal(line: str) -> Optional[Refusal]:
    """What a line says, or none if it is no such line."""
    for kind, pattern in PATTERNS:
        match = pattern.fullmatch(line)
        if match:
            groups = match.groupdict()
            name = groups.pop("name", "") or ""
            return Refusal(kind, {key: int(value) for key, value in groups.items()}, name)
    return None
