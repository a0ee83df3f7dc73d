"""Results for other programs: JSON, and the XML of JUnit that servers for continuous integration read."""

from __future__ import annotations

import json
import sys
import time
from collections import Counter
from dataclasses import asdict, dataclass, field
from typing import Any, Optional
from xml.sax.saxutils import escape, quoteattr

EVERY_SECONDS = 5.0


@dataclass
class Result:
    """What came of a case: nothing told if it is the same. `more` has keys of its own in JSON: turn, wanted, came."""

    theme: str
    case: str
    told: list[str] = field(default_factory=list)
    seconds: float = 0.0
    more: dict[str, Any] = field(default_factory=dict)

    @property
    def differs(self) -> bool:
        return bool(self.told)

    @property
    def keys(self) -> dict[str, Any]:
        """What JSON has of it."""
        found = asdict(self)
        more = found.pop("more")
        return {**found, **more}


@dataclass
class Results:
    """All results of a run, and how far it is."""

    name: str
    total: int
    rows: list[Result] = field(default_factory=list)
    progress: bool = False
    began: float = field(default_factory=time.monotonic)
    ended: float = 0.0
    said: float = 0.0

    def add(self, row: Result) -> None:
        """Adds a result with the seconds since the one before, and says now and then how far the run is."""
        now = time.monotonic()
        row.seconds = round(now - max(self.began, self.ended), 3)
        self.ended = now
        self.rows.append(row)
        if self.progress and now - max(self.began, self.said) >= EVERY_SECONDS:
            self.said = now
            text = f"{len(self.rows)} of {self.total} cases, {self.differing} differ, {now - self.began:.0f} s"
            print(f"{self.name}: {text}", file=sys.stderr, flush=True)

    @property
    def differing(self) -> int:
        return sum(row.differs for row in self.rows)

    def by_theme(self) -> list[tuple[str, int, int]]:
        """Each theme with how many of its cases were tried, and how many differ."""
        tried = Counter(row.theme for row in self.rows)
        differ = Counter(row.theme for row in self.rows if row.differs)
        return [(theme, count, differ[theme]) for theme, count in tried.items()]

    def json(self) -> str:
        themes = {theme: {"cases": count, "differ": differ} for theme, count, differ in self.by_theme()}
        whole = {"cases": len(self.rows), "differ": self.differing, "themes": themes}
        return json.dumps({**whole, "results": [row.keys for row in self.rows]}, indent=1) + "\n"

    def junit(self) -> str:
        lines = ['<?xml version="1.0" encoding="UTF-8"?>', "<testsuites>"]
        for theme, count, differ in self.by_theme():
            suite = quoteattr(f"{self.name}.{theme}")
            lines.append(f'  <testsuite name={suite} tests="{count}" failures="{differ}">')
            for row in self.rows:
                if row.theme == theme:
                    head = f'    <testcase classname={suite} name={quoteattr(row.case)} time="{row.seconds:g}"'
                    lines.append(head + ("/>" if not row.differs else ">"))
                    if row.differs:
                        lines.append(f"      <failure message={quoteattr(row.told[0])}>")
                        lines += [escape(line) for line in row.told]
                        lines.append("      </failure></testcase>")
            lines.append("  </testsuite>")
        return "\n".join([*lines, "</testsuites>", ""])

    def write(self, json_file: Optional[str], junit_file: Optional[str]) -> None:
        for name, text in ((json_file, self.json), (junit_file, self.junit)):
            if name:
                with open(name, "w", encoding="utf-8") as file:
                    file.write(text())
