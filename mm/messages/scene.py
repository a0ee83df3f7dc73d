"""What a hint is made of: a fault of a line."""

from __future__ import annotations

from mm.records import dataclass



@dataclass(frozen=True)
class Scene:
    """A fault of a line: its number, the column, the text of the line without its comment, its directive or operation, and the token that was found."""

    fault: int
    column: int
    code: str
    head: str
    found: str

    @property
    def rest(self) -> str:
        """What is written after the directive or operation."""
        return self.code.split(self.head, 1)[1].strip() if self.head and self.head in self.code else self.code.strip()
