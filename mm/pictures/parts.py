"""What several pictures have: the segments in which slots run with their tints, and the box of a turn."""

from __future__ import annotations

from dataclasses import dataclass
from typing import Callable, Iterable, Optional

from mm.formats.image import Image
from mm.machine.words import Permission, Pointer
from mm.names.symbols import Symbols
from mm.pictures.svg import MARGIN, TINTS, WIDTH, Picture, width_of

Mark = Callable[[Picture, float, float], None]


@dataclass
class Code:
    """A segment in which slots run: its name, its tint, and whether it is a gate or the kernel."""

    name: str
    base: int
    end: int
    tint: str
    gate: bool = False
    privileged: bool = False

    @property
    def title(self) -> str:
        if self.privileged:
            return f"{self.name}, privileged"
        return f"gate {self.name}" if self.gate and not self.name.startswith("gate") else self.name


def pointers_of(image: Image) -> Iterable[Pointer]:
    """All pointers of an image."""
    for slot in image.slots:
        yield slot.ip
        yield from (word.pointer for word in slot.registers if word.pointer)
    yield from (cell.word.pointer for _, cell in image.cells() if cell.word.pointer)


class Codes:
    """The code of an image: every segment that a pointer executes or enters, in the order of first use and then by address."""

    def __init__(self, image: Image, symbols: Symbols) -> None:
        self.symbols = symbols
        self.all: list[Code] = []
        for slot in image.slots:
            self.add(slot.ip)
        for pointer in sorted(pointers_of(image), key=lambda one: one.address):
            if pointer.permission.executes or pointer.permission.enters:
                self.add(pointer)

    def add(self, pointer: Pointer) -> None:
        code = self.at(pointer.base)
        if code is None:
            region = self.symbols.region(pointer.base)
            name = region.name if region else f"0x{pointer.base:x}"
            code = Code(name, pointer.base, pointer.end, f"tint-{len(self.all) % TINTS}")
            self.all.append(code)
        code.gate |= pointer.permission.enters
        code.privileged |= pointer.permission in (Permission.XP, Permission.EP)

    def at(self, address: int) -> Optional[Code]:
        return next((code for code in self.all if code.base <= address < code.end), None)


def draw_code(picture: Picture, code: Optional[Code], x: float, y: float, width: float, height: float) -> None:
    """A box in the tint of its code: gates have a beam, privileged code has stripes."""
    picture.rect(x, y, width, height, code.tint if code else "field", rx=2)
    if code and code.gate:
        picture.rect(x, y + 3, width, 2.5, "on-tint")
    if code and code.privileged:
        for at in range(1, int(width / 5) + 1):
            picture.line(x + at * 5 - 4, y + height, min(x + width, x + at * 5 + 2), y + 1, "on-tint", stroke_width=1)


def legend(picture: Picture, items: Iterable[tuple[Mark, str]], size: float = 13) -> None:
    """Marks with their meanings, in lines. A mark draws itself into a place of 20 by 18."""
    x = float(MARGIN)
    for mark, text in items:
        if x + 26 + width_of(text, size) > WIDTH - MARGIN and x > MARGIN:
            x = MARGIN
            picture.down += 22
        mark(picture, x, picture.down)
        picture.text(x + 26, picture.down + 13, text, size, "soft")
        x += 26 + width_of(text, size) + 14
    picture.down += 26


def code_marks(codes: Iterable[Code]) -> list[tuple[Mark, str]]:
    def mark(code: Code) -> Mark:
        return lambda picture, x, y: draw_code(picture, code, x, y + 1, 18, 15)

    return [(mark(code), code.title) for code in codes]
