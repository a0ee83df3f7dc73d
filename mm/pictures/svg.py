"""Shapes and texts of a picture. Colours have names, and each has a value for light and one for dark."""

from __future__ import annotations

import math
from html import escape
from typing import Optional, Union

# A picture is 480 wide and is shown larger where there is room: on a phone of 375 points letters of 13 are 9 points
# high.
WIDTH, MARGIN, SHOWN, SMALLEST = 480, 18, 720, 13
# Of a fixed-width letter, as a part of its size.
ADVANCE = 0.602
COLOURS = {
    "ink": ("#15202b", "#e7ecf2"),
    "soft": ("#55616e", "#a9b6c3"),
    "rule": ("#c9d0d8", "#3c4a58"),
    "ground": ("#ffffff", "#161d25"),
    "field": ("#eef1f4", "#222c37"),
    "accent": ("#0b5cad", "#79b8ff"),
    "mark": ("#fff0c2", "#54410f"),
    "bad": ("#15202b", "#f4f6f8"),
    "on-bad": ("#ffffff", "#10151b"),
    "on-tint": ("#15202b", "#10151b"),
    "tint-0": ("#8ab8e6", "#6ba2d8"),
    "tint-1": ("#f2a47f", "#e58a60"),
    "tint-2": ("#fede72", "#e9c75b"),
    "tint-3": ("#449f97", "#32948b"),
    "tint-4": ("#4a90f5", "#308aeb"),
    "tint-5": ("#71f1dc", "#7ae8d6"),
    "tint-6": ("#c28f30", "#80e7a6"),
    "tint-7": ("#7cf9b7", "#60e6ff"),
}
TINTS = 8
FONT = "'DejaVu Sans Mono', ui-monospace, Menlo, Consolas, 'Liberation Mono', monospace"
Value = Union[str, float, int]


def width_of(text: str, size: float) -> float:
    return len(text) * size * ADVANCE


def number(value: float) -> str:
    """A coordinate, always written alike."""
    return f"{value:.2f}".rstrip("0").rstrip(".")


def style() -> str:
    """The colours as classes: `f-ink` fills, `s-ink` draws lines."""

    def rules(at: int) -> str:
        return "".join(
            f".f-{name}{{fill:{pair[at]}}}.s-{name}{{stroke:{pair[at]}}}" for name, pair in COLOURS.items()
        )

    return f"<style>{rules(0)}@media (prefers-color-scheme:dark){{{rules(1)}}}</style>"


def _thick(usual: float, more: dict[str, Value]) -> dict[str, Value]:
    """The attributes of a stroke, which has a usual width if none is said."""
    return {"stroke_width": usual, **more}


class Picture:
    """A picture as it grows downwards."""

    def __init__(self, title: str) -> None:
        self.parts: list[str] = []
        self.title, self.down = title, float(MARGIN)
        self.paragraph(title, 16, bold=True)
        self.down += 4

    def shape(self, name: str, hint: Optional[str] = None, **attributes: Value) -> None:
        """An element; `fill` and `stroke` are names of colours, or `none`."""
        classes = [
            f"{key[0]}-{attributes.pop(key)}" for key in ("fill", "stroke") if attributes.get(key, "none") != "none"
        ]
        said = [f'class="{" ".join(classes)}"'] if classes else []
        said += [
            f'{key.replace("_", "-")}="{number(value) if isinstance(value, (int, float)) else value}"'
            for key, value in attributes.items()
        ]
        body = f"<{name} {' '.join(said)}"
        self.parts.append(f"{body}><title>{escape(hint)}</title></{name}>" if hint else f"{body}/>")

    def rect(self, x: float, y: float, width: float, height: float, fill: str, hint: Optional[str] = None,
        **more: Value) -> None:
        self.shape("rect", hint, x=x, y=y, width=width, height=height, fill=fill, **more)

    def line(self, x: float, y: float, to_x: float, to_y: float, stroke: str = "rule", **more: Value) -> None:
        self.shape("line", None, x1=x, y1=y, x2=to_x, y2=to_y, stroke=stroke, **_thick(1.5, more))

    def polygon(self, points: list[tuple[float, float]], fill: str, **more: Value) -> None:
        self.shape("polygon", None, points=" ".join(f"{number(x)},{number(y)}" for x, y in points), fill=fill, **more)

    def path(self, steps: str, stroke: str = "ink", **more: Value) -> None:
        self.shape("path", None, d=steps, fill="none", stroke=stroke, **_thick(1.75, more))

    def head(self, x: float, y: float, towards: float, fill: str = "ink") -> None:
        """The head of an arrow whose point is here; `towards` is its direction in radians."""
        points = [(x, y)]
        for turn in (2.65, -2.65):
            points.append((x + 10 * math.cos(towards + turn), y + 10 * math.sin(towards + turn)))
        self.polygon(points, fill)

    def arrow(self, x: float, y: float, to_x: float, to_y: float, stroke: str = "ink", **more: Value) -> None:
        towards = math.atan2(to_y - y, to_x - x)
        self.line(x, y, to_x - 6 * math.cos(towards), to_y - 6 * math.sin(towards), stroke,
            **_thick(1.75, more))
        self.head(to_x, to_y, towards, stroke)

    def text(self, x: float, y: float, text: str, size: float = 13, fill: str = "ink", anchor: str = "start",
        bold: bool = False) -> None:
        assert size >= SMALLEST, f"letters of {size} cannot be read on a phone: {text}"
        left = x - {"start": 0, "middle": 0.5, "end": 1}[anchor] * width_of(text, size)
        assert left >= -0.5 and left + width_of(text, size) <= WIDTH + 0.5, f"this goes out of the picture: {text}"
        place = f'class="f-{fill}" x="{number(x)}" y="{number(y)}" font-size="{number(size)}"'
        more = (f' text-anchor="{anchor}"' if anchor != "start" else "") + (' font-weight="bold"' if bold else "")
        self.parts.append(f'<text {place}{more} xml:space="preserve">{escape(text)}</text>')

    def paragraph(self, text: str, size: float = 13, fill: str = "ink", bold: bool = False, indent: float = 0) -> None:
        """Lines of text over the whole width, below all that is there."""
        room = int((WIDTH - 2 * MARGIN - indent) / (size * ADVANCE))
        line = ""
        for word in [*text.split(), None]:
            if word is not None and len(line) + len(word) + (1 if line else 0) <= room:
                line = f"{line} {word}".strip()
                continue
            self.text(MARGIN + indent, self.down + size + 2, line, size, fill, bold=bold)
            self.down += size + 6
            line = word or ""
        self.down += 2

    def box(self, x: float, y: float, width: float, height: float, lines: list[str], fill: str = "field",
        size: float = 13, bold: bool = True, ink: str = "") -> None:
        """A box with lines of text in its middle, the first of them bold."""
        self.rect(x, y, width, height, fill, rx=6, stroke="soft", stroke_width=1.25)
        first = y + height / 2 - (len(lines) - 1) * (size + 3) / 2 + size * 0.36
        for at, line in enumerate(lines):
            colour = ink or ("on-tint" if fill.startswith("tint") else "ink")
            self.text(x + width / 2, first + at * (size + 3), line, size if at == 0 else SMALLEST, colour, "middle",
                bold and at == 0)

    def svg(self) -> str:
        height = number(math.ceil(self.down + MARGIN - 6))
        tall = number(math.ceil(float(height) * SHOWN / WIDTH))
        head = (
            f'<svg xmlns="http://www.w3.org/2000/svg" width="{SHOWN}" height="{tall}" viewBox="0 0 {WIDTH} {height}" '
            f'font-family="{FONT}" role="img">'
        )
        frame = (
            f'<rect class="f-ground s-rule" x="0.5" y="0.5" width="{WIDTH - 1}" height="{number(float(height) - 1)}" rx="8"/>'
        )
        return "\n".join([head, f"<title>{escape(self.title)}</title>", style(), frame, *self.parts, "</svg>"]) + "\n"
