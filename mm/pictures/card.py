"""The reference card: operations, directives, permissions and faults on a page of A4, from the tables. The same page is
written as SVG and as PDF."""

from __future__ import annotations

from dataclasses import dataclass, field
from html import escape

from mm.help.texts import SHORTER
from mm.machine.causes import Cause
from mm.machine.isa import OPERATIONS, Operation
from mm.machine.words import BY_SHORT, Permission
from mm.pictures.svg import COLOURS, FONT, number
from mm.source.letters import TEXT_DIRECTIVES
from mm.source.wants import DIRECTIVES

TITLE = "The M-Machine in assembly language"
# A4 in points, its margin, the size of the letters, how far a line is below the one before, and how wide a letter is.
WIDE, HIGH, MARGIN, SIZE, LINE, ADVANCE = 595, 842, 26, 6.1, 9.9, 0.6
HEADING, USAGE, EFFECT = 8.5, 25, 108
NOTES = (
    "Registers r0 to r15 hold integers or pointers; r0 is one like the others. N: a number, decimal or 0x.., or 'A'.",
    "PRE: what the word's bit must be (any, full, empty). POST: what it becomes (keep, full, empty). HOW: retry, skip or"
    " kill.",
    "Words have 8 bytes, addresses count bytes. A call: jal r6, r5; back: jmp r6. A comment begins with ;",
)


@dataclass
class Card:
    """The page as it grows downwards: rectangles, and texts with their places and sizes."""

    texts: list[tuple[float, float, float, bool, str]] = field(default_factory=list)
    bands: list[tuple[float, float, float]] = field(default_factory=list)
    down: float = MARGIN

    def text(self, column: int, text: str, bold: bool = False, size: float = SIZE) -> None:
        """A text in a column, counted in letters."""
        x = MARGIN + column * SIZE * ADVANCE
        assert x + len(text) * size * ADVANCE <= WIDE - MARGIN + 1, f"this goes out of the card: {text}"
        self.texts.append((x, self.down + size, size, bold, text))

    def heading(self, text: str, column: int = 0) -> None:
        self.down += 5
        self.text(column, text, True, HEADING)
        self.down += HEADING + 4

    def row(self, *cells: tuple[int, str], bold: bool = True, band: bool = False) -> None:
        """A line of cells, the first of them bold."""
        if band:
            self.bands.append((self.down - 1.2, MARGIN - 4, WIDE - 2 * MARGIN + 8))
        for place, (column, text) in enumerate(cells):
            self.text(column, text, bold and place == 0)
        self.down += LINE

    def svg(self) -> str:
        assert self.down <= HIGH - MARGIN + LINE, f"the card is too long: {self.down}"
        shapes = [
            f'<rect class="f-field" x="{number(x)}" y="{number(y)}" width="{number(wide)}" height="{LINE}"/>'
            for y, x, wide in self.bands
        ]
        texts = [
            f'<text class="f-ink" x="{number(x)}" y="{number(y)}" font-size="{number(size)}"'
            f'{" font-weight=" + chr(34) + "bold" + chr(34) if bold else ""} xml:space="preserve">{escape(text)}</text>'
            for x, y, size, bold, text in self.texts
        ]
        head = (
            f'<svg xmlns="http://www.w3.org/2000/svg" width="{2 * WIDE}" height="{2 * HIGH}" '
            f'viewBox="0 0 {WIDE} {HIGH}" font-family="{FONT}" role="img">'
        )
        ground = f'<rect class="f-ground" width="{WIDE}" height="{HIGH}"/>'
        return "\n".join([head, f"<title>{TITLE}</title>", _style(), ground, *shapes, *texts, "</svg>", ""])

    def pdf(self) -> bytes:
        """The page as PDF, with Courier, which each reader has."""
        grey = [f"0.94 g {number(x)} {number(HIGH - y - LINE)} {number(wide)} {LINE} re f" for y, x, wide in self.bands]
        texts = [
            f"BT /{'B' if bold else 'R'} {number(size)} Tf 1 0 0 1 {number(x)} {number(HIGH - y)} Tm "
            f"({_in_pdf(text)}) Tj ET"
            for x, y, size, bold, text in self.texts
        ]
        content = "\n".join([*grey, "0 g", *texts]).encode("latin-1")
        fonts = " ".join(
            f"/{name} << /Type /Font /Subtype /Type1 /BaseFont /{base} /Encoding /WinAnsiEncoding >>"
            for name, base in (("R", "Courier"), ("B", "Courier-Bold"))
        )
        return _pdf_of([
            b"<< /Type /Catalog /Pages 2 0 R >>",
            b"<< /Type /Pages /Kids [3 0 R] /Count 1 >>",
            f"<< /Type /Page /Parent 2 0 R /MediaBox [0 0 {WIDE} {HIGH}] /Contents 4 0 R "
            f"/Resources << /Font << {fonts} >> >> >>".encode(),
            b"<< /Length %d >>\nstream\n%s\nendstream" % (len(content), content),
            f"<< /Title ({TITLE}) >>".encode(),
        ])  # fmt: skip


def _style() -> str:
    rules = [
        "".join(f".f-{name}{{fill:{COLOURS[name][at]}}}" for name in ("ink", "field", "ground")) for at in (0, 1)
    ]
    return f"<style>{rules[0]}@media (prefers-color-scheme:dark){{{rules[1]}}}</style>"


def _in_pdf(text: str) -> str:
    return text.replace("\\", "\\\\").replace("(", "\\(").replace(")", "\\)")


def _pdf_of(objects: list[bytes]) -> bytes:
    """A file of these objects: the first is the catalogue, the last says what the file is."""
    made, places = b"%PDF-1.4\n", []
    for place, body in enumerate(objects, 1):
        places.append(len(made))
        made += b"%d 0 obj\n%s\nendobj\n" % (place, body)
    table = b"".join(b"%010d 00000 n \n" % place for place in places)
    count = len(objects) + 1
    trailer = b"trailer\n<< /Size %d /Root 1 0 R /Info %d 0 R >>\n" % (count, count - 1)
    return made + b"xref\n0 %d\n0000000000 65535 f \n%s%sstartxref\n%d\n%%%%EOF\n" % (count, table, trailer, len(made))


def _usage(operation: Operation) -> str:
    found = operation.usage
    for long, short in SHORTER:
        found = found.replace(long, short)
    return found


def _tests(operation: Operation) -> str:
    """The faults of an operation by their numbers, in the order of its tests."""
    causes = [Cause.of_title(title) for title in operation.tests.split()]
    return " ".join(str(cause.number) for cause in causes if cause)


def _may(permission: Permission) -> str:
    can = {"load": permission.loads, "store": permission.stores, "run": permission.executes,
           "be jumped to": permission.executes or permission.enters}  # fmt: skip
    return ", ".join(what for what, may in can.items() if may) or "nothing: a ticket"


def draw() -> Card:
    card = Card()
    card.text(0, TITLE, True, 13)
    card.down += 16
    for note in NOTES:
        card.row((0, note), bold=False)
    card.heading("Operations")
    card.texts.append((MARGIN + (USAGE + EFFECT) * SIZE * ADVANCE, card.down - 4, SIZE, True, "faults"))
    for place, operation in enumerate(OPERATIONS.values()):
        cells = ((0, _usage(operation)), (USAGE, operation.effect), (USAGE + EFFECT, _tests(operation)))
        card.row(*cells, band=place % 2 == 0)
    card.heading("Directives")
    for place, directive in enumerate([*DIRECTIVES.values(), *TEXT_DIRECTIVES.values()]):
        card.row((0, directive.usage), (46, directive.meaning), band=place % 2 == 0)
    top = card.down
    card.heading("Permissions")
    for permission in BY_SHORT.values():
        becomes = ", ".join(one.short for one in permission.may_become) or "nothing"
        card.row((0, f"{permission.code} {permission.short}"), (6, _may(permission)), (32, f"may become {becomes}"))
    bottom, card.down = card.down, top
    card.heading("Faults", 66)
    for cause in Cause:
        card.row((66, f"{cause.number:>2} {cause.title}"), (82, cause.meaning))
    card.down = max(bottom, card.down)
    return card
