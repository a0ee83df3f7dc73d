"""`mm view`: a run as a page for a browser."""

from __future__ import annotations

from typing import Any, Optional

from mm.build import Built
from mm.console import Console
from mm.log.taken import first_of, take_window
from mm.outputs.audit import read_audit
from mm.table import AUDIT, CYCLES, KEEPS
from mm.view.data import window_form
from mm.view.page import page_of
from mm.words import cycles_of


def kept_form(console: Console, built: Built) -> Optional[dict[str, Any]]:
    """What the page shows of a kernel: the picture, and the lines of `mm keeps`."""
    if not console.said.has(KEEPS):
        return None
    from mm.commands.keeps import USUAL, answer_of
    from mm.names.kept import kept_of
    from mm.pictures.keeps import draw
    from mm.views.keeps import KeepsView
    from mm.views.style import Style

    kept = kept_of(console.said.all(KEEPS), built.symbols)
    found = answer_of(console, built, kept, USUAL)
    lines = list(KeepsView(built.image, built.symbols, kept, Style()).lines(found, USUAL))
    return {"svg": draw(found, built, kept, "What the kernel keeps").svg(), "lines": lines}


def run(console: Console) -> int:
    """Writes the page of a run, or of a window of it where the run is long."""
    built, order = console.build(console.words), console.order()
    kept = kept_form(console, built)
    window = take_window(console, built, order, cycles_of(console.said.value(CYCLES)), first_of(console.said))
    audit = read_audit(console.ask(["grants", built.path], [built.file]).text) if console.said.has(AUDIT) else None
    page = page_of(window_form(built, window, str(order), audit, kept))
    return console.put(page.encode("utf-8", "replace"))
