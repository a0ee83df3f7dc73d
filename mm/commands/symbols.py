"""`mm symbols`: the map of a link."""

from __future__ import annotations

from mm.console import Console
from mm.status import Status, Stop
from mm.table import JSON
from mm.views.data import symbols_form
from mm.views.listing import map_lines


def run(console: Console) -> int:
    built = console.build(console.words)
    if not built.symbols and not console.said.has(JSON):
        raise Stop(
            Status.REFUSED,
            f"mm: {built.name}: an image has no names in it, and no source beside it links to it",
            "    give the sources that it was made of, or say --names SOURCE",
        )
    if console.said.has(JSON):
        console.write_json(symbols_form(built.symbols))
    else:
        console.write(map_lines(built.symbols, console.style))
    return Status.DONE
