"""`mm vcd`: a run as waves."""

from __future__ import annotations

from mm.console import Console
from mm.log.replay import Machine
from mm.log.taken import first_of, length_of, opened
from mm.table import CYCLES
from mm.waves.vcd import dump
from mm.words import cycles_of


def run(console: Console) -> int:
    """Writes the value change dump of a run, as long as it is said to be: viewers take long ones."""
    built, order, first = console.build(console.words), console.order(), first_of(console.said)
    cycles = length_of(cycles_of(console.said.value(CYCLES)), first)
    title = f"{' '.join(console.words)}, {order}".replace("$", "")
    with opened(console, built, order, cycles) as (_, steps):
        data = bytearray()
        for line in dump(Machine(built.image), steps, first, title):
            data += line.encode("ascii", "backslashreplace") + b"\n"
    return console.put(bytes(data))
