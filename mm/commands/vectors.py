"""`mm vectors`: operands of an operation with what comes of them, to test a unit by itself."""

from __future__ import annotations

from mm.console import Console
from mm.lockstep.vectors import units, vectors
from mm.names.numbers import number_of
from mm.status import Status, usage
from mm.table import COUNT, OUTPUT

MOST, USUAL = 1_000_000, 256


def run(console: Console) -> int:
    name = console.words[0]
    if name not in units():
        raise usage(f"mm: vectors: `{name}` has none; these have: {' '.join(units())}")
    said = console.said.value(COUNT)
    count = USUAL if said is None else number_of(said)
    if count is None or not 1 <= count <= MOST:
        raise usage(f"mm: vectors: `{said}` is not a count: 1 to {MOST}")
    lines = (f"{vector.line}\n" for vector in vectors(console.program, name, count))
    if console.said.value(OUTPUT) is not None:
        return console.put("".join(lines).encode("ascii"))
    console.write(line.rstrip("\n") for line in lines)
    return Status.DONE
