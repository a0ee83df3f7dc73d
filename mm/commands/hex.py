"""`mm hex`: a part of an image for Verilog's `$readmemh`."""

from __future__ import annotations

from mm.console import Console
from mm.formats.hex import PARTS, TESTBENCH_PARTS, testbench_files, text_of
from mm.status import Status, usage
from mm.table import OUTPUT, PART

# The parts of a testbench, each in a file of its own.
ALL = "all"


def run(console: Console) -> int:
    part = console.said.value(PART) or "memory"
    if part == ALL:
        return _all(console)
    if part not in PARTS:
        raise usage(f"mm: hex: `{part}` is not a part of an image: {', '.join([*PARTS, ALL])}")
    lines = PARTS[part](console.build(console.words).image)
    if console.said.value(OUTPUT) is not None:
        return console.put(text_of(lines).encode("ascii"))
    console.write(lines)
    return Status.DONE


def _all(console: Console) -> int:
    """Writes NAME.frames, NAME.pages and NAME.slots, where --output is NAME."""
    front = console.said.value(OUTPUT)
    if front is None:
        raise usage(f"mm: hex: --part {ALL} wants --output NAME, for NAME.{', NAME.'.join(TESTBENCH_PARTS)}")
    for name, data in testbench_files(console.build(console.words).image, front):
        console.write_file(name, data)
    return Status.DONE
