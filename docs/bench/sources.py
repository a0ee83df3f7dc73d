#!/usr/bin/env python3
"""Makes the sources of docs/PERFORMANCE.md in a folder: sources.py FOLDER"""
import sys
from pathlib import Path

SOURCE = 8_388_608  # bytes of the largest source
SEGMENTS = 256
WORDS = 131_072
POINTERS = 65_535
EXTERNALS = 1_024
LABELS = 100_000


def long_name(letter, number):
    return f"{letter}{number:030d}"


def operations():
    yield ".segment code 20"
    for _ in range(128_000):
        yield "  ld r1, r2, 0x12, any, keep"


def largest():
    """All words, pointers and externals that an object may have, in segments and externals with the longest names."""
    yield ".spare 256"
    made = 0
    each = WORDS // SEGMENTS
    for segment in range(SEGMENTS):
        yield f".segment {long_name('s', segment)} 12"
        first = f"l{made}"
        for _ in range(each):
            label = f"l{made}:" if made < LABELS or made % each == 0 else ""
            if made % 2 and made // 2 < POINTERS:
                yield f"{label}.ptr rw {long_name('e', made // 2 % EXTERNALS)}+1048575"
            else:
                yield f"{label}br {first}"
            made += 1
    for slot in range(16):
        yield f".thread {slot} 15 none xu {long_name('s', slot)}"
        for register in range(16):
            yield f".reg {register} ptr key {long_name('e', register)}"


def padded(lines):
    text = "\n".join(lines) + "\n;"
    return text + "x" * (SOURCE - len(text))


def main():
    folder = Path(sys.argv[1])
    folder.mkdir(parents=True, exist_ok=True)
    (folder / "operations.asm").write_text("\n".join(operations()))
    (folder / "largest.asm").write_text(padded(largest()))


main()
