#!/usr/bin/env python3
"""Makes the images of the audits of docs/PERFORMANCE.md in a folder: audits.py FOLDER [NAME..]

All but version1.img have 4,096 pages, one of them with code and the others with 2,096,640 cells that each hold a pointer.

version1.img  16 slots of 16 groups, and 255 pages of the chain
chain.img     each cell has a read-only pointer to the next, and r1 one to the first
falling.img   r1 reads all cells, which hold pointers to words that can be written, in falling order
late.img      the chain, and at its end a pointer to a word that can be written, which another group loads
chain64.img, falling64.img, random64.img   the same for 64 groups with a slot each; random64.img has the pointers of falling.img in random order
words64.img   the chain for 64 groups, each with a word of its own that it can write, after all pages
gates64.img   each cell has an enter pointer to the next, and each of 64 groups one to another cell
scattered64.img   the falling pointers, and 64 groups with 15 registers each that read segments of random lengths at random places

A NAME is one of these without its '.img'; without one all are made."""
import random
import struct
import sys
from pathlib import Path

from images import CODE, ENTER, EXECUTE, PAGES, POINTERS, READ_ONLY, READ_WRITE, image, page, pointer, slot

CELLS = 512 * (PAGES - 1)
ALL = (pointer(READ_ONLY, 24, POINTERS), 1)
FIRST = (pointer(READ_ONLY, 3, POINTERS), 1)
IP = pointer(EXECUTE, 12, CODE * 4096)
OWN = CODE * 4096 + 2048  # words of the page of the code, after it
FAR = 1 << 30  # words after all pages


def pages_of(cells):
    """The page of the code, and pages that are full of these pointers."""
    bits = b"\xff" * 64
    number = POINTERS // 4096
    full = [struct.pack(">Q64s64s512Q", number + at // 512, bits, bits, *cells[at : at + 512]) for at in range(0, len(cells), 512)]
    return [page(CODE), *full]


def chain(cells):
    return [pointer(READ_ONLY, 3, POINTERS + 8 * k + 8) for k in range(cells)]


def falling():
    return [pointer(READ_WRITE, 3, POINTERS + 8 * k) for k in reversed(range(CELLS))]


def shuffled():
    cells = falling()
    random.Random(7).shuffle(cells)
    return cells


def whole(cells, registers, version=2):
    pages = pages_of(cells)
    return image([slot(n, n, IP, regs) for n, regs in enumerate(registers)], len(pages), pages, version)


def late():
    cells = chain(CELLS)
    cells[-1] = pointer(READ_WRITE, 3, OWN)
    return whole(cells, [{1: FIRST}, {1: (pointer(READ_ONLY, 3, OWN), 1)}])


def gates(cells):
    return [pointer(ENTER, 3, POINTERS + 8 * k + 8) for k in range(cells)]


def scattered():
    chance = random.Random(11)

    def register():
        log = chance.randrange(3, 21)
        return (pointer(READ_ONLY, log, POINTERS + (chance.randrange(8 * CELLS) >> log << log)), 1)

    return whole(falling(), [{k: register() for k in range(1, 16)} for _ in range(64)])


MAKERS = {
    "version1": lambda: whole(chain(512 * 255), [{1: FIRST}] * 16, 1),
    "chain": lambda: whole(chain(CELLS), [{1: FIRST}]),
    "falling": lambda: whole(falling(), [{1: ALL}]),
    "late": late,
    "chain64": lambda: whole(chain(CELLS), [{1: FIRST}] * 64),
    "falling64": lambda: whole(falling(), [{1: ALL}] * 64),
    "random64": lambda: whole(shuffled(), [{1: ALL}] * 64),
    "words64": lambda: whole(chain(CELLS), [{1: FIRST, 2: (pointer(READ_WRITE, 3, FAR + 8 * n), 1)} for n in range(64)]),
    "gates64": lambda: whole(gates(CELLS), [{1: (pointer(ENTER, 3, POINTERS + 8 * (CELLS // 64) * n), 1)} for n in range(64)]),
    "scattered64": scattered,
}


def main(folder, names):
    for name in names or MAKERS:
        (Path(folder) / f"{name}.img").write_bytes(MAKERS[name]())


if __name__ == "__main__":
    main(sys.argv[1], sys.argv[2:])
