#!/usr/bin/env python3
"""Makes the images and the schedule of docs/PERFORMANCE.md in a folder: images.py FOLDER"""
import struct
import sys
from pathlib import Path

CODE = 0x100  # the page of the code
SLOTS = 64
PAGES = 4096
ITEMS = 1_000_000


def word(op, rd=0, ra=0, rb=0, imm=0):
    return op << 56 | rd << 52 | ra << 48 | rb << 44 | imm & 0xFFFFFFFF


def pointer(perm, log, address):
    return perm << 60 | log << 54 | address


READ_ONLY, READ_WRITE, EXECUTE, PRIVILEGED, ENTER = 1, 2, 3, 4, 5


def addi(rd, ra, imm):
    return word(0x1E, rd, ra, imm=imm)


def ld(rd, ra):
    return word(0x30, rd, ra)


def st(ra, rb):
    return word(0x31, 0, ra, rb)


def br(by):
    return word(0x40, imm=by)


def slot(number, group, ip, regs):
    tags, words = 0, [0] * 16
    for k, (value, tagged) in regs.items():
        words[k] = value
        tags |= tagged << k
    return struct.pack(">BBBBQH16Q", number, group, 255, 0, ip, tags, *words)


def page(number, words=()):
    cells = list(words) + [0] * (512 - len(words))
    return struct.pack(">Q64s64s512Q", number, bytes(64), b"\xff" * 64, *cells)


def image(slots, frames, pages, version=2):
    head = struct.pack(">4sHHHHI", b"MMI1", version, len(slots), frames, len(pages), 0)
    return head + b"".join(slots) + b"".join(pages)


def loop(words, regs, pages, slots=1):
    ip = pointer(EXECUTE, 12, CODE * 4096)
    return image(
        [slot(n, n, ip, regs) for n in range(slots)],
        1 + len(pages),
        [page(CODE, words), *(page(p) for p in pages)],
    )


def data(address):
    return (pointer(READ_WRITE, 20, address), 1)


registers = [addi(1, 1, 1), addi(2, 2, 1), addi(3, 3, 1), br(-3)]
memory = [addi(3, 3, 1), st(1, 3), ld(4, 2), br(-3)]
A, B = 0x200 * 4096 + 64, 0x201 * 4096 + 64  # two blocks with the index of one line, which is not that of the code

# Each cell of the other pages has a pointer to the word after it, and r1 one to the first.
POINTERS = 0x1000 * 4096


def chain(pages):
    number = POINTERS // 4096
    links = [
        struct.pack(
            ">Q64s64s512Q",
            number + p,
            b"\xff" * 64,
            b"\xff" * 64,
            *(pointer(READ_ONLY, 3, (number + p) * 4096 + 8 * k + 8) for k in range(512)),
        )
        for p in range(pages)
    ]
    ip = pointer(EXECUTE, 12, CODE * 4096)
    return image([slot(0, 0, ip, {1: (pointer(READ_ONLY, 3, POINTERS), 1)})], 1 + pages, [page(CODE), *links])


# r1 counts the pages from 0, r2 is their number; the page of the code is past them.
replace = [
    word(0x61, 3, 1),  # unmap r3, r1
    word(0x60, 3, 1),  # map r3, r1
    addi(1, 1, 1),
    word(0x11, 4, 1, 2),  # sub r4, r1, r2
    word(0x42, 0, 4, imm=-4),  # bnz r4
    word(0x02, 1),  # ldi r1, 0
    br(-6),
]

# r1 goes over the cells from POINTERS on, and r2 is stored to each.
changed = [*(word(0x31, 0, 1, 2, imm=8 * k) for k in range(8)), word(0x21, 1, 1, imm=64), br(-9)]


def main(folder):
    files = {
        "registers.img": loop(registers, {}, []),
        "hits.img": loop(memory, {1: data(A), 2: data(A)}, [0x200, 0x201]),
        "collisions.img": loop(memory, {1: data(A), 2: data(B)}, [0x200, 0x201]),
        "slots.img": loop(registers, {}, [], SLOTS),
        "slots.schedule": " ".join(str(7 * i % SLOTS) for i in range(ITEMS)).encode(),
        # each slot has a loop in a page of its own, and stores and loads in another
        "largest.img": image(
            [
                slot(n, n, pointer(EXECUTE, 12, n * 4096), {1: data((64 + n) * 4096), 2: data((128 + n) * 4096)})
                for n in range(SLOTS)
            ],
            PAGES,
            [page(p, memory if p < SLOTS else ()) for p in range(PAGES)],
        ),
        "pointers.img": chain(PAGES - 1),
        "changed.img": image(
            [slot(0, 0, pointer(EXECUTE, 12, CODE * 4096), {1: (pointer(READ_WRITE, 24, POINTERS), 1), 2: (7, 0)})],
            PAGES,
            [page(CODE, changed), *(page(POINTERS // 4096 + p) for p in range(PAGES - 1))],
        ),
        "replace.img": image(
            [slot(0, 0, pointer(PRIVILEGED, 12, PAGES * 4096), {2: (PAGES - 1, 0)})],
            PAGES,
            [*(page(p) for p in range(PAGES - 1)), page(PAGES, replace)],
        ),
    }
    for name, content in files.items():
        (Path(folder) / name).write_bytes(content)


if __name__ == "__main__":
    main(sys.argv[1])
