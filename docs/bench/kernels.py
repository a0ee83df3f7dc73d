#!/usr/bin/env python3
"""Makes the images that `keeps` is measured on, in a folder: kernels.py FOLDER

two.img      a kernel's slot that counts in two registers, either of which may stay behind: some 25,000 threads
four.img     the same with four registers: many millions of threads, more than are looked at
gates.img    64 callers, each with the door of a gate of its own; each gate keeps a word of its caller"""
import struct
import sys
from pathlib import Path

from images import CODE, ENTER, EXECUTE, READ_WRITE, addi, image, page, pointer, slot, word

IP = pointer(EXECUTE, 12, CODE * 4096)
SELF = word(0x08, 9)
GATES, BOXES = CODE + 1, CODE + 16  # pages of gates, of 64 bytes each, and of their words


def counting(registers):
    """`self r9`, and for each register a `bz r9` over the `addi` that counts in it; and back."""
    code = [SELF]
    for register in range(1, registers + 1):
        code += [word(0x41, 0, 9, 0, 2), addi(register, register, 1)]
    code.append(word(0x40, 0, 0, 0, -len(code)))
    return image([slot(0, 0, IP, {})], 1, [page(CODE, code)])


def gates():
    """Each gate: its pointer, `lip r7, -1`, `ld r7, r7`, `st r7, r2`, `ldi r7, 0`, `jmp r6`."""
    code = [word(0x45, 7, 0, 0, -1), word(0x30, 7, 7), word(0x31, 0, 7, 2), word(0x02, 7), word(0x43, 0, 6)]
    cells, slots = [], []
    for number in range(64):
        at = GATES * 4096 + 64 * number
        cells += [pointer(READ_WRITE, 3, BOXES * 4096 + 8 * number), *code, 0, 0]
        slots.append(slot(number, number, IP, {5: (pointer(ENTER, 6, at + 8), 1)}))
    call = [word(0x44, 6, 5), word(0x40, 0, 0, 0, -1)]
    held = struct.pack(">Q64s64s512Q", GATES, b"\1" * 64, b"\xff" * 64, *cells)  # of eight words the first is a pointer
    return image(slots, 3, [page(CODE, call), held, page(BOXES)])


def main(folder):
    for name, content in {"two.img": counting(2), "four.img": counting(4), "gates.img": gates()}.items():
        (Path(folder) / name).write_bytes(content)


if __name__ == "__main__":
    main(sys.argv[1])
