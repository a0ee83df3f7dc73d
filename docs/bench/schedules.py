#!/usr/bin/env python3
"""Makes the images that `explore` is measured on, in a folder: schedules.py FOLDER

counter.img   one slot with a loop that counts up without end: a configuration has one move and is never met again
three.img     three slots of one group, each with twenty turns before it halts: 9,261 configurations
apart.img     four slots of four groups that never meet, each with twenty turns: 194,481 configurations
paged.img     three slots that store into pages of their own, twenty turns each, in a machine with 64 pages
round.img     three slots that go round in loops of 59 turns: 205,379 configurations, which are one endless set
mapping.img   a privileged slot that unmaps and maps one of 1,024 pages without end, and two with twenty turns
words.img     a slot that stores to 1,000 words one after the other and begins anew with another value
outputs.img   a slot that puts out bytes without end, and one with a loop of three turns"""
import sys
from pathlib import Path

from images import CODE, EXECUTE, PRIVILEGED, addi, br, data, image, loop, page, pointer, registers, slot, st, word

TURNS = 20
HALT = word(0x00)
IP = pointer(EXECUTE, 12, CODE * 4096)
COUNT = [addi(1, 1, 1)] * (TURNS - 1) + [HALT]
ROUND = [word(0x01)] * 58 + [br(-58)]
STORE = [addi(3, 3, 1), st(1, 3)] * ((TURNS - 1) // 2) + [addi(3, 3, 1), HALT]
# r1 is the number of a page
MAPPING = [word(0x61, 3, 1), word(0x60, 3, 1), br(-2)]
# r1 goes from r5 on over as many words as r2 says, and r3 is stored to each
WORDS = [st(1, 3), word(0x21, 1, 1, imm=8), addi(2, 2, -1), word(0x42, 0, 2, imm=-3), word(0x04, 1, 5), word(0x02, 2, imm=1000), addi(3, 3, 1), br(-7)]
OUTPUTS = [word(0x07, 0, 1), addi(1, 1, 1), br(-2)]


def main(folder):
    own = [0x200 + n for n in range(63)]
    files = {
        "counter.img": loop(registers, {}, []),
        "three.img": image([slot(n, 0, IP, {}) for n in range(3)], 1, [page(CODE, COUNT)]),
        "apart.img": image([slot(n, n, IP, {}) for n in range(4)], 1, [page(CODE, COUNT)]),
        "paged.img": image(
            [slot(n, n, IP, {1: data(own[21 * n] * 4096)}) for n in range(3)],
            64,
            [page(CODE, STORE), *(page(number) for number in own)],
        ),
        "mapping.img": image(
            [slot(0, 0, pointer(PRIVILEGED, 12, 0x1000 * 4096), {1: (0x300, 0)}), slot(1, 1, IP, {}), slot(2, 2, IP, {})],
            1024,
            [page(CODE, COUNT), *(page(0x200 + n) for n in range(1022)), page(0x1000, MAPPING)],
        ),
        "words.img": image(
            [slot(0, 0, IP, {1: data(0x200 * 4096), 2: (1000, 0), 3: (1, 0), 5: data(0x200 * 4096)})],
            3,
            [page(CODE, WORDS), page(0x200), page(0x201)],
        ),
        "outputs.img": image([slot(0, 0, IP, {1: (65, 0)}), slot(1, 1, pointer(EXECUTE, 12, 0x101 * 4096), {})], 2, [page(CODE, OUTPUTS), page(0x101, [word(0x01), word(0x01), br(-2)])]),
        "round.img": image([slot(n, n, IP, {}) for n in range(3)], 1, [page(CODE, ROUND)]),
    }
    for name, content in files.items():
        (Path(folder) / name).write_bytes(content)


if __name__ == "__main__":
    main(sys.argv[1])
