#!/usr/bin/env python3
"""Makes a net for docs/PERFORMANCE.md in a folder: nets.py FOLDER

Eight images of 4,096 pages, net-0.img to net-7.img, with 64 links from each to the next, net.links, and 1,000,000 events, net.events: again and
again the sender of a link stores, the link takes, the receiver of the other node loads, and the link carries. plain.events has as many turns and no
event of a link."""
import sys
from pathlib import Path

from images import EXECUTE, ITEMS, PAGES, READ_WRITE, br, image, page, pointer, slot, word

NODES, LINKS = 8, 64
EACH = LINKS // NODES  # the links from a node
ANY_FULL, ANY_EMPTY = 1, 2
TAKE, PUT = 0x200, 0x300  # the pages from which on a node's links take and put, one each


def loop(body):
    """A page of 511 times an instruction, and a jump back."""
    return [body] * 511 + [br(-511)]


def ends(first):
    return [(first + k) * 4096 for k in range(EACH)]


STORE = word(0x31, 0, 1, 2) | ANY_FULL << 40
LOAD = word(0x30, 2, 1) | ANY_EMPTY << 40


def node():
    words = {0: loop(STORE), 1: loop(LOAD)}
    slots = [
        slot(EACH * kind + k, 0, pointer(EXECUTE, 12, kind * 4096), {1: (pointer(READ_WRITE, 3, address), 1)})
        for kind, addresses in enumerate((ends(TAKE), ends(PUT)))
        for k, address in enumerate(addresses)
    ]
    return image(slots, PAGES, [page(p, words.get(p, ())) for p in range(PAGES)])


def main(folder):
    folder = Path(folder)
    content = node()
    for n in range(NODES):
        (folder / f"net-{n}.img").write_bytes(content)
    links = [(n, ends(TAKE)[k], (n + 1) % NODES, ends(PUT)[k], k) for n in range(NODES) for k in range(EACH)]
    (folder / "net.links").write_text(" ".join(f"{a}.{x}>{b}.{y}" for a, x, b, y, _ in links))
    sent, arrived = [0] * LINKS, [0] * LINKS
    with (folder / "net.events").open("w") as net, (folder / "plain.events").open("w") as plain:
        for i in range(ITEMS // 4):
            l, turn = i % LINKS, i // LINKS
            a, _, b, _, k = links[l]
            net.write(f"{a}:{k} +{l} {b}:{EACH + k} {l}@{arrived[l]}\n")
            plain.write(f"{a}:{k} {b}:{EACH + k} {a}:{k} {b}:{EACH + k}\n")
            # each 512th turn of a slot is its jump: then no cell is filled, or none emptied
            if turn % 512 != 511:
                sent[l] += 1
                arrived[l] = min(arrived[l] + 1, sent[l])


if __name__ == "__main__":
    main(sys.argv[1])
