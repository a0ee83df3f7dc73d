"""Makes the objects of docs/PERFORMANCE.md.

usage: objects.py FOLDER

relocations-0.obj, relocations-1.obj: a segment of 65,536 words each, of which 64,000 are relocated, half of them to the other object's segment
names-00.obj to names-15.obj: 256 segments each, and 1,024 externals, which are segments of the other objects
words.obj: 131,072 words that spell instructions with five operands
"""
import os
import struct
import sys

RO, XU = 1, 3


def name_record(name):
    return bytes([len(name)]) + name.encode()


def segment(name, log, words):
    count = len(words)
    full = bytearray((count + 7) // 8)
    for k in range(count):
        full[k // 8] |= 1 << k % 8
    return name_record(name) + bytes([log]) + struct.pack(">I", count) + bytes(full) + struct.pack(f">{count}Q", *words)


def target(index, addend):
    return struct.pack(">HI", index, addend)


def relocation(place, word, index, addend):
    return struct.pack(">HIB", place, word, RO) + target(index, addend)


def thread(slot, index):
    return bytes([slot, slot, 255, XU]) + target(index, 0) + bytes(2 + 128)


def object_file(segments, externals, relocations, threads):
    head = b"MMO1" + struct.pack(">6H", 1, len(segments), len(externals), len(relocations), len(threads), 0)
    return head + b"".join(segments + [name_record(name) for name in externals] + relocations + threads)


def write(folder, name, data):
    with open(os.path.join(folder, name), "wb") as out:
        out.write(data)


def relocations(folder):
    for k in range(2):
        words = [0] * 65_536
        records = [relocation(0, word, word % 2, 8 * word) for word in range(64_000)]
        write(folder, f"relocations-{k}.obj", object_file([segment(f"half{k}", 19, words)], [f"half{1 - k}"], records, [thread(k, 0)]))


def names(folder):
    own = [[f"a_name_of_some_length_{k:02}_{n:04}" for n in range(255)] for k in range(16)]
    for k in range(16):
        # 128 names of each of eight other objects
        externals = sorted(name for j in range(1, 9) for name in own[(k + j) % 16][:128])
        segments = [segment(name, 3, [n]) for n, name in enumerate(own[k])] + [segment(f"pointers_{k:02}", 13, [0] * 1024)]
        records = [relocation(255, word, 256 + word, 0) for word in range(1024)]
        write(folder, f"names-{k:02}.obj", object_file(segments, externals, records, [thread(k, 0)]))


def words(folder):
    # ld r1, r2, K, full, empty
    spelled = [0x3012_0600_0000_0000 | 0xFFFF_FFFF - k for k in range(131_072)]
    write(folder, "words.obj", object_file([segment("words", 20, spelled)], [], [], []))


if __name__ == "__main__":
    for make in relocations, names, words:
        make(sys.argv[1])
