"""`mm check-why`: right derivations of each rule are accepted, and each wrong one is refused at its line."""

import os
import struct
import unittest

from mm.formats.image import read_image
from mm.machine.words import Permission, Pointer
from mm.status import Status
from mm.tests.support import folder, mm
from mm.why.check import check, is_below
from mm.why.lines import WrongLine, read_lines
from mm.why.shortest import Grants

PAGE = 0x100
BOX, GATE, COUNT, DOOR = 0x100000, 0x100040, 0x100100, 0x100048


def bits(short: str, log: int, address: int) -> int:
    return Pointer(Permission[short.upper()], log, address).bits


def text(short: str, log: int, address: int) -> str:
    return f"p{bits(short, log, address):016x}"


def slot(number: int, group: int, handler: int, ip: int, registers: dict[int, int]) -> bytes:
    words = [registers.get(register, 0) for register in range(16)]
    return struct.pack(">BBBBQH16Q", number, group, handler, 0, ip, sum(1 << register for register in registers), *words)


def image(slots: list[bytes], cells: dict[int, int]) -> bytes:
    tags, words = bytearray(64), [0] * 512
    for address, word in cells.items():
        place = address % 4096 // 8
        words[place] = word
        tags[place >> 3] |= 1 << (place & 7)
    page = struct.pack(">Q64s64s512Q", PAGE, bytes(tags), b"\xff" * 64, *words)
    return b"MMI1" + struct.pack(">HHHHI", 2, len(slots), 1, 1, 0) + b"".join(slots) + page


# Group 0 reads the box, group 1 writes it and may enter the gate, group 2 serves group 0, group 3 is privileged.
IMAGE = image(
    [
        slot(0, 0, 2, bits("xu", 6, 0x100200), {1: bits("ro", 3, BOX)}),
        slot(1, 1, 255, bits("xu", 6, 0x100240), {1: bits("rw", 3, BOX), 2: bits("eu", 6, DOOR)}),
        slot(2, 2, 255, bits("xu", 6, 0x100280), {}),
        slot(3, 3, 255, bits("xp", 6, 0x1002C0), {}),
    ],
    {GATE: bits("rw", 6, COUNT)},
)
GATE_LINES = f"""\
1 group 1 {text('eu', 6, DOOR)} register 1 2
2 group 1 {text('xu', 6, DOOR)} entered 1
3 group 1 {text('rw', 6, COUNT)} cell {GATE:014x} by 2
"""
PASSED_LINES = f"""\
{GATE_LINES}4 group 1 {text('rw', 3, BOX)} register 1 1
5 group 0 {text('ro', 3, BOX)} register 0 1
6 group 0 {text('rw', 6, COUNT)} passed {BOX:014x} from 3 store 4 load 5
"""
AGAIN_LINES = f"{PASSED_LINES}7 group 0 {text('xu', 6, DOOR)} passed {COUNT:014x} from 2 store 3 load 6\n"
SERVED_LINES = f"{PASSED_LINES}7 group 2 {text('rw', 6, COUNT)} served 0 from 6\n"
MADE_LINES = f"""\
1 group 3 {text('xp', 6, 0x1002C0)} ip 3
2 group 3 {text('rw', 3, BOX)} made 1
"""
BELOW_LINES = f"{GATE_LINES}4 group 1 {text('ro', 3, COUNT + 8)} below 3\n"
RIGHT = [
    (GATE_LINES, 1, COUNT, "write"),
    (PASSED_LINES, 0, COUNT + 56, "write"),
    (SERVED_LINES, 2, COUNT, "touch"),
    (MADE_LINES, 3, BOX, "write"),
    (BELOW_LINES, 1, COUNT + 8, "touch"),
    (AGAIN_LINES, 0, GATE, "touch"),
]
# What is changed in a right text, what the question is, and the number of the line that is refused.
WRONG = [
    (GATE_LINES, "2 group 1", "2 group 0", 1, COUNT, "write", 2),
    (GATE_LINES, "3 group 1", "3 group 0", 0, COUNT, "write", 3),
    (MADE_LINES, "2 group 3", "2 group 0", 0, BOX, "write", 2),
    (BELOW_LINES, "4 group 1", "4 group 0", 0, COUNT + 8, "touch", 4),
    (BELOW_LINES, f"4 group 1 {text('ro', 3, COUNT + 8)} below 3", f"4 group 1 {text('ro', 3, DOOR)} below 1", 1, DOOR, "touch", 4),
    (SERVED_LINES, "register 1 2", "register 0 2", 2, COUNT, "touch", 1),
    (SERVED_LINES, "register 1 2", "register 1 3", 2, COUNT, "touch", 1),
    (SERVED_LINES, "entered 1", "entered 2", 2, COUNT, "touch", 2),
    (SERVED_LINES, f"cell {GATE:014x} by 2", f"cell {DOOR:014x} by 2", 2, COUNT, "touch", 3),
    (SERVED_LINES, f"cell {GATE:014x} by 2", f"cell {GATE:014x} by 1", 2, COUNT, "touch", 3),
    (SERVED_LINES, f"cell {GATE:014x} by 2", f"cell {GATE:014x} by 4", 2, COUNT, "touch", 3),
    (SERVED_LINES, f"passed {BOX:014x}", f"passed {BOX + 8:014x}", 2, COUNT, "touch", 6),
    (AGAIN_LINES, f"passed {COUNT:014x}", f"passed {COUNT + 1:014x}", 0, GATE, "touch", 7),
    (SERVED_LINES, "store 4 load 5", "store 5 load 5", 2, COUNT, "touch", 6),
    (SERVED_LINES, "store 4 load 5", "store 4 load 4", 2, COUNT, "touch", 6),
    (SERVED_LINES, "from 3 store", "from 2 store", 2, COUNT, "touch", 6),
    (SERVED_LINES, "served 0", "served 1", 2, COUNT, "touch", 7),
    (SERVED_LINES, "7 group 2", "7 group 3", 2, COUNT, "touch", 7),
    (SERVED_LINES, "", "", 1, COUNT, "touch", 7),
    (SERVED_LINES, "", "", 2, COUNT + 64, "touch", 7),
    (MADE_LINES, "made 1", "made 2", 3, BOX, "write", 2),
    (MADE_LINES, "ip 3", "ip 2", 3, BOX, "write", 1),
    (BELOW_LINES, "below 3", "below 2", 1, COUNT + 8, "touch", 4),
    (BELOW_LINES, text("ro", 3, COUNT + 8), text("xu", 3, COUNT + 8), 1, COUNT + 8, "touch", 4),
    (BELOW_LINES, "", "", 1, COUNT + 8, "write", 4),
    (MADE_LINES, text("rw", 3, BOX), text("ro", 3, BOX), 3, BOX, "write", 2),
    (MADE_LINES, "1 group", "01 group", 3, BOX, "write", 1),
    (MADE_LINES, "2 group", "3 group", 3, BOX, "write", 2),
    (MADE_LINES, " made 1\n", " made 1", 3, BOX, "write", 2),
]


class Below(unittest.TestCase):
    def test_what_nobody_moves(self):
        """Of an enter pointer and of a key nothing else is made; of others what is shorter, inside and weaker."""
        for short in ("eu", "ep", "key"):
            whole = Pointer.of_bits(bits(short, 6, DOOR))
            self.assertTrue(is_below(whole, whole))
            for made in (bits(short, 3, DOOR), bits("key", 6, DOOR), bits(short, 6, DOOR + 8)):
                self.assertEqual(is_below(Pointer.of_bits(made), whole), made == whole.bits)
        box = Pointer.of_bits(bits("rw", 6, COUNT))
        for short, log, address, right in (("rw", 3, COUNT + 8, True), ("ro", 6, COUNT, True), ("key", 3, COUNT, True),
                ("xu", 6, COUNT, False), ("rw", 7, COUNT, False), ("rw", 3, COUNT + 64, False)):
            self.assertEqual(is_below(Pointer.of_bits(bits(short, log, address)), box), right)


class Derivations(unittest.TestCase):
    def refused(self, lines: str, group: int, address: int, kind: str) -> int:
        with self.assertRaises(WrongLine) as wrong:
            check(read_image(IMAGE), read_lines(lines), group, address, kind)
        return wrong.exception.number

    def test_right(self):
        for lines, group, address, kind in RIGHT:
            check(read_image(IMAGE), read_lines(lines), group, address, kind)

    def test_shortest(self):
        # Privileged code can store any pointer where a group loads, so two of them are longer than they need be.
        grants = Grants(read_image(IMAGE))
        for (_, group, address, kind), count in zip(RIGHT, (3, 4, 4, 2, 3)):
            self.assertEqual(grants.shortest(group, address, kind, 10), count)
            self.assertIsNone(grants.shortest(group, address, kind, count - 1))

    def test_wrong(self):
        for lines, old, new, group, address, kind, number in WRONG:
            with self.subTest(old=old, new=new):
                self.assertEqual(self.refused(lines.replace(old, new, 1) if old else lines, group, address, kind), number)

    def test_twice_and_unnamed(self):
        again = f"3 group 3 {text('rw', 3, BOX)} made 1\n"
        self.assertEqual(self.refused(MADE_LINES + again, 3, BOX, "write"), 3)
        other = f"3 group 3 {text('rw', 4, BOX)} made 1\n"
        self.assertEqual(self.refused(MADE_LINES + other, 3, BOX, "write"), 2)
        self.assertEqual(self.refused("", 3, BOX, "write"), 1)

    def test_command(self):
        hello = "1 group 0 p3300000000100000 ip 0\n"
        words = ("check-why", "examples/hello.img", "0", "0x100000")
        self.assertEqual(mm(*words, "touch", lines=hello).out, "right: 1 line, and group 0 can touch 00000000100000\n")
        self.assertEqual(mm(*words, "write", lines=hello).status, Status.REFUSED)
        self.assertEqual(mm(*words, "touch", lines="no\n").status, Status.REFUSED)
        self.assertEqual(mm(*words, "read", lines=hello).status, Status.USAGE)
        self.assertEqual(mm(*words[:3], "0x100001", "touch", lines=hello).status, Status.USAGE)
        with folder() as room:
            name = os.path.join(room, "cut.img")
            with open(name, "wb") as file:
                file.write(IMAGE[:100])
            ended = mm("check-why", name, "0", "0", "touch", lines=hello)
            self.assertEqual((ended.status, ended.err), (Status.REFUSED, f"mm: {name} is not an image: it is cut short\n"))


if __name__ == "__main__":
    unittest.main()
