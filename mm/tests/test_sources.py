"""Sources, as they are read here."""

import re
import unittest

from mm.formats.object import read_object
from mm.formats.schedule import read_schedule
from mm.names.layout import place
from mm.source.lines import read_line
from mm.source.mend import Mender
from mm.source.text import read_source
from mm.tests.support import read, read_bytes, sources


class Lines(unittest.TestCase):
    def test_all_sources_are_read(self):
        for name in sources():
            for number, line in enumerate(read(name).splitlines(), 1):
                self.assertIsNone(read_line(line).mismatch, f"{name}:{number}")

    def test_faults_of_the_page(self):
        """The texts of docs/ASSEMBLER.md whose fault is one of a line by itself."""
        rows = re.findall(
            r"^\| ([1-4]) \w+ \|.*\| `([^`]+)`(?: / `([^`]+)`)? \| `source fault (\d) at (\d):(\d+)` \|",
            read("docs", "ASSEMBLER.md"),
            re.M,
        )
        self.assertEqual(len(rows), 4)
        for _, first, second, fault, line, column in rows:
            mismatch = read_line([first, second][int(line) - 1]).mismatch
            self.assertEqual((mismatch.fault, mismatch.column), (int(fault), int(column)), first)

    def test_places(self):
        rows = [
            ("ldi r16, 1", 2, 5),
            ("ld r2, r1, 0, keep, any", 3, 15),
            ("evt r13", 4, 5),
            (".thread 0 0 0 xu a", 4, 13),
            (".empty .fill 3", 2, 8),
            (".int 0x", 2, 7),
            ("halt $", 1, 6),
            ("halt \x0b", 1, 6),
            (".int " + "9" * 5000, 4, 6),
            (".reg 1 ptr rw a +", 2, 18),
            ("a: b: halt", 3, 4),
            (".ptr rw", 2, 8),
            ("st r1, r2, 4294967296, any, keep", 4, 12),
            ("resume r1, go", 3, 12),
        ]
        for text, fault, column in rows:
            mismatch = read_line(text).mismatch
            self.assertEqual((mismatch.fault, mismatch.column), (fault, column), text)


class Texts(unittest.TestCase):
    def test_counter(self):
        text = read_source("counter.asm", read_bytes("examples", "counter.asm"))
        self.assertEqual(
            [(segment.name, segment.log, segment.words) for segment in text.segments],
            [("prod", 6, 5), ("cons", 7, 7), ("gate", 6, 8), ("box", 3, 1), ("count", 3, 1)],
        )
        self.assertEqual(
            {name: (label.segment, label.place, label.line) for name, label in text.labels.items()},
            {"loop": (0, 0, 5), "again": (1, 0, 11), "door": (2, 1, 20)},
        )
        self.assertEqual([(thread.slot, thread.handler) for thread in text.threads], [(0, None), (1, None)])
        self.assertEqual(text.segments[2].run_at(1).line, 20)
        self.assertIsNone(text.segments[2].run_at(8))

    def test_filled_words(self):
        text = read_source("x", b".segment a 6\n.fill 3\nb: .empty .int 1\n .empty.ptr rw a\n")
        self.assertEqual((text.segments[0].words, text.labels["b"].place, text.segments[0].run_at(2).line), (5, 3, 2))

    def test_columns_are_bytes(self):
        text = read_source("x", "; \u00e4\u00f6\n.segment \u00e4 3\n".encode())
        self.assertEqual(len(text.lines), 2)

    def test_object_of_the_page(self):
        data = bytes.fromhex("4d4d4f310001000100000000000000000161030000000101" + "0000000000000000")
        made = read_object(data)
        self.assertEqual(
            [(segment.name, segment.log, segment.words, segment.full) for segment in made.segments],
            [("a", 3, (0,), (True,))],
        )
        self.assertEqual([item.base for item in place([made])], [0x100000])

    def test_schedule(self):
        schedule = read_schedule(b"0*3 1 # a comment 7\n 0*5")
        self.assertEqual((schedule.length, list(schedule.items())), (9, [0, 0, 0, 1, 0, 0, 0, 0, 0]))


class Mended(unittest.TestCase):
    def mended(self, text, fault, line, column):
        mender = Mender(text.split("\n"))
        self.assertTrue(mender.mend(fault, line, column))
        return mender.data().decode().split("\n")[1:-1], mender.prelude

    def test_statements(self):
        self.assertEqual(self.mended(".segment a 6\nx: li r1, 5", 3, 2, 4)[0], [".segment a 6", "x: nop"])
        self.assertEqual(self.mended(".segment a 99\nhalt", 4, 1, 12)[0], [".segment a 20", "halt"])
        self.assertEqual(self.mended(".segment a 6\nloop\nbr loop", 3, 2, 1)[0][1].strip(), "loop:")
        self.assertEqual(self.mended(".segment a 3\nhalt\nhalt", 8, 3, 1)[0][0], ".segment a 20")
        self.assertEqual(self.mended(".segment a 3\na: halt", 6, 2, 1)[0][1].strip(), "halt")

    def test_what_has_no_place(self):
        self.assertIn(".segment", self.mended("halt\n.segment a 3", 7, 1, 1)[1])
        self.assertEqual(
            self.mended(".reg 1 int 5\n.reg 2 int 6\n.thread 0 0 none xu a", 7, 1, 1)[0][:2], [" " * 12, " " * 12]
        )


if __name__ == "__main__":
    unittest.main()
