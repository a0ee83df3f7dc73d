"""Answers with more rows, longer ranges and higher numbers than those of the examples."""

import json
import os
import re
import unittest
from unittest import mock

from mm.formats.hex import PARTS
from mm.formats.image import Image, Slot, image_bytes, page_of, read_image
from mm.machine.program import find_program
from mm.machine.words import Cell, Permission, Pointer, Word
from mm.names.symbols import Region, Symbols
from mm.outputs.audit import Reach
from mm.tests.support import folder, mm, needs_program, read_bytes, write
from mm.tests.test_hex import read_hex
from mm.tests.test_waves import Reader
from mm.views.audit import NAMES_SHOWN, AuditView
from mm.views.style import Style

SLEEPS = ".segment sleep 3\n  halt\n"
BOX = ".segment box 3\n  .int 0\n"
# Prints the letters from its first on, so many.
PRINTS = """\
.segment main 6
  ldi r1, {first}
  ldi r2, {count}
more: out r1
  addi r1, r1, {each}
  addi r2, r2, -1
  bnz r2, more
  halt
.thread 0 0 none xu main
.segment sent 3
  .empty .int 0
.segment got 3
  .empty .int 0
"""
# Sends its number by the word `sent`.
SENDS = PRINTS.replace("  halt\n", "  st r3, r1, 0, empty, full\n  halt\n") + ".reg 3 ptr rw sent\n"
# Slot 0 handles the faults of three others, and takes the first after they all have stopped.
QUEUED = """\
.segment serve 6
  ldi r1, 20
wait: addi r1, r1, -1
  bnz r1, wait
next: evt r4
  br next
.segment asks 3
  trap 1
.thread 0 0 none xu serve
""" + "".join(f".thread {slot} {slot} 0 xu asks\n" for slot in (1, 2, 3))
HANDLED = SLEEPS + ".thread 0 {} {} xu sleep\n.thread 1 {} {} xu sleep\n"


@needs_program
class Holders(unittest.TestCase):
    def test_each_is_told(self):
        """30 words of memory and two registers of each of 16 slots hold a pointer to the same word."""
        held = sorted((slot, register) for slot in range(16) for register in (slot, (slot + 5) % 16))
        text = SLEEPS + BOX + ".segment keeps 8\n" + "  .ptr rw box\n" * 30
        for slot in range(16):
            text += f".thread {slot} 0 none xu sleep\n"
            text += "".join(f".reg {register} ptr rw box\n" for holder, register in held if holder == slot)
        with folder() as room:
            lines = mm("holders", write(room, "many.asm", text), "box").out.splitlines()
        wanted = [f"  slot {slot} r{register:<3} holds  rw 2^3 box" for slot, register in held]
        wanted += ["  memory keeps holds  rw 2^3 box"] + [f"  memory keeps+{8 * at} holds  rw 2^3 box" for at in range(1, 30)]
        self.assertEqual(lines[:1], ["pointers that meet box (8 bytes from 0x100108 on):"])
        self.assertEqual(lines[1:], wanted)

    def test_long_ranges_begin_at_a_multiple_of_their_length(self):
        with folder() as room:
            name = write(room, "one.asm", SLEEPS + BOX + ".thread 0 0 none xu sleep\n.reg 1 ptr rw box\n")
            for log in (4, 19, 20, 21, 40, 53):
                for range_ in (f"0x{(1 << log) + 8:x},{log}", f"0x{(1 << log) + (1 << log - 1):x},{log}"):
                    for command in ("holders", "sweep"):
                        ended = mm(command, name, range_)
                        self.assertEqual((ended.status, ended.out), (1, ""), range_)
                        self.assertIn(f"mm: a range of 2^{log} bytes begins at a multiple of its length", ended.err)
            self.assertIn("nobody holds a pointer that meets", mm("holders", name, "0x200000,20").out)

    def test_ranges_of_all_lengths(self):
        """A register has a pointer into the range, and another one to before it, which it keeps."""
        page = page_of(0x100, {0: Cell(Word(0))})
        for log in range(3, 54):
            begin = 1 << max(log, 21)
            inside, before = (Pointer(Permission.RW, 3, place) for place in (begin + (1 << log) - 8, begin - 8))
            registers = (Word(0), Word(inside.bits, True), Word(before.bits, True), *(Word(0),) * 13)
            slot = Slot(0, 0, None, False, Pointer(Permission.XU, 3, 0x100000), registers)
            with self.subTest(log), folder() as room:
                name, swept = os.path.join(room, "one.img"), os.path.join(room, "swept.img")
                with open(name, "wb") as file:
                    file.write(image_bytes(Image(2, 1, False, (slot,), {page.number: page})))
                range_ = f"0x{begin:x},{log}"
                told = mm("holders", name, range_).out.splitlines()[1:]
                self.assertEqual(told, [f"  slot 0 r1   holds  rw 2^3 0x{inside.address:x}"])
                self.assertEqual(mm("sweep", name, range_, "-o", swept).status, 0)
                self.assertIn("nobody holds a pointer that meets", mm("holders", swept, range_).out)
                found = read_image(read_bytes(swept)).slots[0].registers
                self.assertEqual((found[1].tagged, found[2]), (False, registers[2]))


@needs_program
class Runs(unittest.TestCase):
    def test_as_many_cycles_as_are_asked_for(self):
        """Of a program that never ends: numbers of one to seven digits."""
        with folder() as room:
            name = write(room, "loop.asm", ".segment a 3\nx: br x\n.thread 0 0 none xu a\n")
            for count in (2, 9, 10, 99, 321, 4096, 54_321, 99_999, 100_000, 123_456, 200_000, 1_000_000):
                form = json.loads(mm("run", name, "--cycles", str(count), "--json").out)
                self.assertEqual((form["cycles"], form["slots"][0]["turns"]), (count, count))
            lines = find_program().run(["log", self.image(room, name), "123456"]).text.splitlines()
            self.assertEqual(sum(line.startswith("t ") for line in lines), 123_456)

    def image(self, room, name):
        made = os.path.join(room, "made.img")
        self.assertEqual(mm("link", name, "-o", made).status, 0)
        return made


@needs_program
class Net(unittest.TestCase):
    def test_rings(self):
        """Of two to eight nodes. Each sends a letter to the next, and all letters but the first arrive."""
        for count in range(2, 9):
            with self.subTest(count), folder() as room:
                nodes = [write(room, f"{node}.asm", SENDS.format(first=65 + node, count=1, each=0)) for node in range(count)]
                links = " ".join(f"{node}.sent>{(node + 1) % count}.got" for node in range(count))
                events = " ".join(f"{node}:0*7 +{node}" for node in range(count))
                events += "".join(f" {link}@0" for link in range(1, count))
                ended = mm("net", write(room, "a.links", links), write(room, "a.events", events), *nodes)
                self.assertEqual((ended.status, ended.err), (0, ""))
                reports = re.split(r"(?m)^node (\d)", ended.out)
                self.assertEqual(reports[1::2], [str(node) for node in range(count)])
                for node, report in enumerate(reports[2::2]):
                    self.assertIn(f'output "{chr(65 + node)}"', report)
                    got = [chr(65 + (node - 1) % count)] if node != 1 else []
                    self.assertEqual(re.findall(r"\n  got +\d+ '(.)'", report), got)
                told = [line for line in ended.out.splitlines() if line.startswith("link ")]
                self.assertEqual(told, [f"link {link} sent 1 arrived {int(link > 0)}" for link in range(count)])


class Audits(unittest.TestCase):
    @needs_program
    def test_handlers_on_two_sides(self):
        for handlers, slot in ((("none", 0), 1), ((1, "none"), 0)):
            with self.subTest(handlers), folder() as room:
                name = write(room, "h.asm", HANDLED.format(0, handlers[0], 1, handlers[1]))
                out = mm("audit", name).out
                form = json.loads(mm("audit", name, "--json").out)
            for group in (0, 1):
                self.assertIn(f"group {group} does not stand apart: slot {slot} and its handler are on two sides", out)
            self.assertEqual([apart["handler"] for apart in form["apart"]], [slot, slot])

    @needs_program
    def test_what_is_only_written(self):
        """A group may load from a longer segment, and store into a part of it."""
        text = SLEEPS + ".segment long 6\n" + "  .int 0\n" * 8 + ".thread 0 0 none xu sleep\n"
        with folder() as room:
            out = mm("audit", write(room, "w.asm", text + ".reg 1 ptr ro long\n")).out
        self.assertRegex(out, r"\n  read            long +64 bytes  0x[0-9a-f]+\n")
        view = AuditView(Symbols(), Style())
        lines = view.reach(Reach(0, False, [(0x1000, 6), (0x2000, 3)], [(0x1008, 3), (0x2000, 3)]), [0])
        self.assertEqual(lines, [
            "group 0 (slot 0) can",
            "  read            0x1000   64 bytes  0x1000",
            "  read and write  0x2000    8 bytes  0x2000",
            "  write           0x1008    8 bytes  0x1008",
        ])

    def test_names_of_a_long_segment(self):
        """A segment that is longer than those with a name is told with the first names in it, and how many more."""
        names = "abcdefghij"
        regions = [Region(name, 0x1000 + 8 * at, 3, 1, None, 0) for at, name in enumerate(names)]
        for count in (1, NAMES_SHOWN, NAMES_SHOWN + 1, len(names)):
            more = f" and {count - NAMES_SHOWN} more" if count > NAMES_SHOWN else ""
            said = AuditView(Symbols(regions[:count]), Style()).segment(0x1000, 12)
            self.assertEqual(said, f"a (with {', '.join(names[:min(count, NAMES_SHOWN)])}{more})")


class Waves(unittest.TestCase):
    @needs_program
    def test_many_bytes(self):
        """300 bytes of one group, and 70 of another."""
        prints = PRINTS.format(first=1, count=300, each=0)
        other = prints.replace("300", "70").replace("main", "other").replace(".thread 0 0", ".thread 1 1").split(".segment sent")[0]
        with folder() as room:
            ended = mm("vcd", write(room, "p.asm", prints + other.replace("more", "again")), "--cycles", "5000")
        moments = [values for _, values in Reader(ended.out.splitlines()).moments]
        for group, count in ((0, 300), (1, 70)):
            told = [values[f"machine.group{group}.bytes"] for values in moments]
            self.assertEqual(sorted(set(told)), list(range(count + 1)))
            self.assertEqual(told, sorted(told))

    @needs_program
    def test_events_that_wait(self):
        """Three faults wait in the queue of their handler, which then takes one after another."""
        with folder() as room:
            ended = mm("vcd", write(room, "q.asm", QUEUED), "--cycles", "200")
        told = [values["machine.slot0.queue"] for _, values in Reader(ended.out.splitlines()).moments]
        self.assertEqual([old for old, new in zip(told, told[1:] + [None]) if old != new], [0, 1, 2, 3, 2, 1, 0])


class Hexadecimal(unittest.TestCase):
    def test_slots_of_all_kinds(self):
        """64 slots: in any place one that is halted, one of a high group, and handlers from 0 to 63."""
        ip, zeros = Pointer(Permission.XU, 3, 0x1000), (Word(0),) * 16
        for odd in (0, 1):
            slots = [Slot(at, 255 - at, None if at % 3 == 2 else 63 - at, at % 2 == odd, ip, zeros) for at in range(64)]
            found, _ = read_hex(PARTS["slots"](Image(2, 1, False, tuple(slots), {})))
            for slot in slots:
                about = found[32 * slot.number]
                handler = 255 if slot.handler is None else slot.handler
                self.assertEqual(about, 1 << 17 | slot.halted << 16 | handler << 8 | slot.group, slot.number)


class Vectors(unittest.TestCase):
    @needs_program
    def test_how_many_there_may_be(self):
        for count, right in ((0, False), (1, True), (256, True), (100_001, True), (1_000_000, True), (1_000_001, False)):
            with mock.patch("mm.commands.vectors.vectors", return_value=iter(())) as made:
                ended = mm("vectors", "lea", "--count", str(count))
            self.assertEqual((ended.status, made.call_count), (0, 1) if right else (1, 0), count)
            if right:
                self.assertEqual(made.call_args.args[1:], ("lea", count))
            else:
                self.assertIn(f"`{count}` is not a count: 1 to 1000000", ended.err)


if __name__ == "__main__":
    unittest.main()
