"""Commands and views in their corners: numbers of every length, groups and schedules of every kind."""

import json
import os
import shutil
import subprocess
import unittest
from itertools import combinations
from types import SimpleNamespace
from unittest import mock

from mm import version
from mm.dap.looking import Looker
from mm.formats.hex import MACHINE, PARTS
from mm.formats.image import Image, read_image
from mm.machine.program import find_program
from mm.machine.words import Cell, Permission, Pointer, Word
from mm.names.symbols import Region, Symbols
from mm.outputs.report import SlotState
from mm.tests.support import folder, mm, needs_program, read_bytes, write
from mm.tests.test_grade_lines import A, Room
from mm.tests.test_hex import read_hex
from mm.tests.test_waves import Reader
from mm.views.spell import Speller

FACTOR, ADDEND, MODULUS = 0x5851F42D4C957F2D, 0x14057B7EF767814F, 1 << 64
# Four groups, each with a word of its own, one that is empty and one that a key leads to.
OWN = ".segment code 3\n  halt\n" + "".join(
    f".segment own{group} 5\n  .int {70 + group}\n  .empty .int {80 + group}\n  .ptr key code\n" for group in range(4)
) + "".join(f".thread {9 - group} {group} none xu code\n.reg 1 ptr rw own{group}\n" for group in range(4))
# Slot 0 prints A, B and C, slot 1 prints a and b.
PRINTS = """\
.segment upper 6
  ldi r1, 65
  out r1
  ldi r1, 66
  out r1
  ldi r1, 67
  out r1
  halt
.segment lower 6
  ldi r1, 97
  out r1
  ldi r1, 98
  out r1
  halt
.thread 0 0 none xu upper
.thread 1 1 none xu lower
"""
LOOP = ".segment a 3\nx: br x\n.thread 0 0 none xu a\n"


def numbers_after(number, count):
    """The numbers that the words of a generated image have, by docs/LINKING.md."""
    for _ in range(count):
        number = (number * FACTOR + ADDEND) % MODULUS
        yield number


def lengths():
    """A number of each length in decimal, with a size; all sizes occur."""
    for digits in range(1, 21):
        yield min(int("9182736450918273645091"[:digits]), MODULUS - 1), (7 * digits) % 16 + 1


def counting(slots, loops):
    """Slots that each take 2 * LOOPS + 2 turns."""
    text = f".segment a 5\n  ldi r1, {loops}\nx: addi r1, r1, -1\n  bnz r1, x\n  halt\n"
    return text + "".join(f".thread {slot} 0 none xu a\n" for slot in range(slots))


@needs_program
class Generated(unittest.TestCase):
    def test_images_of_numbers_of_every_length(self):
        with folder() as room:
            name = os.path.join(room, "made.img")
            for number, size in lengths():
                spelled = hex(number) if size % 4 == 0 else str(number)
                self.assertEqual(mm("gen", spelled, str(size), "-o", name).status, 0)
                image = read_image(read_bytes(name))
                self.assertEqual([slot.number for slot in image.slots], list(range(size)), spelled)
                wanted = b"".join(word.to_bytes(8, "big") for word in numbers_after(number, 512 * size))
                found = b"".join(image.pages[0x101 + 2 * slot].words for slot in range(size))
                self.assertTrue(found == wanted, spelled)

    def test_summaries_of_numbers_of_every_length(self):
        """Of three rounds of the loop of five instructions."""
        for number, size in lengths():
            lines = mm("soak", str(number), str(size), "--cycles", str(15 * size)).out.splitlines()
            wanted, words = [f"cycles {15 * size}"], list(numbers_after(number, 512 * size))
            for slot in range(size):
                first, second, third = words[512 * slot : 512 * slot + 3]
                wanted.append(f"slot {slot} turns 15 running out 3 xor i{first ^ second ^ third:016x}")
            self.assertEqual(lines, wanted, (number, size))

    def test_other_numbers(self):
        for words in (("18446744073709551616", "1"), ("-1", "1"), ("1", "0"), ("1", "17"), ("x", "1")):
            for command in ("gen", "soak"):
                ended = mm(command, *words)
                self.assertEqual((ended.status, ended.out), (1, ""), words)


@needs_program
class Made(unittest.TestCase):
    def test_images_of_all_sets_of_groups(self):
        with folder() as room:
            source, name = write(room, "own.asm", OWN), os.path.join(room, "made.img")
            self.assertEqual(mm("link", source, "-o", name).status, 0)
            whole = read_image(read_bytes(name))
            places = {slot.group: slot.registers[1].pointer.address for slot in whole.slots}
            for count in (1, 2, 3, 4):
                for groups in combinations(range(4), count):
                    self.assertEqual(mm("extract", source, ",".join(map(str, groups)), "-o", name).status, 0)
                    image = read_image(read_bytes(name))
                    self.assertEqual(image.slots, tuple(slot for slot in whole.slots if slot.group in groups), groups)
                    for group, base in places.items():
                        for at in range(base, base + 32, 8):
                            wanted = whole.cell(at) if group in groups else Cell(Word(0))
                            self.assertEqual(image.cell(at), wanted, (groups, group, at))

    def test_checkpoints_under_schedules(self):
        """What `mm save` writes is what the program saves, and a run goes on from there as its schedule says."""
        with folder() as room:
            source = write(room, "p.asm", PRINTS)
            image, kept, order, rest = (os.path.join(room, it) for it in ("p.img", "p.mms", "order", "rest"))
            mm("link", source, "-o", image)
            for items, letters in (("1*9", ("", "ab")), ("0*4 1*2", ("AB", "a")), ("1 0 9 0", ("A", "")), ("", ("", ""))):
                write(room, "order", items)
                for cycles in ([], ["3"], ["0"]):
                    limit = [word for number in cycles for word in ("--cycles", number)]
                    wanted = find_program().run(["save", image, (cycles or ["1000000"])[0], order]).out
                    for how in (["--schedule", order], ["--turns", items]):
                        self.assertEqual(mm("save", source, *limit, *how, "-o", kept).status, 0)
                        self.assertEqual(read_bytes(kept), wanted, (items, cycles))
                mm("save", source, "--schedule", order, "-o", kept)
                write(room, "rest", "")
                form = json.loads(mm("continue", source, kept, "--schedule", rest, "--json").out)
                found = tuple(bytes.fromhex(group["output"]["hex"]).decode() for group in form["groups"])
                self.assertEqual(found, letters, items)

    def test_checkpoints_of_round_robin(self):
        with folder() as room:
            source, kept = write(room, "p.asm", PRINTS), os.path.join(room, "p.mms")
            whole = mm("run", source).out.splitlines()[2:]
            for cycles in range(13):
                mm("save", source, "--cycles", str(cycles), "-o", kept)
                lines = mm("continue", source, kept).out.splitlines()[2:]
                self.assertEqual(lines[:-1], whole[:-1], cycles)


@needs_program
class Ends(unittest.TestCase):
    def test_many_slots_run_to_their_end(self):
        for slots in (1, 2, 4, 5, 6, 16):
            with self.subTest(slots), folder() as room:
                form = json.loads(mm("run", write(room, "c.asm", counting(slots, 3000)), "--json").out)
                self.assertEqual(form["cycles"], 6002 * slots)
                self.assertEqual({slot["state"] for slot in form["slots"]}, {"halted"})

    def test_as_many_configurations_as_the_help_says(self):
        three = ".segment a 8\n" + "  nop\n" * 28 + "  halt\n" + "".join(f".thread {n} 0 none xu a\n" for n in range(3))
        faults = ".segment a 3\n  trap 1\n.segment b 3\n  .int -1\n.thread 0 0 none xu a\n.thread 1 1 none xu b\n"
        grows = ".segment a 4\nx: addi r1, r1, 1\n  br x\n.thread 0 0 none xu a\n"
        with folder() as room:
            out = mm("explore", write(room, "g.asm", grows)).out
            self.assertTrue(out.startswith("100000 configurations, there are more"), out[:80])
            out = mm("explore", write(room, "t.asm", three)).out
            self.assertTrue(out.startswith("27000 configurations, these are all"), out[:80])
            out = mm("explore", write(room, "f.asm", faults), "--states", "100000000").out
        for slot, cause, place in ((0, "11 Trap", "trap 1"), (1, "7 Illegal", ".int -1")):
            self.assertRegex(out, rf"slot {slot} can be stopped at \w+ by fault {cause}\b")
            self.assertIn(place, out)


@needs_program
class Grades(Room):
    def test_as_many_cycles_as_the_page_says(self):
        """A program is run for 100,000 cycles, if its exercise says no other number."""
        for loops, wanted in ((49_998, "y"), (49_999, "y"), (50_000, "n")):
            code = f"  ldi r1, {loops}\nx: addi r1, r1, -1\n  bnz r1, x\n  halt"
            self.assertEqual(self.marks("uses halt\nhalts 0\n", A.format(code, ""))[1:], wanted, loops)


class Debugger(unittest.TestCase):
    def test_loads_on_their_way_and_empty_words(self):
        cells = {0x1000: Cell(Word(5)), 0x1008: Cell(Word(6), False), 0x1010: Cell(Word(0), False)}
        symbols = Symbols([Region("box", 0x1000, 5, 3, None, 0)])
        memory = SimpleNamespace(cell=cells.get, instruction=lambda address: None)
        looker = Looker(SimpleNamespace(memory=memory, symbols=symbols, speller=Speller(symbols)))
        slot = SlotState(0, 0, 1, "running", None, Word(Pointer(Permission.XU, 3, 0x2000).bits, True), False)
        for pending in ([], [(3, Word(7))], [(3, Word(7)), (9, Word(8)), (4, Word(66))]):
            slot.pending, slot.registers = pending, {number: None for number, _ in pending}
            rows = {row["name"]: row["value"] for row in looker.registers(slot)}
            told = [(name, value) for name, value in rows.items() if "on its way" in name]
            self.assertEqual(told, [(f"r{number}, on its way", speller_of(word)) for number, word in pending])
            self.assertEqual({name for name, value in rows.items() if value.startswith("empty")},
                             {f"r{number}" for number, _ in pending})
        words = [(row["name"], row["value"]) for row in looker.words(symbols.regions[0])]
        self.assertEqual(words, [("box", "5"), ("box+8", "6, empty"), ("box+16", "0, empty")])


def speller_of(word):
    return Speller(Symbols()).word(word)


class Arrays(unittest.TestCase):
    def test_machines_of_all_kinds(self):
        for split, frames, kind in ((split, frames, kind) for split in (0, 1) for frames in (1, 2, 4096) for kind in (1, 2)):
            found, _ = read_hex(PARTS["slots"](Image(kind, frames, bool(split), (), {})))
            self.assertEqual(found[MACHINE], split << 32 | kind << 16 | frames)


@needs_program
class Waves(unittest.TestCase):
    def test_faults_of_high_numbers(self):
        for code, fault in (("  divu r1, r1, r2", 9), ("  trap 5", 11), ("  map r1, r1", 8), ("  .int -1", 7)):
            with self.subTest(fault), folder() as room:
                lines = mm("vcd", write(room, "f.asm", A.format(code, ""))).out.splitlines()
                self.assertEqual(list(Reader(lines).moments)[-1][1]["machine.slot0.fault"], fault)


@unittest.skipUnless(shutil.which("git"), "there is no git")
class Versions(unittest.TestCase):
    def test_a_checkout_that_was_changed_says_so(self):
        with folder() as room, mock.patch.object(version, "CHECKOUT", room), mock.patch.object(version, "WRITTEN", room):
            def git(*words):
                whose = ["-c", "user.name=a", "-c", "user.email=a@b"]
                subprocess.run(["git", "-C", room, *whose, *words], check=True, capture_output=True)

            git("init", "-q")
            write(room, "file", "one")
            git("add", "file")
            git("commit", "-q", "-m", "one")
            clean = version.version()
            self.assertRegex(clean, r"^[0-9a-f]{7,}$")
            write(room, "file", "two")
            self.assertEqual(version.version(), f"{clean}-dirty")


if __name__ == "__main__":
    unittest.main()
