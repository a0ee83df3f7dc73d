"""Images for `$readmemh`: each text is read back as Verilog reads it, and compared with the image."""

import os
import re
import unittest

from mm.formats.hex import MACHINE, PARTS, SLOTS
from mm.formats.image import read_image
from mm.machine.words import Cell, Word
from mm.tests.support import folder, mm, needs_program, read_bytes
from mm.tests.test_log import small_image


def read_hex(lines):
    """What an array holds after `$readmemh`: numbers by place, and how many digits they have."""
    at, found, digits = 0, {}, set()
    for line in lines:
        for word in line.split("//")[0].split():
            if word.startswith("@"):
                at = int(word[1:], 16)
                continue
            assert re.fullmatch("[0-9a-f]+", word) and at not in found
            found[at] = int(word, 16)
            digits.add(len(word))
            at += 1
    return found, digits


def cell_of(number):
    return Cell(Word(number & (1 << 64) - 1, bool(number >> 64 & 1)), bool(number >> 65))


def word_of(number):
    return Word(number & (1 << 64) - 1, bool(number >> 64))


IMAGES = [small_image()] + [
    read_image(read_bytes("examples", f"{name}.img")) for name in ("hello", "counter", "kernel", "server", "split")
]


class ReadBack(unittest.TestCase):
    def test_memory(self):
        for image in IMAGES:
            found, digits = read_hex(PARTS["memory"](image))
            self.assertEqual({place * 8: cell_of(number) for place, number in found.items()}, dict(image.cells()))
            self.assertEqual(digits, {17})

    def test_frames_and_their_pages(self):
        for image in IMAGES:
            found, _ = read_hex(PARTS["frames"](image))
            pages, digits = read_hex(PARTS["pages"](image))
            self.assertEqual((len(pages), digits), (image.frames, {12}))
            cells = {}
            for place, number in found.items():
                page = pages[place // 512]
                self.assertEqual(page >> 44, 1)
                cells[(page & (1 << 44) - 1) * 4096 + place % 512 * 8] = cell_of(number)
            self.assertEqual(cells, dict(image.cells()))
            self.assertEqual(sum(page >> 44 for page in pages.values()), len(image.pages))
            self.assertEqual({page for page in pages.values() if not page >> 44} - {0}, set())

    def test_slots(self):
        for image in IMAGES:
            found, digits = read_hex(PARTS["slots"](image))
            self.assertEqual(digits, {17})
            machine = found[MACHINE]
            numbers = (machine & 0xFFFF, machine >> 16 & 0xFFFF, machine >> 32)
            self.assertEqual(numbers, (image.frames, image.version, image.split))
            for number in range(SLOTS):
                about, slot = found[32 * number], image.slot(number)
                self.assertEqual(about >> 17, int(slot is not None))
                if slot is None:
                    self.assertEqual(about, 0)
                    continue
                handler = 255 if slot.handler is None else slot.handler
                self.assertEqual((about & 255, about >> 8 & 255, about >> 16 & 1), (slot.group, handler, slot.halted))
                self.assertEqual(word_of(found[32 * number + 1]), Word(slot.ip.bits, True))
                registers = tuple(word_of(found[32 * number + 16 + k]) for k in range(16))
                self.assertEqual(registers, slot.registers)


@needs_program
class Command(unittest.TestCase):
    def test_parts(self):
        image = read_image(read_bytes("examples", "counter.img"))
        for part, lines in PARTS.items():
            for name in ("counter.img", "counter.asm"):
                ended = mm("hex", f"examples/{name}", "--part", part)
                self.assertEqual((ended.status, ended.out.splitlines()), (0, list(lines(image))))
        self.assertEqual(mm("hex", "examples/counter.img").out.splitlines(), list(PARTS["memory"](image)))

    def test_to_a_file(self):
        with folder() as room:
            name = os.path.join(room, "memory.hex")
            self.assertEqual(mm("hex", "examples/hello.img", "-o", name).status, 0)
            with open(name, encoding="ascii") as file:
                self.assertEqual(file.read(), mm("hex", "examples/hello.img").out)

    def test_refused(self):
        ended = mm("hex", "examples/hello.img", "--part", "words")
        self.assertEqual((ended.status, ended.out), (1, ""))
        self.assertIn("`words` is not a part", ended.err)


if __name__ == "__main__":
    unittest.main()
