"""Words, pointers and the table of operations."""

import re
import unittest

from mm.formats.image import read_image
from mm.machine.causes import Cause
from mm.machine.isa import BY_NUMBER, OPERATIONS, Instruction, decode, encode
from mm.machine.words import Permission, Pointer, Word, bytes_in_words
from mm.names.expressions import NoAddress, address_of
from mm.names.numbers import number_of
from mm.names.symbols import Symbols
from mm.source.lines import read_line
from mm.tests.support import read, read_bytes


class Words(unittest.TestCase):
    def test_pointers_of_bits(self):
        pointer = Pointer.of_bits(0x2300000000010000)
        self.assertEqual(pointer, Pointer(Permission.RW, 12, 0x10000))
        self.assertEqual((pointer.base, pointer.end, pointer.bits), (0x10000, 0x11000, 0x2300000000010000))
        for bits in (0x0300000000010000, 0x8300000000010000, 0x2DC0000000000000):
            self.assertIsNone(Pointer.of_bits(bits))

    def test_end_of_memory(self):
        pointer = Pointer.of_bits(0x2DBFFFFFFFFFFFF8)
        self.assertEqual((pointer.log, pointer.address, pointer.base), (54, (1 << 54) - 8, 0))

    def test_words_of_reports(self):
        self.assertEqual(str(Word.parse("p51800000001000c8")), "p51800000001000c8")
        self.assertEqual(Word.parse("iffffffffffffffff").signed, -1)
        self.assertIsNone(Word.parse("i51800000001000c8").pointer)

    def test_rights(self):
        table = re.findall(
            r"^\| (\d) \| [\w/-]+ \| (yes|no) \| (yes|no) \| (yes|no) \| (yes|no) \|", read("docs", "MACHINE.md"), re.M
        )
        self.assertEqual(len(table), 7)
        for code, loads, stores, fetches, jumps in table:
            permission = Permission.of_code(int(code))
            said = [permission.loads, permission.stores, permission.executes, permission.executes or permission.enters]
            self.assertEqual(said, [word == "yes" for word in (loads, stores, fetches, jumps)], permission)

    def test_lengths(self):
        self.assertEqual([bytes_in_words(log) for log in (0, 3, 12, 20)], ["1 byte", "8 bytes", "4 KiB", "1 MiB"])

    def test_numbers(self):
        given = {
            "10": 10,
            "0x10": 16,
            "0b101": 5,
            "0o17": 15,
            "1_000": 1000,
            "-5": -5,
            "00000000100040": 100040,
            "12561543266008": 12561543266008,
            "box": None,
            "0x": None,
            "": None,
        }
        self.assertEqual({text: number_of(text) for text in given}, given)

    def test_addresses_as_reports_print_them(self):
        """Only where an address is read. What may also be a decimal number is refused."""
        self.assertEqual(address_of("00000000100040", Symbols()), 0x100040)
        self.assertEqual(address_of("0000000010004a", Symbols()), 0x10004A)
        with self.assertRaises(NoAddress) as refused:
            address_of("12561543266008", Symbols())
        self.assertIn("write 0xb6cb652fed8 for the first, 0x12561543266008 for the second", str(refused.exception))


# What the page of instructions calls each cause.
TITLES = {cause.title.replace("NotPointer", "Ptr"): cause.title for cause in Cause}


class Operations(unittest.TestCase):
    def test_table_is_that_of_the_page(self):
        row = r"^\| \[([0-9A-F]{2})\] \| \[(\w+)\] \| ([^|]*) \| ([^|]*) \|"
        rows = re.findall(row, read("docs", "INSTRUCTIONS.md"), re.M)
        self.assertEqual([name for _, name, _, _ in rows], list(OPERATIONS))
        fields = {"imm": "imm", "c": "pre", "ra c": "ra"}
        for number, name, said, tests in rows:
            operation = OPERATIONS[name]
            self.assertEqual(operation.number, int(number, 16))
            kinds = {kind.field for kind in operation.operands}
            wanted = [fields.get(word, word) for word in re.findall(r"\b(rd|ra|rb|imm|c)\b", said)]
            wanted = ["how" if name == "resume" and word == "pre" else word for word in wanted]
            self.assertEqual(kinds - {"post"}, set(wanted), name)
            if "access" not in tests:
                said = [TITLES[word] for word in re.findall(r"\w+", tests.partition("][")[0]) if word in TITLES]
                self.assertEqual(said, operation.tests.split(), name)

    def test_examples_are_read(self):
        for operation in OPERATIONS.values():
            self.assertIsNone(read_line(operation.example).mismatch, operation.example)

    def test_each_instruction_has_one_word(self):
        for operation in BY_NUMBER.values():
            made = Instruction(
                operation,
                tuple(-3 if kind.field == "imm" and kind.name != "REGISTER" else 1 for kind in operation.operands),
            )
            self.assertEqual(decode(encode(made)), made)
        for bits in (
            0x0000000000000001,
            0x0010000000000000,
            0x09 << 56,
            0x30210C0000000000,
            0x51D0000000000000,
            0x3021030000000000,
        ):
            self.assertIsNone(decode(bits), hex(bits))

    def test_words_of_an_image(self):
        """The consumer of the counter, the producer, and its gate, word by word."""
        for word, text in (
            (0x3021060000000000, "ld r2, r1, 0, full, empty"), (0x1E22000000000040, "addi r2, r2, 64"),
            (0x0702000000000000, "out r2"), (0x4465000000000000, "jal r6, r5"),
            (0x1E330000FFFFFFFF, "addi r3, r3, -1"), (0x42030000FFFFFFFB, "bnz r3, -5"),
            (0x0000000000000000, "halt"), (0x3101290000000000, "st r1, r2, 0, empty, full"),
            (0x45700000FFFFFFFF, "lip r7, -1"), (0x3077000000000000, "ld r7, r7, 0, any, keep"),
            (0x3107800000000000, "st r7, r8, 0, any, keep"), (0x0270000000000000, "ldi r7, 0"),
            (0x4306000000000000, "jmp r6"),
        ):  # fmt: skip
            self.assertEqual(decode(word).text(), text)

    def test_image(self):
        image = read_image(read_bytes("examples", "counter.img"))
        self.assertEqual(
            [(slot.number, slot.group, slot.handler) for slot in image.slots], [(0, 0, None), (1, 1, None)]
        )
        self.assertTrue(image.cell(0x1000C0).word.tagged)
        self.assertFalse(image.cell(0x100100).full)
        self.assertIsNone(image.cell(0x200000))


if __name__ == "__main__":
    unittest.main()
