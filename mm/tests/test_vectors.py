"""Vectors for the units of a core, as `mm vectors` writes them."""

import unittest

from mm.lockstep.vectors import units, vectors
from mm.machine.program import find_program
from mm.tests.support import needs_program


@needs_program
class Vectors(unittest.TestCase):
    def test_lea(self):
        found = list(vectors(find_program(), "lea", 200))
        self.assertEqual(len(found), 200)
        for vector in found:
            pointer = vector.a.pointer
            distance = vector.b.bits - (1 << 64 if vector.b.bits >> 63 else 0)
            if not vector.fault:
                self.assertEqual(vector.result.pointer.address, pointer.address + distance)
                self.assertEqual(vector.result.pointer.base, pointer.base)
            elif vector.fault == 1:
                self.assertIsNone(pointer if vector.a.tagged else None)
        self.assertEqual({vector.fault for vector in found}, {0, 1, 2, 3})

    def test_each_unit(self):
        for name in units():
            found = list(vectors(find_program(), name, 70))
            self.assertEqual(len(found), 70)
            self.assertTrue(any(not vector.fault for vector in found), name)
            self.assertRegex(found[0].line, "^[01][0-9a-f]{16} [01][0-9a-f]{16} [0-9a-f] [01][0-9a-f]{16}$")


if __name__ == "__main__":
    unittest.main()
