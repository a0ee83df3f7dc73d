"""What translated code computes: programs in LLVM's text whose result stands in r0. No compiler is needed. Each is run
as it is, and once more with a second reckoning of each value."""

import os
import unittest
from unittest import mock

from mm.cc.alignment import lowered
from mm.cc.arithmetic import CONDITIONS
from mm.machine.program import find_program
from mm.outputs.report import read_report
from mm.tests.cflows import FLOWS
from mm.tests.cseldom import SELDOM
from mm.tests.cvalues import NUMBERS, SUM
from mm.tests.cwider import programs
from mm.tests.support import folder, needs_program, write
from mm.tests.test_cc import source

TRAP = 11
PROGRAMS = {**NUMBERS, **FLOWS, **SELDOM}
# Numbers that the library would count: these programs need it.
OF_LIBRARY = ("extremes and numbers turned round", "overflows of 64, 40 and 128 bits",
              "objects stand as LLVM's text aligns them", "an object that a loop makes anew in each turn")
LIBRARY = """define i64 @__mm_bytes_swapped(i64 %x, i64 %n) {
  %r = shl i64 %x, 56
  ret i64 %r
}
define i64 @__mm_log_of_array(i64 %x) {
  ret i64 6
}
define i64 @__mm_signed_product_overflows(i64 %x, i64 %y) {
  ret i64 0
}
"""
TRAPS = """declare void @__mm_op_trap(i64)
define i64 @main() {
  call void @__mm_op_trap(i64 3)
  ret i64 0
}
"""


@needs_program
class Values(unittest.TestCase):
    def result(self, text: str):
        program = find_program()
        with folder() as room:
            answer = program.run(["asm", write(room, "a.asm", text)])
            self.assertEqual(answer.status, 0, answer.line)
            for name, words in (("a.obj", ["link"]), ("a.img", ["run"])):
                path = os.path.join(room, name)
                with open(path, "wb") as file:
                    file.write(answer.out)
                answer = program.run([*words, path, *(["100000"] if words == ["run"] else [])])
                self.assertEqual(answer.status, 0, answer.line)
        return read_report(answer.text.splitlines()).slots[0]

    def test_values(self):
        for title, (wanted, text) in PROGRAMS.items():
            for checked in (False, True):
                made = source(text + "\n" + (LIBRARY if title in OF_LIBRARY else ""), checked=checked)
                slot = self.result(made)
                found = (slot.state, slot.register(0).bits if slot.register(0) else 0)
                self.assertEqual(found, ("halted", wanted), f"{title}: {found[1]:x}, {checked}")

    def test_integers_of_more_than_128_bits(self):
        for number, (title, wanted, text) in enumerate(programs()):
            slot = self.result(source(text, checked=number % 5 == 4))
            found = (slot.state, slot.register(0).bits if slot.register(0) else 0)
            self.assertEqual(found, ("halted", wanted), f"{title}: {found[1]:x}")

    def test_the_second_reckoning_takes_operations_of_the_machine(self):
        """Those with a number that is part of them."""
        for checked in (False, True):
            made = source(TRAPS, checked=checked)
            self.assertIn("trap 3\n", made)
            slot = self.result(made)
            self.assertEqual((slot.state, slot.fault), ("faulted", TRAP))

    def test_the_second_reckoning_stops_what_differs(self):
        """With another comparison in the translator alone."""
        text = SUM.replace("{op}", "ult")
        with mock.patch.dict(CONDITIONS, {"ult": ("ltu", True, False)}):
            slot = self.result(source(text, checked=True))
        self.assertEqual((slot.state, slot.fault), ("faulted", TRAP))


ALIGNED = """@plain = internal global [20 x i8] zeroinitializer, align 16, !dbg !0
@asked = internal global [20 x i8] zeroinitializer, align 16, !dbg !2
@other = external global [20 x i8], align 16
define void @f() !dbg !9 {
  %a = alloca [20 x i8], align 16
  %b = alloca [20 x i8], align 16
  %c = alloca [2 x i128], align 16
  %d = alloca %struct.s, align 16
  %e = alloca [2 x %struct.t], align 16
  %g = alloca [20 x ptr], align 16
    #dbg_declare(ptr %e, !10, !DIExpression(), !8)
    #dbg_declare(ptr %g, !14, !DIExpression(), !8)
    #dbg_declare(ptr %a, !5, !DIExpression(), !8)
    #dbg_declare(ptr %b, !6, !DIExpression(), !8)
  store i32 1, ptr %a, align 16, !dbg !8
  ret void
}
!0 = !DIGlobalVariableExpression(var: !1, expr: !DIExpression())
!1 = distinct !DIGlobalVariable(name: "plain", type: !4)
!2 = !DIGlobalVariableExpression(var: !3, expr: !DIExpression())
!3 = distinct !DIGlobalVariable(name: "asked", type: !4, align: 128)
!4 = !DICompositeType(tag: DW_TAG_array_type, baseType: !7, size: 160)
!5 = !DILocalVariable(name: "a", type: !4)
!6 = !DILocalVariable(name: "b", type: !4, align: 128)
!7 = !DIBasicType(name: "char", size: 8)
!10 = !DILocalVariable(name: "e", type: !11)
!11 = !DICompositeType(tag: DW_TAG_array_type, baseType: !12, size: 256)
!12 = !DIDerivedType(tag: DW_TAG_typedef, name: "t", baseType: !13)
!13 = !DICompositeType(tag: DW_TAG_structure_type, name: "t", size: 128, align: 128)
!14 = !DILocalVariable(name: "g", type: !15)
!15 = !DICompositeType(tag: DW_TAG_array_type, baseType: !16, size: 1280)
!16 = !DIDerivedType(tag: DW_TAG_pointer_type, baseType: !13, size: 64)
"""


class Alignments(unittest.TestCase):
    def test_arrays_are_promised_what_they_have(self):
        found = {line.split(" = ")[0].strip(): line.rpartition("align ")[2].split(",")[0]
                 for line in lowered(ALIGNED, True).splitlines() if " = " in line and "align " in line and line[0] != "!"}
        self.assertEqual(found, {"@plain": "8", "@asked": "16", "@other": "8", "%a": "8", "%b": "16", "%c": "16",
                                 "%d": "16", "%e": "16", "%g": "8"})
        self.assertIn("store i32 1, ptr %a, align 8", lowered(ALIGNED, True))

    def test_without_what_is_said_for_debuggers(self):
        text = lowered(ALIGNED, False)
        self.assertNotIn("dbg_declare", text)
        self.assertNotIn("!dbg", text)
        self.assertIn("%b = alloca [20 x i8], align 16", text)


if __name__ == "__main__":
    unittest.main()
