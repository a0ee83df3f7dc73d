"""What `mmachine` writes, as pages of this checkout show it, read again."""

import re
import unittest

from mm.formats.schedule import read_schedule
from mm.machine.words import Permission, Pointer, Word
from mm.names.expressions import NoAddress, address_of, span_of
from mm.names.symbols import Region, Symbols
from mm.outputs.audit import read_audit
from mm.outputs.refusal import RefusalKind, read_refusal
from mm.outputs.report import Report, SlotState, read_report
from mm.outputs.trace import numbered, read_turn, split_trace
from mm.source.text import read_source
from mm.tests.support import folder, mm, needs_program, read, write
from mm.views.data import word_form
from mm.views.spell import Speller, bytes_as_text, integer
from mm.views.waiting import waiting

TRACE = """\
t 0 1 did fetch 00000000100080 store 00000000100100
t 1 1 blocked fetch 00000000100000 loadset 00000000100100
t 1 4 did fetch 00000000100018 enter p51800000001000c8
t 1 5 faulted 3
m 1 7
cycles 6
group 0 output 33
o 4142434445464748494a4b4c4d4e4f505152535455565758595a303132333435
o 36
slot 0 turns 1 halted ip p3180000000100088 past
r 3 empty
pending 3 i0000000000000041
slot 1 turns 5 faulted 3 ip p31800000001000c8
page 00000000200 new
cell 00000000100100 p20c0000000100100 empty
counts hits 1 misses 2 writebacks 3 tlb_hits 4 tlb_misses 5 reads 6 writes 7
"""


def symbols_of(*texts):
    """Symbols of sources that are placed one after another at 0x1000 each."""
    regions = []
    for at, text in enumerate(texts):
        source = read_source(f"{at}.asm", text.encode())
        for index, segment in enumerate(source.segments):
            regions.append(Region(segment.name, 0x1000 * (len(regions) + 1), segment.log, segment.words, source, index))
    return Symbols(regions)


class Texts(unittest.TestCase):
    def test_trace_and_report(self):
        lines, report = split_trace(TRACE)
        turns = [read_turn(line) for line in lines]
        self.assertEqual(
            [(turn.slot, turn.outcome, turn.fault, turn.access, turn.item) for turn in turns],
            [
                (0, "did", None, "store", 0),
                (1, "blocked", None, "loadset", 1),
                (1, "did", None, None, 1),
                (1, "faulted", 3, None, 1),
                (1, "delivered", None, None, 129),
            ],
        )
        self.assertEqual(turns[2].entered.pointer, Pointer(Permission.EU, 6, 0x1000C8))
        self.assertEqual(
            (report.cycles, report.outputs[0][-1:], report.pages, report.counts["tlb_misses"]),
            (6, b"6", [(0x200, True)], 5),
        )
        zero, one = report.slots
        self.assertEqual(
            (zero.past, zero.registers, zero.pending, zero.register(3), zero.register(4)),
            (True, {3: None}, [(3, Word(0x41))], None, Word(0)),
        )
        self.assertEqual((one.state, one.fault, one.group), ("faulted", 3, 0))
        self.assertFalse(report.cells[0x100100].full)

    def test_reports_of_pages(self):
        found = 0
        for text in re.findall(r"^(cycles \d+\n(?:(?!cycles |```).*\n)*?counts .*)$", read("docs", "FORMATS.md"), re.M):
            report = read_report(line for line in text.splitlines() if line != "...")
            self.assertTrue(report.slots and report.counts, text)
            found += 1
        self.assertEqual(found, 2)

    def test_cycles_of_turns(self):
        turns = [read_turn(line) for line in ("t 0 1 did", "t 1 1 did", "m 0 3", "t 1 2 did")]
        schedule = read_schedule(b"7 0 0 1*2 128 9 1")
        self.assertEqual([cycle for cycle, _ in numbered(turns, schedule)], [2, 4, 6, 8])
        self.assertEqual([cycle for cycle, _ in numbered(turns, None)], [1, 2, 3, 4])

    def test_audit(self):
        audit = read_audit(
            "group 0 user\ntouch 00000000100000 12\nwrite 00000000100018 3\napart 0 writer 1 word 00000000100018\ngroup 1 privileged\napart 1 handler 2\napart 0,1 yes\n"
        )
        self.assertEqual(
            [(reach.group, reach.privileged, reach.touch, reach.write) for reach in audit.reaches],
            [(0, False, [(0x100000, 12)], [(0x100018, 3)]), (1, True, [], [])],
        )
        self.assertEqual(
            [(apart.groups, apart.apart, apart.writer, apart.word, apart.handler) for apart in audit.aparts],
            [("0", False, 1, 0x100018, None), ("1", False, None, None, 2), ("0,1", True, None, None, None)],
        )

    def test_refusals(self):
        """Each line of the table of docs/FORMATS.md is one of these."""
        lines = re.findall(r"^\| `(mmachine: [^`]+)` \|", read("docs", "FORMATS.md"), re.M)
        numbers = {"F": "2", "N": "3", "O": "40", "LINE": "5", "COLUMN": "6", "S": "1", "G": "0", "L": "7", "X": "box"}
        kinds = {read_refusal(re.sub(r"\b[A-Z]+\b", lambda match: numbers[match[0]], line)).kind for line in lines}
        self.assertEqual(kinds, set(RefusalKind))
        self.assertIsNone(read_refusal("mmachine: something else"))


class Names(unittest.TestCase):
    def test_labels_and_segments(self):
        symbols = symbols_of(".segment gate 6\nfirst: .ptr rw box\ndoor: halt\n halt\n.segment box 3\n .int 0\n")
        self.assertEqual(
            [symbols.show(address) for address in (0x1000, 0x1008, 0x1010, 0x103F, 0x1040, 0x2000)],
            ["gate", "door", "door+8", "door+55", "0x1040", "box"],
        )
        self.assertEqual((symbols.origin(0x1010).line, symbols.origin(0x1018)), (4, None))
        self.assertEqual(
            [span_of(text, symbols) for text in ("gate", "door", "first", "box+0", "&box", "0x1010", "0.asm:4")],
            [(0x1000, 64), (0x1008, 16), (0x1000, 8), (0x2000, 8), (0x2000, 8), (0x1010, 8), (0x1010, 8)],
        )
        for text in ("boxx", "box+many", "1.asm:4", "0.asm:99", "box box", "-1"):
            self.assertRaises(NoAddress, address_of, text, symbols)

    def test_labels_of_one_name(self):
        symbols = symbols_of(".segment one 6\n halt\nagain: halt\n", ".segment two 6\n halt\nagain: halt\n")
        self.assertEqual([symbols.show(0x1010), symbols.show(0x2008)], ["one.again+8", "two.again"])
        self.assertEqual(address_of("two.again", symbols), 0x2008)
        self.assertRaises(NoAddress, address_of, "again", symbols)

    def test_a_label_and_a_segment_of_one_name(self):
        symbols = symbols_of(".segment one 6\n halt\nbox: halt\n", ".segment box 6\n halt\n")
        self.assertEqual([symbols.show(0x1008), symbols.show(0x2000)], ["one.box", "box"])
        self.assertEqual(address_of("one.box", symbols), 0x1008)

    def test_words(self):
        speller = Speller(symbols_of(".segment box 3\n .int 0\n"))
        self.assertEqual(speller.word(Word(Pointer(Permission.RW, 3, 0x1000).bits, True)), "rw 2^3 box")
        self.assertEqual(speller.reach(Pointer(Permission.RW, 3, 0x1000)), "all 8 bytes of box")
        self.assertEqual(speller.reach(Pointer(Permission.RW, 4, 0x1000)), "16 bytes from box on")
        self.assertEqual(
            [integer(Word(bits)) for bits in (65, 0, (1 << 64) - 1, 1 << 20)], ["65 'A'", "0", "-1", "1048576 0x100000"]
        )
        self.assertEqual(bytes_as_text(b'a"\n\x00'), '"a\\"\\n\\x00"')

    def test_words_of_json(self):
        """An integer is there as a number if each reader of JSON has it exactly."""
        numbers = {5: 5, (1 << 64) - 3: -3, (1 << 53) - 1: (1 << 53) - 1, 1 << 53: None, (1 << 64) - (1 << 53): None}
        for bits, number in numbers.items():
            form = word_form(Word(bits), Symbols()) or {}
            self.assertEqual((form["tagged"], form["bits"], form.get("integer")), (False, f"0x{bits:016x}", number))
        self.assertIsNone(word_form(None, Symbols()))


class Waits(unittest.TestCase):
    def waits(self, lines, running, split=False):
        report = Report(
            slots=[
                SlotState(slot, slot, 1, "running" if slot in running else "halted", None, Word(0), False)
                for slot in range(3)
            ]
        )
        turns = [turn for turn in map(read_turn, reversed(lines)) if turn]
        return {slot: (wait.turns, wait.stuck) for slot, wait in waiting(turns, report, split).items()}

    def test_one_waits_while_another_goes_on(self):
        self.assertEqual(
            self.waits(["t 0 1 did", "t 1 1 blocked", "t 0 2 did", "t 1 2 blocked", "t 0 3 did"], {0, 1}),
            {1: (2, False)},
        )

    def test_nobody_goes_on(self):
        self.assertEqual(
            self.waits(["t 0 1 did", "t 1 1 blocked", "t 0 2 blocked", "t 1 2 blocked"], {0, 1}),
            {0: (1, True), 1: (2, True)},
        )

    def test_blocked_once_is_no_waiting(self):
        self.assertEqual(self.waits(["t 1 1 blocked", "t 0 2 did"], {0, 1}), {})
        self.assertEqual(self.waits(["t 0 1 blocked", "t 0 2 blocked"], set()), {})

    def test_split_machines_need_more(self):
        """A blocked turn may deliver one of 16 loads of its own, and `rreg` then one of 16 of the slot that it reads."""
        lines = [f"t 0 {turn} blocked" for turn in range(40)]
        self.assertEqual(self.waits(lines[:33], {0}, True), {0: (33, False)})
        self.assertEqual(self.waits(lines, {0}, True), {0: (40, True)})


@needs_program
class Cut(unittest.TestCase):
    def test_a_long_output_is_cut(self):
        """Its text as well as its bytes; `--plain` writes all of it."""
        for number, shown in ((0, 250), (65, 1000)):
            source = f".segment a 5\n  ldi r1, {number}\nx: out r1\n  br x\n.thread 0 0 none xu a\n"
            with folder() as room:
                path = write(room, "p.asm", source)
                line = next(line for line in mm("run", path).out.splitlines() if line.startswith("group 0"))
                self.assertEqual(len(mm("run", path, "--plain").data), 4096)
            letter = "\\x00" if number == 0 else "A"
            begin = f'group 0  output "{letter * shown}" .. {4096 - shown} more bytes  (4096 bytes: '
            self.assertTrue(line.startswith(begin), line[:80])
            self.assertTrue(line.endswith(" .. 4032 more)"), line[-80:])


if __name__ == "__main__":
    unittest.main()
