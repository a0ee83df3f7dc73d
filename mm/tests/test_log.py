"""Logs: their lines, and the machine that is rebuilt from them, compared with reports."""

import unittest

from mm.formats.image import Image, Page, Slot
from mm.log.changes import KINDS, read_change
from mm.log.read import LogReader, NoLog, read_log
from mm.log.replay import Machine
from mm.machine.program import find_program
from mm.machine.words import Cell, Permission, Pointer, Word
from mm.outputs.report import read_report
from mm.tests.support import folder, needs_program, path_of, read_bytes, write
from mm.formats.image import read_image

CHANGES = """\
ip 0 p3300000000100008
ip 13 p3300000000100008 past
state 0 halted
state 1 faulted 11
r 0 15 i0000000000000041
r 2 0 empty
load 2 0 p2300000000101000
event 2 0 11 p3300000000100000 i0000000000000000 i0000000000000005
taken 2
out 3 0a
page 00000000101 gone
page 00000000102 new
cell 00000000100100 i0000000000000002 empty
cell 00000000102000 p2300000000101000 full
"""

# Slot 1 handles slot 0 of a split machine, and maps pages: no program does this, and no program is needed to carry it
# out.
LOG = """\
t 0 1 did fetch 00000000100000 load 00000000100008
r 0 2 empty
load 0 2 i0000000000000041
t 0 2 did fetch 00000000100008 load 00000000100008
r 0 3 empty
load 0 3 i0000000000000042
m 0 2
r 0 2 i0000000000000041
t 0 3 faulted 11 fetch 00000000100010
state 0 waiting
event 1 0 11 p3300000000100010 i0000000000000000 i0000000000000005
t 1 1 did fetch 00000000100018
state 0 taken
r 1 0 i000000000000000b
taken 1
out 1 41
t 1 2 did fetch 00000000100020
ip 1 p4300000000100028 past
page 00000000100 gone
t 1 3 did fetch 00000000100028
page 00000000100 new
t 1 4 did fetch 00000000100028 store 00000000100008
cell 00000000100008 i0000000000000007 empty
t 1 5 faulted 3
state 1 faulted 3
cycles 8
group 0 output 0
slot 0 turns 3 taken ip p3300000000100000
r 2 i0000000000000041
r 3 empty
pending 3 i0000000000000042
group 1 output 1
o 41
slot 1 turns 5 faulted 3 ip p4300000000100028 past
r 0 i000000000000000b
cell 00000000100000 i0000000000000000 full
cell 00000000100008 i0000000000000007 empty
"""


def small_image():
    """Two slots and a page whose first word is 1."""
    page = Page(0x100, bytes(64), b"\xff" * 64, (1).to_bytes(8, "big") + bytes(4088))
    zeros = tuple([Word(0)] * 16)
    slots = (
        Slot(0, 0, 1, False, Pointer(Permission.XU, 12, 0x100000), zeros),
        Slot(1, 1, None, False, Pointer(Permission.XP, 12, 0x100018), zeros),
    )
    return Image(2, 2, True, slots, {0x100: page})


class Lines(unittest.TestCase):
    def test_each_line_is_written_again(self):
        changes = [read_change(line) for line in CHANGES.splitlines()]
        self.assertEqual([change.line for change in changes], CHANGES.splitlines())
        self.assertEqual({type(change) for change in changes}, set(KINDS))
        for line in ("", "t 0 1 did", "other 1 2"):
            self.assertIsNone(read_change(line))

    def test_steps(self):
        steps, report = read_log(LOG.splitlines())
        self.assertEqual([step.item for step in steps], [0, 0, 128, 0, 1, 1, 1, 1, 1])
        self.assertEqual([len(step.changes) for step in steps], [2, 2, 1, 2, 4, 2, 1, 1, 1])
        self.assertEqual(report, read_report(LOG[LOG.index("cycles") :].splitlines()))

    def test_no_log(self):
        for text in ("r 0 1 i0000000000000041", "t 0 1 did\nwhat 1", "t 0 1 did"):
            self.assertRaises(NoLog, read_log, text.splitlines())

    def test_a_log_is_read_as_it_comes(self):
        steps = LogReader(iter(LOG.splitlines()[:4])).steps()
        self.assertEqual(next(steps).turn.number, 1)


class Replayed(unittest.TestCase):
    def test_made_up(self):
        steps, report = read_log(LOG.splitlines())
        machine = Machine(small_image())
        self.assertEqual(machine.cell(0x100000), Cell(Word(1)))
        for step in steps[:4]:
            machine.carry_out(step)
        self.assertEqual([event.slot for event in machine.slots[1].queue], [0])
        self.assertEqual(machine.slots[0].pending, [(3, Word(0x42))])
        for step in steps[4:6]:
            machine.carry_out(step)
        self.assertEqual((machine.cell(0x100000), machine.report(6).pages), (None, [(0x100, False)]))
        for step in steps[6:]:
            machine.carry_out(step)
        self.assertEqual((list(machine.slots[1].queue), machine.cell(0x100000)), ([], Cell()))
        self.assertEqual(machine.report(8), report)

    @needs_program
    def test_every_cycle_of_the_examples(self):
        program = find_program()
        for name, schedule in (
            ("counter", None),
            ("letterbox", "letterbox.schedule"),
            ("kernel", "kernel.schedule"),
            ("server", None),
            ("split", "split.schedule"),
            ("faults", None),
            ("sweeper", None),
        ):
            words = [path_of("examples", f"{name}.img"), "120"]
            words += [path_of("examples", schedule)] if schedule else []
            steps, last = read_log(program.run(["log", *words]).text.splitlines())
            with self.subTest(name), folder() as room:
                order = write(room, "order", " ".join(str(step.item) for step in steps))
                machine = Machine(read_image(read_bytes("examples", f"{name}.img")))
                for cycle, step in enumerate(steps, 1):
                    machine.carry_out(step)
                    if cycle % 7 == 0 or cycle == len(steps):
                        report = read_report(program.run(["run", words[0], str(cycle), order]).text.splitlines())
                        report.counts = {}
                        self.assertEqual(machine.report(cycle), report, f"{name}, cycle {cycle}")
                self.assertEqual(machine.report(last.cycles).slots, last.slots)


if __name__ == "__main__":
    unittest.main()
