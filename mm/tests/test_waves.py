"""Waves: a dump is read back and compared with the machine at each cycle."""

import re
import unittest

from mm.build import Workshop
from mm.log.read import read_log
from mm.log.replay import Machine
from mm.machine.program import find_program
from mm.machine.words import Word
from mm.outputs.report import read_report
from mm.tests.pages import prepared
from mm.tests.support import folder, mm, needs_program, path_of
from mm.tests.test_log import LOG, small_image
from mm.waves.vcd import STATES, Dump, dump, short_name

VAR = re.compile(r"\$var wire (\d+) (\S+) (\w+)(?: \[(\d+):0\])? \$end")


class Reader:
    """A value change dump, read as its standard says."""

    def __init__(self, lines):
        self.names, self.widths, scopes = {}, {}, []
        lines = iter(lines)
        for line in lines:
            words = line.split()
            if words[0] == "$scope":
                scopes.append(words[2])
            elif words[0] == "$upscope":
                scopes.pop()
            elif words[0] == "$var":
                width, short, name, high = VAR.fullmatch(line).groups()
                assert short not in self.names and (high is None) == (width == "1") and int(high or 0) + 1 == int(width)
                self.names[short], self.widths[short] = ".".join([*scopes, name]), int(width)
            elif words[0] == "$enddefinitions":
                break
        self.moments = self.read(lines)

    def read(self, lines):
        """The times, each with the values then."""
        values, time = {}, None
        for line in lines:
            if line.startswith("#"):
                if time is not None:
                    yield time, dict(values)
                assert time is None or int(line[1:]) > time
                time = int(line[1:])
            elif not line.startswith("$"):
                digits, short = line[1:].split(" ") if line[0] == "b" else (line[0], line[1:])
                assert len(digits) <= self.widths[short]
                values[self.names[short]] = None if digits == "x" else int(digits, 2)
        yield time, dict(values)


def values_of(machine, step):
    """What a dump says of a machine at one moment."""
    made = Dump(machine)
    return {f"machine.{scope}.{name}": value for scope in made.scopes() for name, _, value in made.of(scope, step)}


# The words of `mm vcd` whose dumps are compared with reports: gates and outputs, a handler with its queue, loads that arrive later, faults.
REPORTED = (
    ["examples/counter.asm", "--schedule", "examples/counter.schedule"],
    ["examples/letterbox.asm", "--schedule", "examples/letterbox.schedule"],
    ["examples/kernel.asm", "--schedule", "examples/kernel.schedule"],
    ["examples/server.asm"],
    ["examples/faults.asm"],
    ["split", "--schedule", "examples/split.schedule"],
)


def values_reported(report):
    """What a dump has to say of a report: of each slot and each group, the values by their names."""
    found = {}
    for slot in report.slots:
        scope, ip = f"machine.slot{slot.number}.", slot.ip.pointer
        found |= {scope + "ip": ip.address, scope + "privileged": int(ip.permission.short == "xp")}
        found |= {scope + "past": int(slot.past), scope + "fault": slot.fault or 0, scope + "pending": len(slot.pending)}
        found[scope + "state"] = STATES.index(slot.state)
        for number in range(16):
            word = slot.registers.get(number, Word(0))
            found[f"{scope}r{number}"] = None if word is None else word.bits
            found[f"{scope}r{number}_tag"] = None if word is None else int(word.tagged)
    for group, data in report.outputs.items():
        found |= {f"machine.group{group}.bytes": len(data), f"machine.group{group}.last": data[-1] if data else None}
    return found


class Waves(unittest.TestCase):
    def test_short_names(self):
        names = [short_name(number) for number in range(20_000)]
        self.assertEqual(len(set(names)), 20_000)
        self.assertEqual((names[0], names[93], names[94]), ("!", "~", "!!"))

    def test_read_back(self):
        steps = list(enumerate(read_log(LOG.splitlines())[0], 5))
        lines = list(dump(Machine(small_image()), iter(steps), 5, "a test"))
        machine, moments = Machine(small_image()), list(Reader(lines).moments)
        self.assertEqual([time for time, _ in moments], [4, *(cycle for cycle, _ in steps), 14])
        self.assertEqual(moments[0][1], values_of(machine, None))
        for (cycle, step), (time, values) in zip(steps, moments[1:]):
            machine.carry_out(step)
            self.assertEqual((time, values), (cycle, values_of(machine, step)))
        self.assertEqual(
            [values["machine.slot0.r3"] for _, values in moments[:4]], [0, 0, None, None]
        )
        self.assertEqual([values["machine.slot1.queue"] for _, values in moments[3:7]], [0, 1, 0, 0])

    def test_from_a_cycle_on(self):
        steps = list(enumerate(read_log(LOG.splitlines())[0], 1))
        whole = list(Reader(list(dump(Machine(small_image()), iter(steps), 1, "a test"))).moments)
        late = list(Reader(list(dump(Machine(small_image()), iter(steps), 5, "a test"))).moments)
        self.assertEqual([time for time, _ in late], [4, 5, 6, 7, 8, 9, 10])
        self.assertEqual(late[1][1], whole[5][1])
        after = list(Reader(list(dump(Machine(small_image()), iter(steps), 50, "a test"))).moments)
        self.assertEqual([time for time, _ in after], [49, 50])

    @needs_program
    def test_reports(self):
        """What a dump says at the end of a cycle is what `run` reports of as many cycles."""
        for words in REPORTED:
            with self.subTest(words=words), folder() as room:
                self.compare(prepared(["split:examples/split.asm" if word == "split" else word for word in words], room))

    def compare(self, words):
        moments = dict(Reader(mm("vcd", *words).out.splitlines()).moments)
        workshop = Workshop(find_program())
        self.addCleanup(workshop.close)
        image = workshop.build([path_of(words[0])]).path
        order = [path_of(words[-1])] if "--schedule" in words else []
        for cycle in range(max(moments) + 1):
            values = moments[max(time for time in moments if time <= cycle)]
            report = read_report(workshop.program.run(["run", image, str(cycle), *order]).text.splitlines())
            wanted = values_reported(report)
            self.assertEqual({name: values.get(name) for name in wanted}, wanted, f"{words[0]}, cycle {cycle}")

    @needs_program
    def test_command(self):
        ended = mm("vcd", "examples/counter.asm", "--from", "10")
        moments = list(Reader(ended.out.splitlines()).moments)
        self.assertEqual((ended.status, moments[0][0], moments[-1][0]), (0, 9, 37))
        last = moments[-1][1]
        self.assertEqual((last["machine.group1.bytes"], last["machine.group1.last"], last["machine.slot1.r2"]),
            (2, 66, 66))
        self.assertEqual((last["machine.slot1.r5"], last["machine.slot1.r5_tag"]), (0x51800000001000C8, 1))


if __name__ == "__main__":
    unittest.main()
