"""Two programs side by side: cases, comparison, shorter schedules, counts, and a program that is spoiled."""

import contextlib
import hashlib
import io
import json
import os
import shutil
import stat
import unittest
from xml.etree import ElementTree

from mm.formats.image import image_bytes, read_image
from mm.formats.schedule import read_schedule
from mm.lockstep.case import case_of, items_of, schedule_text
from mm.lockstep.code import Coder
from mm.lockstep.compare import Difference, first_difference, item_of, turns_of
from mm.lockstep.dice import Dice
from mm.lockstep.main import main
from mm.lockstep.lines import for_people, log_lines
from mm.lockstep.results import Result, Results
from mm.lockstep.shorten import Shortener
from mm.lockstep.shrink import Shrinker, image_of, kind_of
from mm.lockstep.tally import Tally
from mm.lockstep.world import World
from mm.log.read import read_log
from mm.log.replay import Machine
from mm.machine.isa import OPERATIONS, decode
from mm.machine.program import find_program
from mm.machine.words import ZERO, Cell
from mm.tests.support import folder, needs_program, path_of, read, read_bytes, write
from mm.tests.test_log import LOG, small_image

# What the cases 0 to 49 of seed 1 are. It changes with the generator: then numbers that were written down mean others.
CASES = "d0fac9b542b052c7"


class Cases(unittest.TestCase):
    def test_numbers_mean_the_same_cases(self):
        cases = [case_of(1, number) for number in range(50)]
        data = b"".join(case.image + schedule_text(case.items).encode() for case in cases)
        self.assertEqual(hashlib.sha256(data).hexdigest()[:16], CASES)

    def test_images_are_spelled(self):
        for number in range(100):
            case = case_of(2, number)
            image = read_image(case.image)
            self.assertEqual(image_bytes(image), case.image)
            words = [word for slot in image.slots for word in slot.registers]
            for word in [*words, *(cell.word for _, cell in image.cells())]:
                self.assertTrue(word.pointer or not word.tagged)
            self.assertEqual(items_of(read_schedule(schedule_text(case.items).encode())), case.items)

    def test_all_operations_and_fields_come(self):
        coder = Coder(World(Dice("test")))
        coder.world.place("code", 6)
        made = [decode(coder.instruction().bits) for _ in range(8000)]
        self.assertEqual({instruction.name for instruction in made}, set(OPERATIONS))
        self.assertEqual({(i.choice("pre"), i.choice("post")) for i in made if i.name == "ld"},
            {(pre, post) for pre in ("any", "full", "empty") for post in ("keep", "full", "empty")})

    def test_dice(self):
        dice = Dice("a")
        found = [dice.below(5) for _ in range(2000)]
        self.assertEqual(set(found), set(range(5)))
        self.assertEqual((dice.below(1), dice.some([3, 4], 2)), (0, [3, 4]))
        self.assertEqual({dice.weighed([("a", 1), ("b", 0), ("c", 2)]) for _ in range(200)}, {"a", "c"})


SHORT = LOG[: LOG.index("cycles")]


class Compared(unittest.TestCase):
    def differs(self, other, model=LOG):
        return first_difference(model.splitlines(), other.splitlines())

    def test_the_same(self):
        counted = []
        self.assertIsNone(first_difference(LOG.splitlines(), LOG.splitlines(), counted))
        self.assertEqual(counted, [9])
        counts = LOG + "counts hits 1 misses 2\n"
        for model, other in ((LOG, SHORT), (counts, LOG), (counts, SHORT), (counts, counts)):
            self.assertIsNone(self.differs(other, model))

    def test_places(self):
        for old, new, same in (
            ("r 0 3 empty\n", "", 1),
            ("t 1 3 did", "t 1 3 blocked", 6),
            ("ip 1 p4300000000100028 past", "ip 1 p4300000000100028", 5),
            ("out 1 41\n", "out 1 41\nout 1 41\n", 4),
            ("state 0 taken\nr 1 0 i000000000000000b\n", "r 1 0 i000000000000000b\nstate 0 taken\n", 4),
            ("cycles 8\n", "t 1 6 did\ncycles 8\n", 9),
            ("slot 1 turns 5", "slot 1 turns 6", 9),
        ):
            found = self.differs(LOG.replace(old, new, 1))
            self.assertEqual(found.same if found else None, same, old)
        self.assertEqual(self.differs(SHORT[: SHORT.index("t 1 5")]).same, 8)
        self.assertEqual((self.differs("").same, self.differs("").other), (0, None))
        self.assertEqual(self.differs("what is this\n" + LOG).same, 0)
        self.assertEqual(self.differs(LOG + "counts hits 1 misses 2\n", LOG + "counts hits 3 misses 2\n").same, 9)

    def test_items(self):
        self.assertEqual([item_of(turn) for turn in turns_of(LOG.splitlines())], [0, 0, 128, 0, 1, 1, 1, 1, 1, None])

    def test_it_stops_at_the_difference(self):
        def lines():
            yield from ("t 0 1 did", "t 0 2 did", "t 0 3 did")
            raise AssertionError("read on")

        self.assertEqual(first_difference(lines(), iter(["t 0 1 did", "t 0 9 did", "t 0 3 did"])).same, 1)


class Shortened(unittest.TestCase):
    def test_nothing_more_can_go(self):
        for wanted, length in (([3, 1, 2], 300), ([], 10), ([4] * 5, 777), ([0], 1), ([1, 0, 1, 0], 64)):
            dice = Dice(f"{wanted}")
            items = tuple(dice.below(5) for _ in range(length)) + tuple(wanted)

            def attempt(tried):
                rest = iter(tried)
                return Difference(0, [], None, None) if all(item in rest for item in wanted) else None

            shortener = Shortener(attempt, items, attempt(items))
            self.assertTrue(shortener.run())
            self.assertEqual(list(shortener.items), wanted)

    def test_tries_end(self):
        found = Difference(0, [], None, None)
        shortener = Shortener(lambda items: found if len(set(items)) == 3000 else None, tuple(range(3000)), found)
        self.assertFalse(shortener.run())


class Told(unittest.TestCase):
    def test_lines_of_a_simulator(self):
        lines = ["# 17 ns", "- bench.sv:9: Verilog $finish", "%Warning: x", "VCD info: y", "t 0 1 did"]
        self.assertEqual(list(log_lines(lines)), ["VCD info: y", "t 0 1 did"])
        self.assertEqual(list(log_lines(lines, ["VCD"])), ["t 0 1 did"])

    def test_names_and_blanks(self):
        for line, shown in (
            ("t 0 3 faulted 3", "t 0 3 faulted 3    (Bounds)"),
            ("state 1 faulted 13", "state 1 faulted 13    (OutFull)"),
            ("event 2 1 9 p0 i0 i0", "event 2 1 9 p0 i0 i0    (DivZero)"),
            ("ip 0 p1 ", "ip 0 p1    (trailing blank)"),
            ("t 0 3 faulted 3 \t", "t 0 3 faulted 3    (Bounds, trailing blanks)"),
            ("r 0 3 i3", "r 0 3 i3"),
            ("", ""),
            ("VCD info: y", "VCD info: y    (no line of a log: --skip-lines TEXT skips lines that begin so)"),
        ):
            self.assertEqual(for_people(line), shown)

    def test_results(self):
        results = Results("suite", 3)
        for theme, case, told in (("a", "one", []), ("a", "two", ["two: line 1 <differs>"]), ("b", "three", [])):
            results.add(Result(theme, case, told))
        results.rows[1].more = {"turn": 3, "wanted": ["x"], "came": []}
        self.assertEqual(results.by_theme(), [("a", 2, 1), ("b", 1, 0)])
        rows = json.loads(results.json())["results"]
        self.assertEqual([(row.get("turn"), row.get("came")) for row in rows], [(None, None), (3, []), (None, None)])
        self.assertEqual(json.loads(results.json())["themes"], {"a": {"cases": 2, "differ": 1}, "b": {"cases": 1, "differ": 0}})
        suites = ElementTree.fromstring(results.junit()).findall("testsuite")
        self.assertEqual([suite.get("failures") for suite in suites], ["1", "0"])
        self.assertEqual(suites[0].find("testcase/failure").get("message"), "two: line 1 <differs>")


class Shrunk(unittest.TestCase):
    """A difference that wants one register and one cell, whatever else the image has."""

    def test_what_can_go_goes(self):
        image = read_image(read_bytes("examples", "counter.img"))
        wanted = next(number for number, word in enumerate(image.slots[0].registers) if word != ZERO)
        address = next(address for address, cell in image.cells() if cell != Cell())
        found = Difference(0, [], ["t 0 1 did", "r 0 1 i1"], ["t 0 1 did", "r 0 1 i2"])

        def attempt(data, items):
            tried = read_image(data)
            slot = tried.slot(image.slots[0].number)
            there = slot and slot.registers[wanted] == image.slots[0].registers[wanted]
            return found if there and tried.cell(address) == image.cell(address) and 0 in items else None

        shrinker = Shrinker(attempt, image_bytes(image), (1, 0, 1, 0, 1), found, 600)
        shrinker.cut_items()
        shrinker.blank()
        self.assertEqual((shrinker.items, shrinker.said()), ((0,), "1 slot, 1 page, 1 register, 1 cell; no one can go"))

    def test_another_difference_is_not_taken(self):
        other = Difference(0, [], ["t 0 1 did"], ["t 0 1 blocked"])
        found = Difference(0, [], ["t 0 1 did", "r 0 1 i1"], ["t 0 1 did"])
        shrinker = Shrinker(lambda *_: other, image_bytes(small_image()), (0, 1), found, 10)
        shrinker.cut_items()
        self.assertEqual((shrinker.items, kind_of(found) == kind_of(other), shrinker.tries < 10), ((0, 1), False, True))

    def test_the_state_before_a_turn(self):
        machine = Machine(small_image())
        for step in read_log(LOG.splitlines())[0][:5]:
            machine.carry_out(step)
        image = image_of(machine)
        self.assertEqual(read_image(image_bytes(image)), image)
        for slot in image.slots:
            now = machine.slots[slot.number]
            self.assertEqual((slot.ip.bits, slot.halted), (now.ip.bits, now.state != "running"))
            self.assertEqual(slot.registers, tuple(word or ZERO for word in now.registers))


class Counted(unittest.TestCase):
    def test_a_log(self):
        tally = Tally()
        tally.count(Machine(small_image()), read_log(LOG.splitlines())[0])
        self.assertEqual((tally.cases, tally.turns, sum(tally.cells.values())), (1, 9, 9))
        self.assertEqual((tally.cells["(port)", "did"], tally.ways["(port)", "running"]), (1, 1))
        self.assertEqual(tally.cells["(fetch)", "Bounds"], 1)
        self.assertEqual(len(list(tally.lines())[2:5]), 3)


# A program that writes what the model writes, but for one change.
SPOILED = """#!/bin/sh
{program} log "$@" {change}
"""
CHANGES = {
    "a register": r"| sed '0,/^\(r .* i.*\)[0-7]$/s//\1f/'",
    "a tag": r"| sed '0,/^\(r .* \)p/s//\1i/'",
    "a state": "| sed s/^state/State/",
    "a line less": "| sed '0,/^ip/{/^ip/d}'",
    "a line more": r"| sed '0,/^out/s/^out.*/&\n&/'",
    "an end too early": "| sed '/^t 1 20 /,$d'",
    "a turn more": r"| sed 's/^cycles/t 0 9999 did\n&/'",
    "the report": "| sed 's/^slot 0 turns /&1/'",
    "a bad end": "; exit 3",
    "nothing": "| sed d",
}
PLACES = ("{image}", "{cycles}", "{schedule}")


def lockstep(*words):
    """What a call of the command writes, and its status."""
    out, err = io.StringIO(), io.StringIO()
    with contextlib.redirect_stdout(out), contextlib.redirect_stderr(err):
        try:
            status = main(list(words))
        except SystemExit as end:
            status = end.code
    return status, out.getvalue(), err.getvalue()


@needs_program
class Command(unittest.TestCase):
    def spoiled(self, room, change):
        return self.script(room, SPOILED.format(program=find_program().path, change=change))

    def script(self, room, text):
        path = write(room, "other", text)
        os.chmod(path, stat.S_IRWXU)
        return path

    def test_the_model_and_itself(self):
        for more in ([], ["--follow"], ["--jobs", "2"]):
            status, out, _ = lockstep("--count", "6", *more, find_program().path, "log", *PLACES)
            self.assertEqual((status, out[:19], out[-15:]), (0, "lockstep: 6 cases, ", " no difference\n"), out)

    def test_each_change_is_found(self):
        for name, change in CHANGES.items():
            with self.subTest(name), folder() as room:
                words = ["--keep", room, "--image", path_of("examples", "counter.img"), self.spoiled(room, change)]
                status, out, _ = lockstep(*words, *PLACES)
                self.assertEqual(status, 1, out)
                for head in ("case counter: ", "  image ", "  schedule ", "  other ", "lockstep: "):
                    self.assertIn(f"\n{head}", "\n" + out)
                self.assertEqual(len([file for file in os.listdir(room) if file.startswith("lockstep-")]), 2)
                self.assertIn("no item can be left out", out)

    def test_a_report_of_a_difference(self):
        with folder() as room:
            other = self.spoiled(room, "| sed s/i0000000000000042/i0000000000000043/")
            said = os.path.join(room, "said.json")
            words = ["--keep", room, "--json", said, "--image", path_of("examples", "counter.img"), other, *PLACES]
            status, out, _ = lockstep(*words)
            self.assertEqual(status, 1)
            row = json.loads(read(said))["results"][0]
            self.assertEqual((row["turn"], row["image"]), (1, os.path.join(room, "lockstep-counter.img")))
            self.assertIn("r 1 2 i0000000000000042", row["wanted"])
            self.assertIn("r 1 2 i0000000000000043", row["came"])
            self.assertGreater(row["turn_of_run"], 1)
            for line in ("addi r2, r2, 64", "reads     r2  i0000000000000002  2", "> r 1 2 i0000000000000042"):
                self.assertIn(line, out)
            kept = os.path.join(room, "lockstep-counter.")
            again = lockstep("--keep", room, "--image", f"{kept}img", "--schedule", f"{kept}schedule", other, *PLACES)
            self.assertEqual((again[0], again[1].splitlines()[-4:-1]), (1, out.splitlines()[-4:-1]))

    def test_random_cases(self):
        with folder() as room:
            words = ["--first", "7", "--count", "4", "--keep", room, self.spoiled(room, "| sed s/^ip/IP/"), *PLACES]
            status, out, _ = lockstep(*words)
            self.assertEqual((status, out.splitlines()[0][:9]), (1, "case 1-7:"))
            status, out, _ = lockstep("--all", "--jobs", "2", *words)
            self.assertEqual((status, out.split(", ")[-1]), (1, "different: 1-7 1-8 1-9 1-10\n"))

    def test_logs_that_were_written_before(self):
        with folder() as room:
            lockstep("--write", room, "--first", "2", "--count", "1")
            image, schedule = (os.path.join(room, f"1-2.{kind}") for kind in ("img", "schedule"))
            log = write(room, "1-2.log", find_program().run(["log", image, "1000000", schedule]).text)
            words = ["--whole", "--keep", room, "--image", image, "--schedule", schedule]
            words += ["cat", log]
            self.assertEqual(lockstep(*words)[0], 0)
            text = read(room, "1-2.log").replace("ip", "IP", 3)
            write(room, "1-2.log", text)
            status, out, _ = lockstep(*words)
            self.assertEqual((status, "no item can be left out" in out), (1, False))

    def test_a_program_that_hangs(self):
        with folder() as room:
            path = self.script(room, "#!/bin/sh\nsleep 30\necho t 0 1 did\n")
            words = ["--keep", room, "--seconds", "1", "--count", "1", "--follow", path, "{image}"]
            status, out, _ = lockstep(*words)
            self.assertEqual(status, 1)
            self.assertIn("it was stopped after 1 seconds", out)

    def test_words_that_are_wrong(self):
        for words in ([], ["true"], ["--tally", "true", "{image}"], ["--jobs", "0", "true", "{image}"],
            ["--schedule", "x", "true", "{image}"], ["--cycles", "-1", "true", "{image}"]):
            self.assertEqual(lockstep(*words)[0], 2, words)
        status, _, err = lockstep("/no/such/program", "{image}")
        self.assertEqual((status, err), (2, "lockstep: /no/such/program cannot be run: No such file or directory\n"))

    def test_tally(self):
        status, out, _ = lockstep("--tally", "--count", "5")
        self.assertEqual((status, out.splitlines()[0].split(",")[0]), (0, "5 cases"))
        self.assertEqual(len([line for line in out.splitlines() if line.startswith("|")]), 2 + len(OPERATIONS) + 2)

    def test_some_operations_alone(self):
        few = "ldi,add,lea,ld,st,bnz"
        status, out, _ = lockstep("--tally", "--count", "12", "--operations", few, "--plain")
        came = {line.split(" ")[1] for line in out.splitlines() if line.startswith("| ") and line.strip("| -") and
            any(character.isdigit() for character in line.partition(" | ")[2])}
        self.assertEqual(status, 0)
        self.assertTrue({"ldi", "ld"} <= came <= {"(fetch)", *few.split(",")}, came)
        with folder() as room:
            words = ["--count", "3", "--operations", few]
            self.assertEqual(lockstep("--write", room, *words)[0], 0)
            for name in ("1-0", "1-1", "1-2"):
                files = [os.path.join(room, f"{name}.{kind}") for kind in ("img", "schedule")]
                write(room, f"{name}.log", find_program().run(["log", files[0], "1000000", files[1]]).text)
            self.assertEqual(lockstep("--logs", room, *words)[0], 0)
        for wrong in (["--operations", "ldi,foo"], ["--operations", "ldi", "--image", "x"], ["--plain", "--image", "x"]):
            self.assertEqual(lockstep(*wrong, "true", "{image}")[0], 2, wrong)

    def test_write(self):
        with folder() as room:
            self.assertEqual(lockstep("--write", room, "--first", "3", "--count", "2")[0], 0)
            self.assertEqual(sorted(os.listdir(room)), ["1-3.img", "1-3.schedule", "1-4.img", "1-4.schedule", "cases"])
            self.assertEqual(case_of(1, 4).image, read_bytes(room, "1-4.img"))


class Folder(unittest.TestCase):
    """Cases written as files, with their texts for Verilog, and logs that came of them."""

    @needs_program
    def test_logs_of_a_folder(self):
        with folder() as room:
            self.assertEqual(lockstep("--write", room, "--hex", "--count", "3")[0], 0)
            names = sorted(os.listdir(room))
            self.assertEqual(len(names), 3 * 5 + 1)
            for line in read(room, "cases").splitlines():
                name, cycles, order = line.split()
                words = ["log", os.path.join(room, f"{name}.img"), cycles, os.path.join(room, order)]
                write(room, f"{name}.log", "# a comment\n" + find_program().run(words).text)
            status, out, _ = lockstep("--logs", room, "--count", "3")
            self.assertEqual((status, out[-15:]), (0, " no difference\n"), out)
            write(room, "1-1.log", read(room, "1-1.log").replace("did", "DID", 1))
            json_file = os.path.join(room, "out.json")
            status, out, _ = lockstep("--logs", room, "--count", "3", "--all", "--json", json_file, "--keep", room)
            with open(json_file, encoding="utf-8") as file:
                self.assertEqual((status, json.load(file)["differ"]), (1, 1), out)


@needs_program
@unittest.skipUnless(shutil.which("iverilog"), "there is no iverilog")
class Verilog(unittest.TestCase):
    """The toy core of docs/hardware."""

    def test_hello_is_the_same(self):
        words = [path_of("docs", "hardware", "run"), *PLACES]
        for more in ([], ["--follow"]):
            status, out, _ = lockstep("--image", path_of("examples", "hello.img"), *more, *words)
            self.assertEqual((status, out), (0, "lockstep: 1 case, 3 turns, no difference\n"))

    def test_it_is_a_toy(self):
        with folder() as room:
            words = [path_of("docs", "hardware", "run"), *PLACES]
            status, out, _ = lockstep("--keep", room, "--image", path_of("examples", "letterbox.img"), *words)
            self.assertEqual(status, 1, out)


if __name__ == "__main__":
    unittest.main()
