"""The debugger, by the lines that a person would type."""

import time
import unittest
from unittest import mock

from mm.debugger.commands import Debugger
from mm.debugger.history import FIRST_TURNS, History
from mm.debugger.session import Session
from mm.tests.support import folder, mm, needs_program, write


def answers(ended):
    """What each line answers, by the line."""
    found = []
    for line in ended.out.splitlines()[1:]:
        if line.startswith("(mm) "):
            found.append((line[5:], []))
        elif found:
            found[-1][1].append(line)
    return [(line, "\n".join(said)) for line, said in found]


@needs_program
class Sessions(unittest.TestCase):
    def session(self, lines, *words):
        ended = mm("debug", *words, lines="\n".join(lines) + "\n")
        self.assertEqual((ended.status, ended.err), (0, ""))
        return [said for _, said in answers(ended)]

    def test_bug_is_found_by_name(self):
        watch, first, back, register, price, *_ = self.session(
            ["watch price", "continue", "back", "p r2", "p price", "list"], "examples/bug.asm"
        )
        self.assertIn("watch price, now 36 '$'", watch)
        self.assertIn("price was 36 '$', and is 111 'o'", first)
        self.assertIn("cycle 27", first)
        self.assertIn("bug.asm:6:  leai r1, r1, 8", first)
        self.assertIn("bug.asm:5:  st r2, r3, 0, any, keep", back)
        self.assertIn("rw 2^6 price   (read/write, all 64 bytes of record", register)
        self.assertIn("36 '$'", price)

    def test_breaks_that_lead_to_each_other(self):
        lines = ["b l", "commands", "continue", "end", "b m", "commands", "reverse", "end", "c", "quit"]
        with folder() as room, mock.patch("mm.debugger.shell.MOST_OF_STOPS", 20):
            source = write(room, "l.asm", ".segment a 5\nl: nop\nm: nop\n br l\n.thread 0 0 none xu a\n")
            out = mm("debug", source, lines="\n".join(lines) + "\n").out
        self.assertIn("20 lines of breaks were carried out after one line: the rest is left", out)

    def test_breaks(self):
        said = self.session(["b door", "c", "n", "n", "fin", "c", "info b", "d 1", "c"], "examples/counter.asm")
        self.assertIn("break at door, examples/counter.asm:20", said[0])
        self.assertIn("cycle 9\nslot 1 is at door", said[1])
        self.assertIn("slot 1 is at door+8", said[2])
        self.assertIn("slot 1 is at cons+32", said[4])
        self.assertIn("break door at door  (met 2 times)", said[6])
        self.assertIn("cycle 36, the end of the run", said[8])

    def test_other_words(self):
        said = self.session(
            ["watch", "brk door", "set r1 5", "info breaks", "info regs", "b door slot 1", "foo", "p &box", "p r2"],
            "examples/counter.asm",
        )
        self.assertIn("missing word: `watch count`", said[0])
        self.assertIn("do you mean `break`?", said[1])
        self.assertIn("never changed", said[2])
        self.assertIn("0  fault", said[3])
        self.assertIn("r1   rw 2^3 box", said[4])
        self.assertIn("break at door of slot 1, ", said[5])
        self.assertIn("`help` lists them", said[6])
        self.assertEqual(said[7:], ["&box = 1048832 0x100100", "r2 = 1   (0x1)"])

    def test_conditions(self):
        lines = ["b loop if r3 == 1", "c", "p r3", "w count if count >= 2", "c", "p count", "reverse", "p r3", "info b"]
        said = self.session(lines, "examples/counter.asm")
        self.assertIn("1: break loop at prod if r3 == 1, examples/counter.asm:5: ", said[0])
        self.assertIn("slot 0 is at prod ", said[1])
        self.assertEqual(said[2], "r3 = 1   (0x1)")
        self.assertIn("watch count if count >= 2, now 0", said[3])
        self.assertIn("count was 1, and is 2", said[4])
        self.assertIn("break 1: loop", said[6])
        self.assertEqual(said[7], "r3 = 1   (0x1)")
        self.assertIn("break loop if r3 == 1 at prod  (met 2 times)", said[8])

    def test_conditions_that_are_none(self):
        lines = ["b loop if r3", "b loop if r16 == 1", "w count if nowhere == 1", "b door if slot 1", "b loop if r3 == 9", "c"]
        said = self.session(lines, "examples/counter.asm")
        self.assertIn("`r3` compares nothing: write `if r3 == 32`", said[0])
        self.assertIn("there is no register r16", said[1])
        self.assertIn("nowhere", said[2])
        self.assertIn("break at door of slot 1, ", said[3])
        self.assertIn("break 1: door", said[5])

    def test_a_condition_on_a_pointer(self):
        said = self.session(["b next if r2 == &price", "c", "p r2", "w price if price != 36", "c"], "examples/bug.asm")
        self.assertIn("break 1: next", said[1])
        self.assertIn("rw 2^6 price", said[2])
        self.assertIn("price was 36 '$', and is 111 'o'", said[4])

    def test_a_condition_on_a_variable_of_c(self):
        said = self.session(["b overflow.c:10 if i == 3", "c", "p i"], "examples/c/overflow.asm")
        self.assertIn("if i == 3", said[0])
        self.assertIn("i = 3", said[2])

    def test_places(self):
        said = self.session(
            [
                "b 13",
                "c",
                "b counter.asm:15",
                "c",
                "b door+8",
                "c",
                "b *0x1000c8",
                "b gate",
                "tb fault",
                "b entry slot 1",
                "b 0x100000 slot 7",
                "b nowhere",
            ],
            "examples/counter.asm",
        )
        self.assertIn("cycle", said[0] + said[1])
        self.assertIn("counter.asm:15", said[2])
        self.assertIn("door+8", said[4])
        self.assertIn("door", said[6])
        self.assertIn("where a slot comes into gate", said[7])
        self.assertIn("fault once", said[8])
        self.assertIn("entry slot 1", said[9])
        self.assertIn("there is no slot 7", said[10])
        self.assertIn("there is no label or segment `nowhere`", said[11])

    def test_faults_stop(self):
        said = self.session(["c", "c", "rc", "start", "d 0", "c"], "examples/faults.asm")
        self.assertIn("fault 1 NotPointer", said[0])
        self.assertIn("its bits are those of ro 2^5 text", said[0])
        self.assertIn("fault 3 Bounds", said[1])
        self.assertIn("fault 1 NotPointer", said[2])
        self.assertIn("the end of the run", said[5])

    def test_entries_and_accesses(self):
        said = self.session(["b entry", "c", "awatch count", "rwatch box slot 1", "c", "c"], "examples/counter.asm")
        self.assertIn("enters eu 2^6 door", said[1])
        self.assertIn("loads count", said[4])
        self.assertIn("count was 0, and is 1", said[5])

    def test_memory_and_registers(self):
        said = self.session(
            [
                "goto 36",
                "x/2 box",
                "x/3i door",
                "p count",
                "p &door",
                "p r5",
                "x r1",
                "regs 0",
                "info output",
                "i slots",
                "p 5",
            ],
            "examples/counter.asm",
        )
        self.assertIn("box    2 (empty)", said[1])
        self.assertIn("lip r7, gate", said[2])
        self.assertIn("count = 2", said[3])
        self.assertIn("0x1000c8", said[4])
        self.assertIn("enter-user, all 64 bytes of gate", said[5])
        self.assertIn("box", said[6])
        self.assertIn("r1   rw 2^3 box", said[7])
        self.assertIn('group 1  "AB"', said[8])
        self.assertIn("* slot", said[9])

    def test_memory_in_forms_that_are_none(self):
        said = self.session(["x/-1 box", "x/\u0663 box", "x/2q box", "x/2w box", "watch -8"], "examples/counter.asm")
        for answer in said[:4]:
            self.assertIn("write how many words, and in which form", answer)
        self.assertIn("-0x8 is not an address", said[4])

    def test_memory_in_forms(self):
        said = self.session(["goto 36", "x/2x box", "x/d count", "x/2gx &gate", "x/a r5", "x/zg count"], "examples/counter.asm")
        self.assertEqual(said[1], "  box    0x2 (empty)\n  count  0x2")
        self.assertEqual(said[2], "  count  2")
        self.assertIn("  gate  0x20c0000000100108\n  door  0x", said[3])
        self.assertEqual(said[5], "  count  0x0000000000000002")

    def test_lists(self):
        """Any line of a source, also one from which no word comes."""
        said = self.session(["list 38", "list 30", "list counter.asm:32", "list 13", "list 39", "list 0", "list other.asm:3", "list gate"],
            "examples/counter.asm")
        self.assertEqual(said[0].splitlines()[-1], "=>   38  .reg 5 ptr eu door")
        self.assertEqual(len(said[0].splitlines()), 6)
        self.assertIn("=>   30    .int 0\n     31  .thread 0", said[1])
        self.assertIn("=>   32  .reg 1 ptr rw box\n", said[2])
        self.assertIn("=>   13    out r2\n", said[3])
        self.assertIn("examples/counter.asm has 38 lines", said[4])
        self.assertIn("`0` is not a line", said[5])
        self.assertIn("there is no source `other.asm`", said[6])
        self.assertIn("=>   19    .ptr rw count\n", said[7])

    def test_places_that_are_none(self):
        said = self.session(["break 0", "break 2000000001", "until 0x100003", "break 0x100008", "goto", "info b"], "examples/counter.asm")
        self.assertIn("`0` is not a line, of 1 to 99999, and not the address of an instruction", said[0])
        self.assertIn("`2000000001` is not a line", said[1])
        self.assertIn("`0x100003` is not a line", said[2])
        self.assertIn("1: break 0x100008 at ", said[3])
        self.assertIn("say to which cycle", said[4])
        self.assertEqual(len(said[5].splitlines()), 2)

    def test_schedule_with_idle_cycles(self):
        said = self.session(["s", "s 2", "back", "goto 7", "s"], "examples/counter.asm", "--turns", "9 0 9 1*5")
        self.assertIn("cycle 1\n", said[0])
        self.assertIn("cycle 3\n", said[1])
        self.assertIn("slot 0 did st", said[2])
        self.assertIn("cycle 7", said[3])
        self.assertIn("enters eu 2^6 door", said[3])
        self.assertIn("cycle 8, the end", said[4])

    def test_empty_line_repeats(self):
        said = self.session(["s", "", "", "w box", "", "foo"], "examples/counter.asm")
        self.assertIn("cycle 3", said[2])
        self.assertEqual(said[4], "")
        self.assertIn("there is no command `foo`", said[5])

    def test_wrong_lines_change_nothing(self):
        lines = ["s 2", "p r99", "x/0 box", "s many", "b", "until nowhere", "p", "regs 5", "d 9", "info what", "where"]
        said = self.session(lines, "examples/counter.asm")
        self.assertIn("cycle 2", said[-1])

    def test_ends_are_ends(self):
        said = self.session(["c", "s", "n", "fin", "u door", "back 36", "rc", "q"], "examples/counter.asm")
        self.assertIn("cycle 36, the end", said[3])
        self.assertIn("cycle 0", said[5])

    def test_lines_are_answered_at_once(self):
        """Fifty lines in a process that is there, each in 50 ms but on a busy machine."""
        began = time.process_time()
        self.session(["s", "regs", "p count", "b door", "c"] * 10, "examples/counter.asm")
        self.assertLess((time.process_time() - began) / 50, 0.05)



LOOP = ".segment a 6\nagain: addi r1, r1, 1\n nop\n br again\n.thread 0 0 none xu a\n"


@needs_program
class MorePoints(unittest.TestCase):
    def session(self, *lines):
        with folder() as room:
            return mm("debug", write(room, "p.asm", LOOP), lines="\n".join([*lines, "quit", ""])).out

    def test_conditions_that_come_later(self):
        out = self.session("break again+8", "condition 1 (r1 == 7)", "continue", "p r1", "condition 1", "continue", "p r1")
        self.assertIn("1: break again+8 if r1 == 7", out)
        self.assertIn("r1 = 7 ", out)
        self.assertIn("r1 = 8 ", out)

    def test_conditions_in_parentheses(self):
        out = self.session("break again+8 if ((r1 == 3))", "continue", "p r1")
        self.assertIn("r1 = 3 ", out)
        self.assertIn("is no", self.session("break again if (r1) == (3"))

    def test_a_condition_that_cannot_be_reckoned(self):
        """It is neither so nor not so: the run stops there and says why."""
        out = self.session("break again+8 if 6/(3-r1) == 6", "continue", "p r1", "continue", "p r1")
        first, second = out.split("(mm) continue\n")[1:3]
        self.assertIn("break 1: again+8\n", first)
        self.assertNotIn("cannot be reckoned", first)
        self.assertIn("r1 = 2 ", first)
        self.assertIn("break 1: again+8\n`if 6/(3-r1) == 6` cannot be reckoned here: this divides by zero\n", second)
        self.assertIn("r1 = 3 ", second)
        out = self.session("break again+8 if r1 == 5 || *(r1*0) == 2", "commands", "silent", "end", "continue", "p r1")
        self.assertIn("cannot be reckoned here: no page is at", out)
        self.assertIn("r1 = 1 ", out)

    def test_ignored(self):
        out = self.session("break again+8", "ignore 1 4", "continue", "p r1", "info breakpoints")
        self.assertIn("(goes on 4 more times)", out)
        self.assertIn("r1 = 5 ", out)
        self.assertIn("(met 5 times)", out)

    def test_disabled_and_enabled(self):
        out = self.session("break again+8", "tbreak again+16", "disable 1", "continue", "enable 1", "continue", "p r1")
        self.assertIn("1: break again+8 (disabled)", out)
        self.assertIn("break 2: again+16", out)
        self.assertIn("r1 = 2 ", out)
        self.assertIn("there is no break or watch", self.session("disable 9"))

    def test_a_call_is_one_step(self):
        source = ".segment a 6\n jal r6, r5\n nop\n halt\n.segment b 6\n nop\n jmp r6\n.thread 0 0 none xu a\n.reg 5 ptr xu b\n"
        with folder() as room:
            out = mm("debug", write(room, "p.asm", source), lines="next\nquit\n").out
        self.assertIn("slot 0 is at a+8", out.split("(mm) next")[1])

    def test_displays(self):
        out = self.session("display r1", "display $pc", "undisplay 1", "info display", "step", "undisplay 4")
        self.assertIn("r1 is shown no more", out)
        self.assertIn("  1  $pc", out)
        self.assertIn("$pc = xu 2^6 a+8", out)
        self.assertIn("there is no display 4", out)

    def test_displays_alone(self):
        """They are shown, and stay."""
        out = self.session("display r1", "display nope", "display r2", "display", "info display")
        self.assertIn("(mm) display\nr1 = 0   (0x0)\nr2 = 0   (0x0)\n(mm) info display\n  1  r1\n  2  r2\n", out)

    def test_an_interrupt_stops_where_the_run_is(self):
        """By a point whose condition is interrupted at its thousandth look."""
        looks = [0]

        def holds(condition, session):
            looks[0] += 1
            if looks[0] == 100:
                raise KeyboardInterrupt
            return False

        with mock.patch("mm.debugger.conditions.Condition.holds", holds):
            out = self.session("break again+8 if r1 == 7", "continue", "p r1")
        self.assertIn("cycle 298", out)
        self.assertIn("r1 = 99 ", out.replace("r1 = 100 ", "r1 = 99 "))

    def test_an_interrupt_stops_after_what_was_looked_at(self):
        """Where nothing stops the run, while its further turns are asked for."""
        reach, ends = History.reach, [KeyboardInterrupt]

        def interrupted(history, cycle):
            if cycle == FIRST_TURNS + 1 and ends:
                raise ends.pop()
            reach(history, cycle)

        with mock.patch.object(History, "reach", interrupted):
            self.assertIn(f"cycle {FIRST_TURNS}\n", self.session("continue", "p r1"))

    def test_a_second_interrupt_ends_nothing(self):
        """It comes while the answer to the first one is made."""
        stop, ends = Debugger.stop, []

        def resumed(session):
            ends.append(KeyboardInterrupt)
            raise KeyboardInterrupt

        def interrupted(debugger, halt):
            if ends:
                raise ends.pop()
            return stop(debugger, halt)

        with mock.patch.object(Session, "resume", resumed), mock.patch.object(Debugger, "stop", interrupted):
            self.assertIn("(mm) p r1\nr1 = 0 ", self.session("continue", "p r1"))


if __name__ == "__main__":
    unittest.main()
