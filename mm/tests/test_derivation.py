"""`mm why` and its picture: each rule in words, by a text made by hand, and the answers of the program."""

import unittest
from xml.etree import ElementTree

from mm.machine.program import find_program
from mm.names.symbols import Region, Symbols
from mm.pictures import why
from mm.pictures.why import arrows_of
from mm.records import replace
from mm.status import Status
from mm.tests.support import mm, needs_program, path_of
from mm.views.derivation import REASONS, DerivationView, answer
from mm.views.style import Style
from mm.why.ask import Asked
from mm.why.lines import RULES, read_lines

# Not a right derivation of any image: each rule once.
TEXT = """\
1 group 3 p4300000000100000 ip 3
2 group 3 p20c0000000100100 made 1
3 group 1 p20c0000000100100 served 3 from 2
4 group 1 p10c0000000100100 below 3
5 group 2 p5180000000100048 register 2 5
6 group 2 p3180000000100048 entered 5
7 group 2 p20c0000000100108 cell 00000000100040 by 6
8 group 1 p20c0000000100108 passed 00000000100100 from 7 store 2 load 4
"""
SYMBOLS = Symbols([Region("gate", 0x100040, 6, 8, None, 0), Region("box", 0x100100, 3, 1, None, 1),
    Region("count", 0x100108, 3, 1, None, 2)])
SAID = [
    "slot 3 runs by it",
    "1 is privileged, and makes any pointer",
    "group 3 has it (2), and slot 3 and its handler are of the two groups",
    "it can be made of 3",
    "r5 of slot 2 holds it",
    "an entry by 5 leaves it",
    "it lies in gate, which 6 loads",
    "group 2 has it (7) and can store it at box (2), where 4 loads it",
]


class Built:
    """All that a picture looks at."""

    symbols = SYMBOLS


class Words(unittest.TestCase):
    def test_each_rule(self):
        self.assertEqual(set(REASONS), set(RULES))
        lines = read_lines(TEXT)
        self.assertEqual({line.rule for line in lines}, set(RULES))
        view = DerivationView(lines, SYMBOLS, Style())
        self.assertEqual([view.reason(line) for line in lines], SAID)
        shown = view.lines()
        self.assertEqual(shown[7], f"  8  group 1  rw 2^3 count      {SAID[7]}")
        self.assertEqual(len({line.index(said) for line, said in zip(shown, SAID)}), 1)
        self.assertEqual(answer(1, "count", "write", True, Style()), "group 1 can write count")
        self.assertEqual(answer(1, "count", "touch", False, Style()), "group 1 cannot read count")


class Pictures(unittest.TestCase):
    def test_arrows_do_not_lie_on_one_another(self):
        arrows = arrows_of(read_lines(TEXT))
        self.assertEqual(len(arrows), 8)
        for at, one in enumerate(arrows):
            for other in arrows[:at]:
                self.assertFalse(one.track == other.track and one.meets(other))

    def test_boxes(self):
        svg = why.draw(read_lines(TEXT), Asked(1, 0x100108, "write"), Built, "By what way").svg()
        text = "\n".join(it.text or "" for it in ElementTree.fromstring(svg).iter("{http://www.w3.org/2000/svg}text"))
        for said in ("By what way", "8  rw 2^3 count", "group 2", "7, stored at box by 2, loaded by 4", "2, by slot 3"):
            self.assertIn(said, text)

    def test_no(self):
        self.assertIn("It cannot", why.draw([], Asked(1, 0x100108, "write"), Built, "By what way").svg())

    def test_long_names_are_cut(self):
        long = Symbols([replace(region, name="a_name_that_goes_on_and_on_and_on_and_on_for_ever") for region in SYMBOLS.regions])
        built = type("Built", (), {"symbols": long})
        self.assertIn("..", why.draw(read_lines(TEXT), Asked(1, 0x100108, "write"), built, "By what way").svg())


@needs_program
class Asking(unittest.TestCase):
    def test_counter(self):
        ended = mm("why", "examples/counter.asm", "0", "count", "write")
        self.assertEqual(ended.status, 0)
        for said in ("group 0 can write count", "an entry by 2 leaves it", "it lies in gate, which 3 loads",
            "group 1 has it (4) and can store it at box (1), where 5 loads it"):
            self.assertIn(said, ended.out)
        self.assertIn("group 0 can read count", mm("why", "examples/counter.img", "0", "0x100108", "touch").out)

    def test_no(self):
        self.assertEqual(mm("why", "examples/hello.asm", "0", "0x100000", "write").out.count("\n"), 1)
        self.assertIn("group 9 cannot read", mm("why", "examples/hello.asm", "9", "0x100000", "touch").out)

    def test_words(self):
        for words, said in (
            (("64", "count", "write"), "`64` is not a group: 0 to 63"),
            (("0", "cuont", "write"), "do you mean `count`"),
            (("0", "count+4", "write"), "`count+4` is not an address of a word"),
            (("0", "count", "jump"), "`jump` is neither touch (or read) nor write"),
        ):
            ended = mm("why", "examples/counter.asm", *words)
            self.assertEqual(ended.status, Status.USAGE)
            self.assertIn(said, ended.err)

    def test_what_is_written_is_accepted(self):
        text = find_program().run(["why", path_of("examples", "counter.img"), "0", "1048840", "write"]).text
        ended = mm("check-why", "examples/counter.img", "0", "0x100108", "write", lines=text)
        self.assertIn("right: 6 lines", ended.out)


if __name__ == "__main__":
    unittest.main()
