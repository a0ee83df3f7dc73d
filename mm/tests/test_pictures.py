"""Pictures: each can be drawn, is well-formed, can be read on a phone and in the dark, and has the names of its source."""

import re
import unittest
from xml.etree import ElementTree

from mm.build import Built
from mm.machine.words import BY_SHORT, Word
from mm.names.symbols import Symbols
from mm.machine.causes import Cause
from mm.machine.isa import OPERATIONS
from mm.outputs.keeps import read_keeps
from mm.pictures import card, keeps, machine, permissions, pointer, states, tree
from mm.pictures.make import KINDS, drawn
from mm.pictures.svg import COLOURS, SHOWN, SMALLEST, WIDTH, Picture
from mm.source.letters import TEXT_DIRECTIVES
from mm.source.wants import DIRECTIVES
from mm.status import Stop
from mm.tests.support import needs_program, path_of, read
from mm.tests.test_keeps import GROUPS, NO, YES, counter
from mm.tests.test_view import DEUTAN, PLAIN, PROTAN, contrast, distance

SPACE = "{http://www.w3.org/2000/svg}"
PHONE = 343


def texts_of(svg):
    return [(float(it.get("font-size")), it.text or "") for it in ElementTree.fromstring(svg).iter(f"{SPACE}text")]


class Drawn(unittest.TestCase):
    def look(self, svg):
        """The rules for all pictures; its letters as one text."""
        root = ElementTree.fromstring(svg)
        self.assertEqual(root.get("width"), str(SHOWN))
        self.assertTrue(root.find(f"{SPACE}title").text)
        self.assertIn("prefers-color-scheme:dark", root.find(f"{SPACE}style").text)
        for element in root.iter():
            self.assertNotRegex(element.get("fill") or "none", "#", "a colour that is the same in the dark")
            for name in (element.get("class") or "").split():
                self.assertIn(name[2:], COLOURS)
        self.assertGreaterEqual(min(size for size, _ in texts_of(svg)) * PHONE / WIDTH, 9)
        return "\n".join(text for _, text in texts_of(svg))

    def test_permissions_are_those_of_the_table(self):
        self.look(permissions.draw().svg())
        reached = {short: set() for short in BY_SHORT}
        for one, other in permissions.steps():
            reached[one.short].add(other.short)
        for _ in BY_SHORT:
            for short, there in reached.items():
                there |= {after for each in there for after in reached[each]}
        self.assertEqual(reached, {it.short: {one.short for one in it.may_become} for it in BY_SHORT.values()})

    def test_pointer(self):
        text = self.look(pointer.draw(Word(0x51800000001000C8, True), Symbols()).svg())
        for said in ("permission 5: eu, enter-user", "length 6: a segment of 2^6 = 64 bytes", "0x1000c0", "0x1000ff"):
            self.assertIn(said, text)
        self.assertRaises(ValueError, pointer.draw, Word(0x51800000001000C8), Symbols())

    def test_states_and_tree(self):
        text = self.look(states.draw().svg())
        for state in ("running", "waiting", "taken", "halted", "evt by", "resume kill"):
            self.assertIn(state, text)
        self.assertEqual(self.look(tree.draw().svg()).count("2^"), 1 + 2 + 4 + 1)

    def test_the_machine(self):
        text = self.look(machine.draw().svg())
        for said in ("slot 2", "group 1", "enter (eu)", "account", "cache and translation buffer"):
            self.assertIn(said, text)

    def test_the_card_has_all_of_the_tables(self):
        """As SVG and as PDF, on a page."""
        made = card.draw()
        svg, pdf = made.svg(), made.pdf().decode("latin-1")
        texts = [text for _, text in texts_of(svg)]
        shown = [found.replace("\\\\", "\\").replace("\\(", "(").replace("\\)", ")") for found in re.findall(r"Tm \((.*)\) Tj", pdf)]
        self.assertEqual(texts, shown)
        words = set(" ".join(texts).split())
        for table in (OPERATIONS, DIRECTIVES, TEXT_DIRECTIVES, BY_SHORT, [cause.title for cause in Cause]):
            self.assertLessEqual(set(table), words)
        for name, operation in OPERATIONS.items():
            self.assertIn(operation.effect, texts, name)
        begin = int(pdf.split("startxref\n")[1].split()[0])
        self.assertTrue(pdf[begin:].startswith("xref\n"))
        for place in re.findall(r"^(\d{10}) 00000 n", pdf, re.M):
            self.assertRegex(pdf[int(place) :], r"\A\d+ 0 obj\n")
        length = int(re.search(r"/Length (\d+)", pdf)[1])
        self.assertEqual(len(pdf.split(">>\nstream\n")[1].split("\nendstream")[0]), length)

    def test_small_letters_are_refused(self):
        self.assertRaises(AssertionError, Picture("a title").text, 20, 20, "too small", SMALLEST - 1)
        self.assertRaises(AssertionError, Picture("a title").text, 400, 20, "this does not fit there", 14)

    def test_colours(self):
        for at in (0, 1):
            colour = {name: pair[at] for name, pair in COLOURS.items()}
            for front, back in (("ink", "ground"), ("soft", "ground"), ("ink", "field"), ("ink", "mark"),
                ("accent", "ground")):
                self.assertGreaterEqual(contrast(colour[front], colour[back]), 4.5)
            tints = [colour[f"tint-{number}"] for number in range(8)]
            for number, tint in enumerate(tints):
                self.assertGreaterEqual(contrast(colour["on-tint"], tint), 4.5)
                for other in tints[:number]:
                    for eye in (PLAIN, PROTAN, DEUTAN):
                        self.assertGreaterEqual(distance(tint, other, eye), 18)

    @needs_program
    def test_names(self):
        for words, said in (
            (["gate", "examples/counter.asm"],
                ("jal r6, r5", "r7 = rw 2^3 count", "stores to count", "back to cons by r6")),
            (["trace", "examples/faults.asm"], ("walk", "forge", "8: slot 1 faults at forge+24, 1 NotPointer")),
            (["audit", "examples/counter.asm"], ("box", "count", "gate")),
            (["audits", "examples/counter.asm", "examples/kernel.asm"],
                ("credits_a", "kernel: each group stands apart.")),
            (["image", "examples/kernel.asm"], ("gate_a", "64 bytes at 0x100040, a gate")),
            (["reach", "docs/course/reach.asm"], ("shelf", "book", "runs reader")),
            (["sweep", "examples/lend.asm", "buffer"], ("word pocket", "owner: r1", "nobody's")),
            (["net", "examples/nodes.links", "examples/ask.asm", "examples/answer.asm"], ("sent", "link 1")),
        ):
            with self.subTest(words[0]):
                full = [path_of(word) if "/" in word else word for word in words]
                text = self.look(drawn(full, ""))
                for each in said:
                    self.assertIn(each, text)
        self.assertRaises(Stop, drawn, ["what"], "")
        self.assertRaises(Stop, drawn, ["trace"], "")

    def test_what_is_kept(self):
        """A door is an arrow into the box, and a leak one out of it."""
        symbols, image = counter()
        built = Built("counter", "", b"", image, symbols)
        for text, arrows, words in (
            (YES, 1, ("kept: gate, count", "reads gate, count", "writes count", "g1")),
            (YES + GROUPS, 1, ("g0", "Outside of the box", "cons", "box")),
            (NO, 9, ("leak", "k.asm:26: jmp r6", "slot 1, the kernel's own", "may get to a caller")),
            ("keeps more\n", 0, ("the kernel has more than",)),
        ):
            svg = keeps.draw(read_keeps(text), built, [(0x1000C0, 6), (0x100108, 3)], "A kernel").svg()
            shown = self.look(svg)
            self.assertEqual(svg.count("<polygon"), arrows)
            for word in words:
                self.assertIn(word, shown)

    @needs_program
    def test_what_the_counter_keeps(self):
        text = self.look(drawn(["keeps", path_of("examples", "counter.asm"), "gate", "count"], ""))
        self.assertIn("What the kernel of counter keeps", text)

    @needs_program
    def test_why(self):
        text = self.look(drawn(["why", path_of("examples", "counter.asm"), "0", "count", "write"], ""))
        for said in ("Why group 0 can write count", "3  xu 2^6 door", "4, stored at box by 1, loaded by 5"):
            self.assertIn(said, text)

    def test_the_list_has_each_kind(self):
        rows = [line.split("|")[1].split()[0] for line in read("docs", "pictures", "drawn").splitlines()
            if "|" in line and line[0] != "#"]
        self.assertEqual(set(rows), set(KINDS))
        page = read("docs", "pictures", "README.md")
        for kind in KINDS:
            self.assertRegex(page, rf"tools/draw {kind}\b")
        names = [line.split("|")[0].strip() for line in read("docs", "pictures", "drawn").splitlines() if "|" in line
            and line[0] != "#"]
        for name in names:
            self.assertTrue(re.search(rf"\({name}\.svg\)", page), name)


if __name__ == "__main__":
    unittest.main()
