"""What a kernel keeps: the answer read, the names of segments, what is said of it, and images with their doors shut."""

import json
import os
import unittest

from mm.formats.image import image_bytes, read_image
from mm.formats.shut import has_doors, with_doors_shut
from mm.machine.words import Permission, Pointer, Word
from mm.names.kept import kept_of, word_of
from mm.names.symbols import Region, Symbols
from mm.outputs.keeps import Form, form_of, read_keeps
from mm.records import replace
from mm.source.text import read_source
from mm.status import Stop
from mm.tests.support import folder, mm, needs_program, read, read_bytes, write
from mm.views.keeps import KeepsView, packed
from mm.views.keptdata import KeptForm
from mm.views.keptwords import KeptWords
from mm.views.leaks import places_of
from mm.views.style import Style

YES = """keeps yes
door p51800000001000c8
reads 000000001000c0 8
reads 00000000100108 1
writes 00000000100108 1
code 000000001000c8 7
"""
GROUPS = """group 0
door p51800000001000c8
touch 00000000100000 7
touch 00000000100100 3
write 00000000100100 3
apart 0 writer 1 word 00000000100100
group 1
slot 3
apart 1 yes
"""
# A leak of each kind.
NO = """keeps no
slot 1
reads 000000001000c0 2
code 000000001000c8 7
cell 00000000100108 any
cell 00000000100108 in 2 000000001000c0 6
leak across p21c0000000100080
leak cell 00000000100100 p20c0000000100108
leak code 000000001000c8
leak jump 000000001000f8 7 p20c0000000100108
leak jump 000000001000f8 7 in 3 000000001000c0 6
leak jump 000000001000f8 8 ptr 3
leak enter 000000001000f8 6 any
leak store 000000001000e8 2 p20c0000000100108
leak give 000000001000e8 2 int
leak fault 000000001000e0 ip
leak fault 000000001000e0 7 p20c0000000100108
leak fault 000000001000e0 9 p20c0000000100108
leak loose 1
"""


def placed(text):
    """The names of a source, with its segments where the linker puts them."""
    source, at, regions = read_source("k.asm", text.encode()), 0x100000, []
    for index, segment in sorted(enumerate(source.segments), key=lambda item: -item[1].log):
        regions.append(Region(segment.name, at, segment.log, segment.words, source, index))
        at += 1 << segment.log
    return Symbols(regions)


def counter():
    """The names and the image of the counter."""
    return placed(read("examples", "counter.asm")), read_image(read_bytes("examples", "counter.img"))


def said(text, kept=((0x1000C0, 6), (0x100108, 3)), threads=100, names=True):
    """The lines of an answer about the counter."""
    symbols, image = counter()
    view = KeepsView(image, symbols if names else Symbols(), kept, Style())
    return list(view.lines(read_keeps(text), threads))


class Reading(unittest.TestCase):
    def test_yes(self):
        found = read_keeps(YES + "slot 3\nreads 00000000100100 1\n")
        self.assertEqual(found.verdict, "yes")
        door, slot = found.parties
        self.assertEqual((door.door, door.slot), (Pointer(Permission.EU, 6, 0x1000C8), None))
        self.assertEqual((door.reads, door.writes), ([(0x1000C0, 8), (0x100108, 1)], [(0x100108, 1)]))
        self.assertEqual((slot.door, slot.slot, slot.reads, slot.writes), (None, 3, [(0x100100, 1)], []))
        self.assertEqual((found.code, found.slots, found.doors, found.groups), ([(0x1000C8, 7)], [3], [door], []))

    def test_groups(self):
        found = read_keeps(YES + GROUPS)
        self.assertEqual(len(found.parties), 1)
        zero, one = found.groups
        self.assertEqual((zero.reach.group, zero.reach.touch, zero.reach.write),
                         (0, [(0x100000, 7), (0x100100, 3)], [(0x100100, 3)]))
        self.assertEqual((zero.apart.apart, zero.apart.writer, zero.apart.word), (False, 1, 0x100100))
        self.assertEqual((one.reach.group, one.doors, one.slots, one.apart.apart), (1, [], [3], True))
        self.assertEqual(found.groups_with(zero.doors[0]), [0])

    def test_leaks(self):
        leaks = read_keeps(NO).leaks
        self.assertEqual([(leak.kind, leak.address, leak.register, leak.slot) for leak in leaks], [
            ("across", None, None, None), ("cell", 0x100100, None, None), ("code", 0x1000C8, None, None),
            ("jump", 0x1000F8, 7, None), ("jump", 0x1000F8, 7, None), ("jump", 0x1000F8, 8, None),
            ("enter", 0x1000F8, 6, None), ("store", 0x1000E8, 2, None), ("give", 0x1000E8, 2, None),
            ("fault", 0x1000E0, None, None), ("fault", 0x1000E0, 7, None), ("fault", 0x1000E0, 9, None),
            ("loose", None, None, 1),
        ])
        places = list(places_of(leaks).values())
        self.assertEqual([(place.kind, sorted(place.registers), place.ip) for place in places], [
            ("across", [], False), ("cell", [], False), ("code", [], False), ("jump", [7, 8], False), ("enter", [6], False),
            ("store", [2], False), ("give", [2], False), ("fault", [7, 9], True), ("loose", [], False),
        ])
        self.assertEqual(len(places[3].registers[7]), 2)

    def test_forms(self):
        word = Word(0x20C0000000100108, True)
        for text, form in (
            (str(word), Form("word", word=word)),
            ("int", Form("int")),
            ("any", Form("any")),
            ("ptr 5", Form("ptr", permission=Permission.EU)),
            ("in 2 00000000100100 4", Form("in", permission=Permission.RW, base=0x100100, log=4)),
        ):
            self.assertEqual(form_of(text.split()), form)


class Named(unittest.TestCase):
    def kept(self, *words):
        return kept_of(words, counter()[0])

    def refused(self, *words):
        with self.assertRaises(Stop) as caught:
            word_of(self.kept(*words))
        self.assertEqual(caught.exception.status, 1)
        return "\n".join(caught.exception.lines)

    def test_segments(self):
        gate, count, box = (0x1000C0, 6), (0x100108, 3), (0x100100, 3)
        for words, found in (
            (["gate", "count"], [gate, count]),
            (["count", "gate", "count"], [gate, count]),
            (["count,gate"], [gate, count]),
            (["g*", "[bc]o?*"], [(0x100000, 7), gate, box, count]),
            (["0x1000c0/6", "1048840/3"], [gate, count]),
            (["door/3"], [(0x1000C8, 3)]),
            (["gate", "door/3"], [gate]),
            (["0/54"], [(0, 54)]),
            (["0x100100/4", "box"], [(0x100100, 4)]),
        ):
            self.assertEqual(self.kept(*words), found, words)
        self.assertEqual(word_of([gate, count]), "1048768/6,1048840/3")

    def test_what_is_none(self):
        for words, text in (
            (["gat"], "there is no segment `gat`; do you mean `gate`?"),
            (["what"], "there is no segment `what`; `mm symbols` lists the names"),
            (["x*"], "no segment has a name such as `x*`"),
            (["door"], "`door` is a label in the segment gate, and segments are kept: say gate\n    or door/3"),
            (["0x1000c8"], "`0x1000c8` has no length: write BASE/LOG"),
            (["0x1000c8/6"], "a segment of 64 bytes begins at a multiple of its length, and door is at 0x1000c8\n"
                             "    the one that has this word is 0x1000c0/6"),
            (["gate/2"], "`2` is not the logarithm of a length"),
            (["gate/55"], "`55` is not the logarithm of a length"),
            (["nowhere/3"], "there is no label or segment `nowhere`"),
            ([""], "there is no segment ``"),
        ):
            self.assertIn(text, self.refused(*words), words)
        with self.assertRaises(Stop) as caught:
            kept_of(["gate"], Symbols())
        self.assertIn("this image has no names", caught.exception.lines[0])

    def test_many(self):
        """Halves of one segment are joined where there are too many, and as long as that helps."""
        near = [(8 * at, 3) for at in range(100)]
        self.assertEqual(word_of(near[:64]).count(","), 63)
        self.assertEqual(word_of(near), "0/9,512/8,768/5")
        self.assertIn("these are 65 segments, and it takes at most 64", self.refused(*(f"{32 * at}/3" for at in range(65))))

    def test_names_of_c(self):
        text = ".segment gate_visitors 3\n  ;@ global visitors 8 at 0 type 1\n  .fill 1\n.segment other 3\n"
        self.assertEqual(kept_of(["visitors"], placed(text)), [(0x100000, 3)])


class Words(unittest.TestCase):
    def test_runs(self):
        words = KeptWords(counter()[0])
        for run, names in (
            ((0x1000C0, 8), ["gate"]),
            ((0x1000C0, 1), ["gate (1 word)"]),
            ((0x1000C8, 1), ["door"]),
            ((0x1000C0, 7), ["gate (7 words)"]),
            ((0x1000C8, 9), ["door (7 words)", "box", "count"]),
            ((0x1000D8, 2), ["door+16 (2 words)"]),
            ((0x200000, 2), ["0x200000 (2 words)"]),
            ((0x200000, 1), ["0x200000"]),
        ):
            self.assertEqual(words.runs([run]), names)

    def test_forms(self):
        words, pointer = KeptWords(counter()[0]), "p20c0000000100108"
        for forms, text in (
            (["int"], "an integer"),
            (["i0000000000000005"], "5"),
            (["i0000000000000005", "int"], "an integer"),
            (["any", "int", "ptr 2", pointer], "any word that a caller may hold or rw 2^3 count"),
            (["ptr 2"], "any rw pointer that a caller may hold"),
            (["int", "ptr 1", "ptr 2", "ptr 7"], "an integer or any ro, rw or key pointer that a caller may hold"),
            (["in 2 000000001000c0 6", "in 3 00000000100000 4"], "any rw pointer into gate or any xu pointer into cons/4"),
        ):
            self.assertEqual(words.forms([form_of(form.split()) for form in forms]), text)

    def test_lines_of_names(self):
        self.assertEqual(packed(["a" * 20, "b" * 11, "c" * 40]), ["a" * 20 + ", " + "b" * 11 + ",", "c" * 40])
        self.assertEqual(packed([]), [])


class Said(unittest.TestCase):
    def test_yes(self):
        lines = said(YES)
        for line in (
            "yes: the kernel keeps gate and count",
            "  whatever code its callers run, and in whatever order: only its own code, 7 instructions, uses these words,",
            "door  who has it    reads        writes",
            "door  r5 of slot 1  gate, count  count",
            "word   what can be there",
            "count  an integer",
        ):
            self.assertIn(line, lines)
        self.assertFalse(any("can" in line.split() for line in lines if line.startswith("group")))

    def test_groups(self):
        lines = said(YES + GROUPS)
        for line in (
            "door  group 0     gate, count  count",
            "group 0 (slot 0) can",
            "  read            cons  128 bytes  0x100000",
            "  read and write  box     8 bytes  0x100100",
            "  enter           door",
            "  group 0 does not stand apart: group 1 can write box, which it can read",
            "  run as          the kernel, by slot 3",
        ):
            self.assertIn(line, lines)

    def test_no(self):
        text = "\n".join(said(NO))
        for part in (
            "no: the kernel can give away what it keeps (gate and count), at 9 places",
            "rw 2^7 prod, in nothing, reaches more than what is kept\n  mend  keep its whole segment too: name prod/7",
            "box is not kept, and holds rw 2^3 count, which no caller may hold\n  mend  keep that word too: name box",
            "k.asm:20: door: lip r7, -1\n  the kernel runs this word, and others can change it: a pointer that writes there is in nothing",
            "k.asm:26: jmp r6\n  it can leave the kernel with what no caller may hold\n"
            "    r7   rw 2^3 count or any xu pointer into gate\n"
            "    r8   any xu pointer that a caller may hold\n"
            "  mend  clear r7 and r8 before it: `ldi r7, 0`, `ldi r8, 0`",
            "  where it goes depends on what is in the kernel:\n    r6   any word that a caller may hold",
            "  it can put what no caller may hold where others load it\n    r2   rw 2^3 count",
            "  it can hand what no caller may hold to a slot that the kernel serves\n    r2   an integer",
            "  it can fault, and the caller's handler then gets:\n    ip   by which all of gate can be read\n    r7   rw 2^3 count",
            "  mend  move what can fault into a segment without pointers, and do not keep that one",
            "slot 1 serves others, and can go on as a caller: whoever it serves would be seen by anybody\n"
            "  mend  keep its code too: name cons, if that is not kept yet",
            "slot    who has it  reads           writes\nslot 1  the kernel  gate (2 words)  nothing",
            "count  any word that a caller may hold or any rw pointer into gate",
        ):
            self.assertIn(part, text)
        self.assertIn("0x1000f8: jmp r6", "\n".join(said(NO, names=False)))

    def test_handlers(self):
        """Handlers that are callers are told, and one that is the kernel's is not."""
        symbols, image = counter()
        zero, one = image.slots
        served = replace(image, slots=(replace(zero, handler=1), replace(one, handler=0)))
        for text, who in ((NO, "(slot 0 for slot 1)"), (NO.replace("slot 1\n", ""), "(slot 0 for slot 1, slot 1 for slot 0)")):
            lines = KeepsView(served, symbols, [(0x1000C0, 6)], Style()).lines(read_keeps(text.replace("reads 000000001000c0 2\n", "")), 9)
            self.assertIn(f"  it can fault, and the caller's handler then gets {who}", list(lines))

    def test_what_is_not_known(self):
        more, most, privileged = said("keeps more\n"), said("keeps more\n", threads=1_000_000), said("keeps privileged\n")
        self.assertIn("not known: the kernel has more than 100 threads", more[0])
        self.assertIn("--threads, up to 1000000", more[-1])
        self.assertNotIn("--threads", most[-1])
        self.assertIn("not known: privileged code can make any pointer", privileged[0])

    def test_whose_privilege(self):
        image = read_image(read_bytes("examples", "pager.img"))
        lines = list(KeepsView(image, placed(read("examples", "pager.asm")), (), Style()).lines(read_keeps("keeps privileged\n"), 1))
        self.assertTrue(any(line.startswith("  ip of slot 0  xp 2^") for line in lines), lines)

    def test_json(self):
        symbols, image = counter()
        form = json.loads(json.dumps(KeptForm(image, symbols, [(0x1000C0, 6)], 7, read_keeps(NO)).form()))
        self.assertEqual((form["answer"], form["threads"], form["form"]), ("no", 7, 1))
        self.assertEqual(form["kept"], [{"address": "0x1000c0", "name": "gate", "log": 6}])
        self.assertEqual(form["slots"][0]["reads"], [{"address": "0x1000c0", "name": "gate", "words": 2}])
        self.assertEqual({leak["leak"]: leak["said"] for leak in form["leaks"]}["jump"], "it can leave the kernel with what no caller may hold")
        self.assertTrue(all(leak["notes"] == [] for leak in form["leaks"] if leak["leak"] != "fault"))
        self.assertEqual([cell["kind"] for cell in form["cells"]], ["any", "in"])
        self.assertEqual(form["cells"][1]["segment"], {"address": "0x1000c0", "name": "gate", "log": 6})
        jump = form["leaks"][3]
        self.assertEqual((jump["leak"], jump["register"], jump["instruction"], jump["source"]),
                         ("jump", "r7", "jmp r6", {"file": "k.asm", "line": 26}))
        self.assertEqual(jump["form"]["word"]["name"], "count")
        self.assertIn("clear r7 and r8 before it", jump["mend"][0])
        self.assertEqual([leak["slot"] for leak in form["leaks"]][-1], 1)
        yes = KeptForm(image, symbols, [], 7, read_keeps(YES + GROUPS)).form()
        self.assertEqual((yes["doors"][0]["groups"], yes["doors"][0]["held"]), ([0], ["r5 of slot 1"]))
        self.assertEqual([group["slots"] for group in yes["groups"]], [[], [3]])
        self.assertIsNone(KeptForm(image, symbols, [], 7, read_keeps(YES)).form()["doors"][0]["groups"])


class Shut(unittest.TestCase):
    def test_enter_pointers_are_keys(self):
        for name, count in (("counter", 1), ("kernel", 2), ("teller", 2), ("hello", 0)):
            data = read_bytes("examples", f"{name}.img")
            image = read_image(data)
            shut = image_bytes(with_doors_shut(image))
            self.assertEqual(image_bytes(image), data)
            differ = [at for at, (one, other) in enumerate(zip(data, shut)) if one != other]
            # The permission is in the first four bits of a word: 5 becomes 7.
            self.assertEqual([(data[at] >> 4, shut[at] >> 4, (data[at] ^ shut[at]) & 15) for at in differ], [(5, 7, 0)] * count)
            self.assertEqual((has_doors(image), has_doors(read_image(shut))), (count > 0, False))

    @needs_program
    def test_cells(self):
        """A door in memory is shut, and the integer with its bits stays."""
        source = ".segment a 5\n .ptr eu a\n .int 0x5140000000100000\n .ptr rw a\n halt\n.thread 0 0 none xu a + 24\n"
        with folder() as room:
            path = os.path.join(room, "a.img")
            self.assertEqual(mm("link", write(room, "a.asm", source), "-o", path).status, 0)
            with open(path, "rb") as file:
                image = read_image(file.read())
        self.assertEqual([str(with_doors_shut(image).cell(0x100000 + 8 * at).word) for at in range(3)],
                         ["p7140000000100000", "i5140000000100000", "p2140000000100000"])


if __name__ == "__main__":
    unittest.main()
