"""Pages of runs: their data, the file that they are, the windows of long runs, and their colours. `.ci/view` opens them in a browser."""

import json
import os
import re
import unittest

from mm.log.changes import KINDS
from mm.log.read import read_log
from mm.log.replay import Machine
from mm.log.taken import QUIET_TURNS, Window, cut_quiet, fill
from mm.outputs.report import Report, SlotState
from mm.machine.words import Word
from mm.tests.pages import pages
from mm.tests.spoils import SPOILED, spoiled_pages
from mm.tests.support import folder, mm, needs_program, path_of, read, write
from mm.tests.test_log import CHANGES, LOG, small_image
from mm.log.changes import read_change
from mm.view.data import change_form, machine_form, step_form
from mm.view.page import SCRIPTS, data_text, page_of, part

DATA = re.compile(r'<script type="application/json" id="run">(.*?)</script>', re.S)
VARIABLE = re.compile(r"--([a-z0-9-]+): (#[0-9a-f]{6});")
# How the two commonest kinds of colour blindness see red, green and blue (Machado, Oliveira, Fernandes 2009), in
# linear light.
PROTAN = ((0.152286, 1.052583, -0.204868), (0.114503, 0.786281, 0.099216), (-0.003882, -0.048116, 1.051998))
DEUTAN = ((0.367322, 0.860646, -0.227968), (0.280085, 0.672501, 0.047413), (-0.011820, 0.042940, 0.968881))
PLAIN = ((1, 0, 0), (0, 1, 0), (0, 0, 1))


def data_of(page):
    return json.loads(DATA.search(page)[1])


class Data(unittest.TestCase):
    def test_changes_have_their_kind(self):
        forms = [change_form(read_change(line)) for line in CHANGES.splitlines()]
        self.assertEqual({form[0] for form in forms}, set(range(len(KINDS))))
        self.assertEqual(forms[1], [0, 13, "p3300000000100008", 1])
        self.assertEqual(forms[5], [2, 2, 0, None])
        self.assertEqual(forms[-2], [8, 0x100100, "i0000000000000002", 0])

    def test_kinds_are_those_of_the_script(self):
        names = re.search(r"const (IP = 0.*);", part("words.js"))[1].split(", ")
        self.assertEqual([int(name.split(" = ")[1]) for name in names], list(range(len(KINDS))))

    def test_step_and_machine(self):
        steps, _ = read_log(LOG.splitlines())
        self.assertEqual(step_form(7, steps[3])[:9], [7, 0, 3, 2, 11, 0x100010, 0, -1, None])
        self.assertEqual(step_form(3, steps[2])[:5], [3, 0, 2, 3, 0])
        form = machine_form(Machine(small_image()))
        self.assertEqual(form["pages"], [[0x100, [[0, "i0000000000000001", 1]]]])
        self.assertEqual([slot["handler"] for slot in form["slots"]], [1, None])

    def test_page_is_one_file(self):
        page = page_of({"title": "<b>&{{data}}", "said": "</script><!--", "steps": []})
        self.assertIn("<title>&lt;b&gt;&amp;{{data}}", page)
        self.assertEqual(data_of(page)["said"], "</script><!--")
        self.assertEqual(page.count("</script>"), 2)
        self.assertNotIn("<", data_text("<>&"))
        self.assertEqual(re.findall(r"\b(?:src|href)=\"(?!#)", page), [])
        self.assertEqual(re.findall(r"https?://", page), [])

    def test_scripts_are_short(self):
        for name in (*SCRIPTS, "view.css", "page.html"):
            self.assertLessEqual(part(name).count("\n"), 400, name)


class Windows(unittest.TestCase):
    def window(self, first, most=20):
        window = Window(Machine(small_image()), first)
        fill(window, iter(enumerate(read_log(LOG.splitlines())[0], 1)), most)
        return window

    def test_from_a_cycle_on(self):
        window = self.window(4, 3)
        self.assertEqual(([cycle for cycle, _ in window.steps], window.goes_on, window.last), ([4, 5, 6], True, 6))
        self.assertEqual(window.machine.slots[0].registers[2], Word(0x41))
        self.assertFalse(self.window(4).goes_on)
        self.assertEqual((self.window(50).steps, self.window(50).last), ([], 49))

    def test_quiet_end_is_cut(self):
        lines = [LOG.splitlines()[0], *(f"t 1 {turn} blocked" for turn in range(1, 40)), "cycles 40"]
        window = Window(Machine(small_image()), 1, list(enumerate(read_log(lines)[0], 1)))
        window.report = Report(slots=[SlotState(1, 1, 39, "running", None, Word(0), False)])
        cut_quiet(window)
        self.assertEqual((len(window.steps), window.stuck), (QUIET_TURNS, True))

    def test_another_slot_may_go_on(self):
        lines = [LOG.splitlines()[0], "r 0 2 empty", *(f"t 1 {turn} blocked" for turn in range(1, 40)), "cycles 40"]
        window = Window(Machine(small_image()), 1, list(enumerate(read_log(lines)[0], 1)))
        window.report = Report(
            slots=[SlotState(slot, slot, 1, "running", None, Word(0), False) for slot in range(2)]
        )
        cut_quiet(window)
        self.assertEqual((len(window.steps), window.stuck), (40, False))


def linear(colour):
    parts = [int(colour[at : at + 2], 16) / 255 for at in (1, 3, 5)]
    return [each / 12.92 if each <= 0.04045 else ((each + 0.055) / 1.055) ** 2.4 for each in parts]


def lightness(colour):
    return sum(weight * each for weight, each in zip((0.2126, 0.7152, 0.0722), linear(colour)))


def contrast(one, other):
    high, low = sorted((lightness(one), lightness(other)), reverse=True)
    return (high + 0.05) / (low + 0.05)


def lab(rgb):
    """A colour by CIE L*a*b*, in which distances are what an eye sees."""
    red, green, blue = (min(1, max(0, each)) for each in rgb)
    parts = (
        (0.4124 * red + 0.3576 * green + 0.1805 * blue) / 0.9505,
        0.2126 * red + 0.7152 * green + 0.0722 * blue,
        (0.0193 * red + 0.1192 * green + 0.9505 * blue) / 1.089,
    )
    x, y, z = (each ** (1 / 3) if each > 0.008856 else 7.787 * each + 16 / 116 for each in parts)
    return 116 * y - 16, 500 * (x - y), 200 * (y - z)


def distance(one, other, eye):
    seen = [lab([sum(a * b for a, b in zip(row, linear(colour))) for row in eye]) for colour in (one, other)]
    return sum((a - b) ** 2 for a, b in zip(*seen)) ** 0.5


class Colours(unittest.TestCase):
    def themes(self):
        style = part("view.css")
        begin, dark = style.index(":root {"), style.index('[data-theme="dark"] {')
        light = dict(VARIABLE.findall(style[begin : style.index("}", begin)]))
        found = [light, dict(VARIABLE.findall(style[dark : style.index("}", dark)]))]
        by_wish = style.index(':not([data-theme="light"]) {')
        self.assertEqual(found[1], dict(VARIABLE.findall(style[by_wish : style.index("}", by_wish)])))
        self.assertEqual(set(found[0]), set(found[1]))
        return found

    def test_letters_can_be_read(self):
        for theme in self.themes():
            pairs = [("ink", "pane"), ("ink", "ground"), ("ink", "changed"), ("ink", "field"), ("soft", "pane")]
            pairs += [("soft", "ground"), ("soft", "field"), ("accent", "pane"), ("ink", "accent-soft"),
                ("on-bad", "bad")]
            pairs += [("on-tint", f"tint-{at}") for at in range(8)]
            for front, back in pairs:
                self.assertGreaterEqual(contrast(theme[front], theme[back]), 4.5, f"{front} on {back}")

    def test_boxes_stand_out(self):
        for theme in self.themes():
            for at in range(8):
                self.assertGreaterEqual(distance(theme[f"tint-{at}"], theme["pane"], PLAIN), 20)

    def test_tints_are_told_apart_by_every_eye(self):
        for theme in self.themes():
            for eye in (PLAIN, PROTAN, DEUTAN):
                for one in range(8):
                    for other in range(one):
                        self.assertGreaterEqual(
                            distance(theme[f"tint-{one}"], theme[f"tint-{other}"], eye), 18, (one, other)
                        )


# Pages that show no run of their own.
WITHOUT_RUN = ("README.md", "GRADING.md", "lab.md", "lab-answers.md")


class Links(unittest.TestCase):
    """Each lesson and each example leads to the page of its run."""

    def documents(self):
        for place in ("examples", os.path.join("examples", "c"), os.path.join("docs", "course")):
            for name in sorted(os.listdir(path_of(place))):
                if name.endswith(".md") and name not in WITHOUT_RUN:
                    yield os.path.join(place, name)

    def test_every_document_has_its_page(self):
        linked = set()
        for document in self.documents():
            found = re.findall(r"\]\(((?:\.\./)+(?:docs/)?view/(\w+)\.html)\)", read(document))
            self.assertTrue(found, f"{document} links to no page of its run")
            for path, name in found:
                self.assertTrue(os.path.exists(path_of(os.path.dirname(document), path)), f"{document}: {path}")
                linked.add(name)
        self.assertEqual(linked, set(pages()))

    def test_every_page_is_listed(self):
        listed = re.findall(r"\]\((\w+)\.html\)", read("docs", "view", "README.md"))
        self.assertEqual(sorted(listed), sorted(pages()))


class Spoiled(unittest.TestCase):
    def test_each_spoil_changes_its_page(self):
        for name, spoils in SPOILED.items():
            page = read("docs", "view", f"{name}.html")
            for said, spoiled in spoiled_pages(page, spoils):
                self.assertNotEqual(spoiled, page, said)


@needs_program
class Command(unittest.TestCase):
    def test_counter(self):
        ended = mm("view", "examples/counter.asm", "--audit")
        data = data_of(ended.out)
        self.assertEqual((ended.status, ended.err, data["cycles"], len(data["steps"])), (0, "", 36, 36))
        self.assertEqual([region["name"] for region in data["names"]["regions"]],
            ["cons", "prod", "gate", "box", "count"])
        self.assertEqual(data["names"]["sources"][0]["lines"], read("examples", "counter.asm").splitlines())
        self.assertEqual(data["audit"]["rows"][-1][0], "count")
        self.assertEqual(data["title"], "counter.asm")

    def test_faults_have_reasons(self):
        data = data_of(mm("view", "examples/faults.asm").out)
        self.assertEqual(sorted(data["why"]), ["18", "7"])
        self.assertIn("text+24", data["why"]["18"][0])

    def test_a_window_of_a_run(self):
        data = data_of(mm("view", "examples/counter.asm", "--from", "20", "--cycles", "30").out)
        self.assertEqual((data["first"], data["last"], data["goes_on"], len(data["steps"])), (20, 30, 0, 11))
        self.assertEqual(data["start"]["slots"][0]["state"], "halted")

    def test_a_run_that_waits_for_ever_ends(self):
        with folder() as room:
            source = write(room, "stuck.asm",
                ".segment a 4\n ld r2, r1, 0, full, keep\n halt\n.segment b 3\n .empty .int 0\n.thread 0 0 none xu a\n.reg 1 ptr rw b\n")
            data = data_of(mm("view", source).out)
        self.assertEqual((data["stuck"], data["goes_on"], len(data["steps"])), (1, 0, QUIET_TURNS))

    def test_refusals(self):
        self.assertEqual(mm("view", "examples/counter.asm", "--turns", "0 two").status, 2)
        self.assertEqual(mm("view", "examples/counter.asm", "--from", "x").status, 1)
        with folder() as room:
            path = os.path.join(room, "there", "page.html")
            self.assertEqual(mm("view", "examples/hello.asm", "-o", path).status, 4)
        net = mm("view", "examples/nodes.links", "examples/nodes.events", "examples/ask.asm", "examples/answer.asm")
        self.assertEqual((net.status, net.out), (1, ""))
        self.assertIn("this is a text for a net, but the command wants one machine", net.err)

    def test_lines_of_c(self):
        data = data_of(mm("view", "examples/c/overflow.asm").out)
        source, *files = data["names"]["sources"]
        self.assertEqual([file["path"] for file in files], ["examples/c/overflow.c", "examples/c/say.h"])
        self.assertEqual(files[0]["lines"], read("examples", "c", "overflow.c").splitlines())
        lines = data["names"]["c"]["lines"]
        made = {(files[place - 1]["lines"][line - 1].strip(), name) for place, line, name in lines}
        self.assertIn(("name[i] = from[i];", "read_name"), made)
        self.assertNotIn("c", source)


if __name__ == "__main__":
    unittest.main()
