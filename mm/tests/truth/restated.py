"""What `mm` and its page say of the machine by themselves, against the program: operations word by word, what `restrict` makes, the
numbers of causes, and limits."""

from __future__ import annotations

import json
import os
import shutil
import subprocess
from typing import Iterator

from mm.formats.image import read_image
from mm.formats.object import MOST_WORDS, object_of_words
from mm.formats.schedule import MOST as MOST_ITEMS
from mm.limits import IMAGE_LIMIT, INPUT_LIMIT, LINKS_LIMIT, OBJECT_LIMIT, TEXT_LIMIT
from mm.lockstep.dice import Dice
from mm.machine.causes import Cause
from mm.machine.isa import OPERATIONS, decode
from mm.machine.words import LONGEST, Permission, Pointer
from mm.tests.truth.facts import Asking
from mm.tests.truth.told import Report
from mm.view.data import tables
from mm.view.page import FOLDER
from mm.words import MOST_CYCLES, MOST_GROUP, MOST_STATES

# What a program meets that faults with each cause; of Sync alone no slot is halted.
CAUSES = {
    Cause.NOT_POINTER: "jmp r2", Cause.PERM: "st r3, r2, 0, any, keep", Cause.BOUNDS: "leai r3, r3, 4096",
    Cause.ALIGN: "ld r2, r3, 1, any, keep", Cause.ILLEGAL: ".int -1", Cause.PRIV: "map r2, r2", Cause.DIV_ZERO: "divu r2, r2, r2",
    Cause.MALFORMED: "restrict r2, r3, r2", Cause.TRAP: "trap 1", Cause.NO_SLOT: "resume r2, skip",
}
PAGE = """
globalThis.document = { getElementById: () => ({ textContent: JSON.stringify(%s) }) };
%s
const words = require("fs").readFileSync(0, "latin1").trim().split("\\n");
console.log(words.map((word) => { const it = instructionOf("i" + word); return it ? instructionText(it, "0x0") : ""; }).join("\\n"));
"""


def compare(asking: Asking, count: int) -> list[str]:
    """Compares all, and says what was left out."""
    asking.facts.case = "the machine"
    left = operations(asking, count)
    restrict(asking)
    causes(asking)
    limits(asking)
    outputs(asking)
    return left


def words(count: int) -> Iterator[int]:
    """Words near to instructions: each operation with random fields, some with a bit too many; and any words."""
    dice, numbers = Dice("words"), [operation.number for operation in OPERATIONS.values()]
    for at in range(count):
        number = numbers[at % len(numbers)] if at % 7 else dice.bits(8)
        fields = dice.bits(16) << 40 & dice.one([0xF << 52, 0xFF << 48, 0xFFF << 44, 0xFFFF << 40])
        low = dice.one([0, dice.bits(4), dice.bits(32), dice.bits(32)])
        yield number << 56 | fields | low | (1 << dice.below(64) if dice.chance(10) else 0)


def operations(asking: Asking, count: int) -> list[str]:
    """Each word by `dis`, by the table of `mm`, and by the script of its page."""
    ours = list(words(count))
    theirs: list[str] = []
    for at in range(0, count, MOST_WORDS):
        path = asking.file("words.obj", object_of_words(ours[at : at + MOST_WORDS]))
        lines = asking.raw("dis", path).splitlines()
        theirs += [line for line in lines if not line.startswith((".spare", ".segment"))]
    asking.facts.check("words of dis", len(theirs) == count, len(theirs))
    for bits, said in zip(ours, theirs):
        found = decode(bits)
        text = found.text() if found else f".int 0x{bits:016x}"
        asking.facts.check("operations", text == said, (text, said))
    node = shutil.which("node")
    if node is None:
        return ["truth: there is no node, so the script of the page is left out"]
    with open(os.path.join(FOLDER, "words.js"), encoding="utf-8") as file:
        script = PAGE % (json.dumps({"tables": tables(), "names": {"regions": [], "labels": []}}), file.read())
    path = asking.file("words.js", script.encode())
    said_words = "\n".join(f"{bits:016x}" for bits in ours).encode()
    ended = subprocess.run([node, path], input=said_words, capture_output=True, check=False)
    shown = ended.stdout.decode().split("\n")[:count]
    asking.facts.check("words of the page", ended.returncode == 0 and len(shown) == count, ended.stderr[-300:])
    for bits, said, text in zip(ours, theirs, shown):
        wanted = "" if said.startswith(".int") else said
        asking.facts.check("operations of the page", text == wanted, (text, said, hex(bits)))
    return []


def image_of(asking: Asking, source: str) -> str:
    made = asking.file("m.obj", asking.raw("asm", asking.file("m.asm", source.encode())).encode("latin-1"))
    return asking.file("m.img", asking.raw("link", made).encode("latin-1"))


def restrict(asking: Asking) -> None:
    """What each permission may become, by running `restrict` on each with each number to 15."""
    for permission in Permission:
        source = ".segment code 5\n restrict r3, r1, r2\n halt\n.segment data 5\n .int 0\n"
        for code in range(16):
            source += f".thread {code} 0 none xu code\n.reg 1 ptr {permission.short} data\n.reg 2 int {code}\n"
        report = Report(asking.raw("run", image_of(asking, source), 100))
        for code, slot in report.slots.items():
            wanted = Permission.of_code(code)
            made = slot["words"].get(3)
            pointer = Pointer.of_bits(int(made[1:], 16)) if made else None
            may = wanted in permission.may_become
            fault = None if may else Cause.PERM.number if wanted else Cause.MALFORMED.number
            right = slot["fault"] == fault and (pointer.permission if pointer else None) == (wanted if may else None)
            asking.facts.check("restrict", right, (permission, code, slot))


def causes(asking: Asking) -> None:
    """The number of each cause, by a program that meets it."""
    for cause, line in CAUSES.items():
        source = f".segment code 5\n {line}\n halt\n.thread 0 0 none xu code\n.reg 3 ptr ro code\n"
        report = Report(asking.raw("run", image_of(asking, source), 10))
        asking.facts.check("causes", report.slots[0]["fault"] == cause.number, (cause, report.slots))


def limits(asking: Asking) -> None:
    """The longest files, and one byte more; the greatest numbers, and one more."""
    image = image_of(asking, ".segment code 5\n halt\n.thread 0 0 none xu code\n")
    none = asking.file("none", b"")
    files = (
        ("run {} 0", IMAGE_LIMIT), ("dis {}", OBJECT_LIMIT), ("asm {}", TEXT_LIMIT), (f"run {image} 0 {{}}", TEXT_LIMIT),
        (f"net {{}} {none} 1 {image}", LINKS_LIMIT), (f"net {none} {{}} 1 {image}", TEXT_LIMIT),
        (f"continue {image} {{}} 1", IMAGE_LIMIT), (f"debug {image}", INPUT_LIMIT),
    )
    for command, limit in files:
        for more in (0, 1):
            refused = "too long" in line_of(asking, command, b"#" * (limit + more))
            asking.facts.check("lengths of files", refused == bool(more), (command, limit + more))
    numbers = (
        (f"run {image} {{}}", MOST_CYCLES), (f"explore {image} {{}}", MOST_STATES), (f"why {image} {{}} 0 touch", MOST_GROUP),
        (f"holders {image} 0 {{}}", LONGEST), (f"grants {image} {{}}", MOST_GROUP),
    )
    for command, most in numbers:
        for more in (0, 1):
            refused = "usage" in line_of(asking, command.format(most + more), b"")
            asking.facts.check("greatest numbers", refused == bool(more), (command, most + more))
    for more in (0, 1):
        refused = "schedule fault" in line_of(asking, f"run {image} 0 {{}}", f"0*{MOST_ITEMS} {'0' * more}".encode())
        asking.facts.check("items of a schedule", refused == bool(more), more)
        source = f".segment a 20\n .fill {MOST_WORDS + more}\n".encode()
        asking.facts.check("words of a source", bool(line_of(asking, "asm {}", source)) == bool(more), more)


def line_of(asking: Asking, command: str, data: bytes) -> str:
    """The line on standard error of a command with a file, or with a standard input."""
    path = asking.file("long", data)
    words = [path if word == "{}" else word for word in command.split()]
    given = data if "{}" not in command else b""
    ended = asking.watched.run([asking.program, *words], input=given, capture_output=True, check=False)
    return ended.stderr.decode("latin-1")


def outputs(asking: Asking) -> None:
    """How many bytes a group can put out, in an image of each version."""
    first = image_of(asking, ".segment code 5\nagain: out r2\n br again\n.thread 0 0 none xu code\n")
    second = asking.file("n.img", asking.raw("migrate", first, "plain").encode("latin-1"))
    for path in (first, second):
        with open(path, "rb") as file:
            limit = read_image(file.read()).output_limit
        report = Report(asking.raw("run", path, 2 * limit + 10))
        fault = report.slots[0]["fault"]
        asking.facts.check("output", (len(report.outputs[0]) // 2, fault) == (limit, Cause.OUT_FULL.number), (limit, fault))
