"""Random programs: sources with names, in which pages come and go, code changes itself and fetches fault; and images."""

from __future__ import annotations

from dataclasses import dataclass, field
from typing import Optional

from mm.lockstep.case import case_of, schedule_text
from mm.lockstep.dice import Dice

# Words of instructions that code stores into itself: `ldi r3, 99`, `halt`, `nop`, one that is none, `br` to itself.
CODES = (0x0230000000000063, 0, 0x0100000000000000, 0xFF00000000000000, 0x4000000000000000)
# What a thread begins with: r1 data, r2 a number, r3 its own code, r4 that code to write, r5 a gate, r6 to r8 numbers.
LINES = [
    ("ld r{any}, r1, {place}, any, keep", 8), ("st r1, r{any}, {place}, any, keep", 8),
    ("ld r{any}, r1, {place}, full, empty", 4), ("st r1, r{any}, {place}, empty, full", 4),
    ("st r4, r{code}, {word}, any, keep", 7), ("addi r{any}, r{any}, {number}", 6), ("ldi r{any}, {number}", 5),
    ("add r{any}, r{any}, r{any}", 3), ("divu r{any}, r2, r{any}", 2), ("out r{any}", 4), ("nop", 2),
    ("bz r{any}, {label}", 5), ("bnz r{any}, {label}", 4), ("br {label}", 2), ("jmp r3", 1), ("jal r9, r5", 3),
    ("lip r{any}, {label}", 2), ("leai r{any}, r{pointer}, {move}", 5), ("lea r1, r1, r{any}", 1),
    ("lip r10, {label}\n leai r10, r10, {odd}\n jmp r10", 2), ("mov r{any}, r{pointer}", 3),
    ("subseg r{any}, r{pointer}, r2", 1), ("restrict r{any}, r{pointer}, r2", 2), ("setptr r10, r7", 1),
    ("map r{any}, r6", 4), ("unmap r{any}, r6", 4), ("map r{any}, r11", 2), ("unmap r{any}, r11", 3),
    ("trap {number}", 1), ("self r{any}", 1), ("isptr r{any}, r{pointer}", 1), ("halt", 1), (".int {number}", 1),
]
# How many words full code has. No instruction of the table makes more than three.
FULL, FULL_LOG = 16, 7
# How often a loud program puts out eight bytes at first. A line of a report has 32.
LOUD = 10
HANDLER = "again: evt r4\n resume r5, {how}\n br again"


@dataclass(frozen=True)
class Program:
    """A program: a source or an image, and the items of a schedule if it is not round robin."""

    name: str
    source: Optional[str] = None
    image: Optional[bytes] = None
    split: bool = False
    items: Optional[tuple[int, ...]] = None

    @property
    def schedule(self) -> bytes:
        return schedule_text(self.items or ()).encode()


@dataclass
class Writer:
    """Writes a random source. `full` has code up to the last word of its segment, so that threads run past the end; `loud` begins
    with a loop that puts out more bytes than a line of a report has."""

    dice: Dice
    full: bool = False
    loud: bool = False
    lines: list[str] = field(default_factory=list)

    def instruction(self, labels: list[str], words: int) -> str:
        dice = self.dice
        found = dice.weighed(LINES)
        choices = {
            "any": lambda: dice.between(2, 12), "pointer": lambda: dice.one([1, 1, 3, 4, 5]), "code": lambda: dice.one([7, 8, 2]),
            "place": lambda: dice.one([0, 0, 8, 8, 16, 24, 4, 4096, -8]), "word": lambda: 8 * dice.below(words),
            "number": lambda: dice.one([0, 1, 2, 3, 65, 77, -1, 4096]), "label": lambda: dice.one(labels),
            "move": lambda: dice.one([8, 8, 16, -8, 4, 64]), "odd": lambda: dice.one([0, 4, 8, 1]),
        }
        for name, choose in choices.items():
            while f"{{{name}}}" in found:
                found = found.replace(f"{{{name}}}", str(choose()), 1)
        return found

    def full_code(self, slot: int) -> None:
        labels = [f"s{slot}l0"]
        made = [self.instruction(labels, FULL) for _ in range(self.dice.between(1, 4))]
        words = "\n".join(made).count("\n") + 1
        self.lines += [f".segment code{slot} {FULL_LOG}", f"{labels[0]}: {made[0]}", *(f" {each}" for each in made[1:])]
        self.lines += [" nop"] * (FULL - words)

    def code(self, slot: int) -> None:
        if self.full:
            return self.full_code(slot)
        dice, count = self.dice, self.dice.between(5, 18)
        log = 12 if dice.chance(30) else 8 if count < 10 and not self.loud else 9
        labels = [f"s{slot}l{place}" for place in range(0, count, 3)]
        self.lines.append(f".segment code{slot} {log}")
        if self.loud and slot == 0:
            self.lines += [f" ldi r12, {LOUD}", "loud: out r12", *[" out r12"] * 7, " addi r12, r12, -1", " bnz r12, loud"]
        for place in range(count):
            label = f"{labels[place // 3]}: " if place % 3 == 0 else " "
            self.lines.append(label + self.instruction(labels, count))
        if dice.chance(80):
            self.lines.append(" halt")

    def thread(self, slot: int, group: int, handler: Optional[int]) -> None:
        dice = self.dice
        mode = "xp" if dice.chance(50) else "xu"
        self.lines.append(f".thread {slot} {group} {'none' if handler is None else handler} {mode} code{slot}")
        data = f"data{dice.below(2)}"
        self.lines += [
            f".reg 1 ptr {dice.one(['rw', 'rw', 'rw', 'ro'])} {data}", f".reg 2 int {dice.one([1, 2, 3, 7, 65])}",
            f".reg 3 ptr {mode} code{slot}", f".reg 4 ptr rw code{dice.one([slot, slot, 0])}",
            f".reg 5 ptr eu {dice.one(['gate', 'gate', 'gate + 8'])}", f".reg 6 int {dice.one([0x100, 0x101, 0x102, 0x200])}",
            f".reg 7 int {dice.one(CODES)}", f".reg 8 int {dice.one(CODES)}", f".reg 11 int {dice.one([0x100, 0x101])}",
        ]

    def text(self) -> str:
        dice = self.dice
        count = dice.between(1, 4)
        handled = count > 1 and dice.chance(40)
        for slot in range(count - handled):
            self.code(slot)
        if handled:
            self.lines += [f".segment code{count - 1} 6", *HANDLER.format(how=dice.one(["skip", "retry", "kill"])).split("\n")]
        self.lines += [".segment gate 6", " addi r12, r12, 1", " jmp r9", " halt"]
        for number in range(2):
            log = 12 if dice.chance(60) else 5
            self.lines.append(f".segment data{number} {log}")
            self.lines += [f" {'.empty ' if dice.chance(20) else ''}.int {dice.below(70)}" for _ in range(4)]
            self.lines += [f"inner{number}: .ptr ro data0"] * (log == 12)
        self.lines.append(f".spare {dice.below(3)}")
        for slot in range(count):
            self.thread(slot, dice.below(2), count - 1 if handled and slot < count - 1 else None)
        return "\n".join(self.lines) + "\n"


def items_for(dice: Dice, slots: list[int], split: bool) -> tuple[int, ...]:
    """Items of slots, some that are not there, and of ports where loads are split."""
    known = [*slots, *slots, *slots, 77] + ([128 + slot for slot in slots] * 2 if split else [])
    return tuple(dice.one(known) for _ in range(dice.one([3, 40, 400])))


def program_of(seed: int, number: int) -> Program:
    """The program of a number: three of five are sources."""
    dice = Dice(f"truth {seed} {number}")
    if number % 5 < 3:
        source, split = Writer(dice, number % 5 == 1, number % 5 == 2).text(), dice.chance(25)
        slots = list(range(source.count("\n.thread ")))
        items = items_for(dice, slots, split) if dice.chance(45) else None
        return Program(f"{seed}-{number}", source, None, split, items)
    case = case_of(seed, number)
    return Program(f"{seed}-{number}", None, case.image, False, case.items if dice.chance(60) else None)
