"""Random code: instructions whose operands mostly suit them, loops of slots that handle faults, and gates.

Registers have their uses at first, which instructions mostly keep to: 0 to 4 and 7 hold integers, 5 and 6 pointers to
jump through, 8 to 11 pointers, 12 a slot's number, 13 a page's, 14 a pointer to a table of pointers and 15 one to
data."""

from __future__ import annotations

from typing import AbstractSet, Callable

from mm.lockstep.world import World
from mm.machine.isa import OPERATIONS, Instruction, Kind, decode, encode
from mm.machine.words import Word

INTEGERS, POINTERS, JUMPS = (0, 1, 2, 3, 4, 7), (8, 9, 10, 11, 14, 15), (5, 6, 11)
SLOT, PAGE, ANY = (12,), (13,), tuple(range(16))
TABLE_REGISTER = 14
# What the operands ra and rb of an operation are; integers where nothing is said.
USES: dict[str, tuple[tuple[int, ...], tuple[int, ...]]] = {
    **dict.fromkeys(("lea", "leai", "leab", "restrict", "subseg", "ld"), (POINTERS, INTEGERS)),
    **dict.fromkeys(("st",), (POINTERS, ANY)),
    **dict.fromkeys(("mov", "isptr", "eqw", "out", "setptr"), (ANY, ANY)),
    **dict.fromkeys(("jmp", "jal"), (JUMPS, ANY)),
    **dict.fromkeys(("resume", "rreg", "wreg"), (SLOT, ANY)),
    **dict.fromkeys(("map", "unmap"), (PAGE, ANY)),
}
RESULTS = [((0, 1, 2, 3, 7), 66), ((8, 9, 10, 11), 22), ((4,), 5), ((5, 6), 3), ((12, 13), 3), ((14, 15), 1)]
# How often an operation comes; 3 where nothing is said.
OFTEN = {
    **{"halt": 1, "nop": 2, "ldi": 11, "mov": 6, "isptr": 4, "eqw": 4, "out": 6, "addi": 4, "ld": 45, "st": 30},
    **{"lea": 7, "leai": 8, "leab": 7, "restrict": 9, "subseg": 7, "setptr": 5, "jal": 6, "bz": 4, "bnz": 4, "lip": 4},
    **{"trap": 4, "evt": 0, "rreg": 4, "wreg": 4, "map": 4, "unmap": 4},
}
WEIGHTS = [(name, OFTEN.get(name, 3)) for name in OPERATIONS]
OFFSETS = [
    *((0, 30), (8, 12), (16, 8), (24, 6), (40, 4), (56, 4), (-8, 6), (-16, 2), (4, 2), (1, 1), (4096, 2), (-4096, 1)),
]
# Numbers that suit the last operand of an operation: permissions, lengths and distances.
SUITABLE = {"restrict": range(9), "subseg": range(14), "lea": range(-16, 72, 8), "leab": range(0, 72, 8)}
FAR = [1 << 31, (1 << 31) - 1, 0xFFFFFFFF - 63, 64, 100, 511, 512]
ALL = frozenset(OPERATIONS)


def operations_in(text: str) -> frozenset[str]:
    """The operations of a text, names between commas; ValueError if it has another name."""
    names = frozenset(text.replace(" ", "").split(","))
    unknown = sorted(names - ALL)
    if unknown:
        raise ValueError(f"there is no operation `{unknown[0]}`")
    return names


class Coder:
    """Makes words of code for a world, with some of the operations or all."""

    def __init__(self, world: World, names: AbstractSet[str] = ALL) -> None:
        self.world, self.dice, self.names = world, world.dice, names
        self.weights = [(name, often) for name, often in WEIGHTS if name in names]
        if not any(often for _, often in self.weights):
            self.weights = [(name, 1) for name, _ in self.weights]
        # The register that was loaded last: in a split machine it has to be waited for.
        self.loaded = 8
        self.values: dict[Kind, Callable[[str], int]] = {
            Kind.RD: lambda _: self.result(),
            Kind.RD4: lambda _: self.dice.weighed([(0, 6), (8, 1), (self.dice.below(13), 3)]),
            Kind.RA: lambda name: self.register(USES.get(name, (INTEGERS, INTEGERS))[0]),
            Kind.RB: lambda name: self.register(USES.get(name, (INTEGERS, INTEGERS))[1]),
            Kind.IMM: self.number,
            Kind.PLACE: lambda _: self.distance(),
            Kind.REGISTER: lambda _: self.dice.below(16),
            Kind.PRE: lambda _: self.dice.weighed([(0, 60), (1, 24), (2, 16)]),
            Kind.POST: lambda _: self.dice.weighed([(0, 52), (1, 24), (2, 24)]),
            Kind.HOW: lambda _: self.dice.weighed([(0, 20), (1, 72), (2, 8)]),
        }

    def register(self, usual: tuple[int, ...]) -> int:
        if self.dice.chance(8):
            return self.loaded
        return self.dice.one(usual if self.dice.chance(91) else ANY)

    def result(self) -> int:
        return self.dice.one(self.dice.weighed(RESULTS))

    def number(self, name: str) -> int:
        """The number of an instruction: an offset of an access, else any."""
        dice = self.dice
        if name in ("ld", "st", "leai"):
            return dice.weighed(OFFSETS) if dice.chance(96) else dice.one(FAR)
        far = dice.one([(1 << 31) - 1, 1 << 31, dice.bits(32)])
        return dice.weighed([(dice.below(17), 5), (-1, 2), (dice.below(64) - 32, 2), (far, 2)])

    def distance(self) -> int:
        """How many words a branch goes: mostly few, forwards or back."""
        dice = self.dice
        near, back, some = dice.between(1, 3), -dice.between(1, 6), dice.between(-40, 40)
        return dice.weighed([(near, 74), (back, 12), (0, 1), (dice.one(FAR), 5), (some, 8)])

    def spell(self, name: str, *values: int) -> Word:
        return Word(encode(Instruction(OPERATIONS[name], values)))

    def instruction(self) -> Word:
        """An instruction; often one that loads a pointer from a table, so that registers have some."""
        if self.dice.chance(7) and "ld" in self.names:
            return self.spell("ld", self.dice.between(8, 11), TABLE_REGISTER, 8 * self.dice.below(8), 0, 0)
        # A slot that handles no faults waits for ever at `evt`, so that is seldom met.
        seldom = self.dice.below(6000) == 0 and "evt" in self.names
        name = "evt" if seldom else self.dice.weighed(self.weights)
        values = [self.values[kind](name) for kind in OPERATIONS[name].operands]
        if name == "ld":
            self.loaded = values[0]
        return self.spell(name, *values)

    def fitting(self, words: list[Word]) -> list[Word]:
        """Words of code with the instructions of other operations replaced."""
        return [word if self.fits(word) else self.instruction() for word in words]

    def fits(self, word: Word) -> bool:
        found = None if word.tagged else decode(word.bits)
        return found is None or found.name in self.names

    def back(self, words: int) -> Word:
        """A branch back by some words: one that is always taken, or mostly."""
        if "br" in self.names or "bnz" not in self.names:
            return self.spell("br", -words)
        return self.spell("bnz", 15, -words)

    def junk(self) -> Word:
        """A word that is hardly an instruction: another bit of one, a pointer, or anything."""
        dice = self.dice
        near = Word(self.instruction().bits ^ 1 << dice.below(64))
        return dice.weighed([(near, 5), (Word(dice.bits(64)), 2), (self.world.word(), 3)])

    def compared(self) -> list[Word]:
        """A comparison of a word with a copy of it, or with the integer of its bits."""
        dice, spell, of = self.dice, self.spell, self.register(ANY)
        copy = spell("mov", 4, of) if dice.chance(40) else spell("addi", 4, of, 0)
        both = (of, 4) if dice.chance(50) else (4, of)
        return [copy, spell(dice.one(("eqw", "eqw", "eq", "ltu", "lts", "sub")), self.result(), *both)]

    def suited(self) -> list[Word]:
        """An operation on a pointer, with a number that suits it."""
        name = self.dice.one(list(SUITABLE))
        number = self.spell("ldi", 4, self.dice.one(SUITABLE[name]))
        return [number, self.spell(name, self.result(), self.register(POINTERS), 4)]

    def lines(self, words: int) -> list[Word]:
        """So many words of code."""
        code: list[Word] = []
        while len(code) < words:
            if self.dice.chance(8):
                code += self.compared() if self.dice.chance(25) else self.suited()
            else:
                code.append(self.junk() if self.dice.chance(3) else self.instruction())
        return code[:words]

    def worker(self, words: int) -> list[Word]:
        """Instructions, mostly in a loop. A call in the last word has no place to come back to."""
        code = self.lines(words)
        again, call = self.back(words - 1), self.spell("jal", 6, self.register((5, 5, *POINTERS)))
        code[-1] = self.dice.weighed([(again, 90), (call, 5), (code[-1], 5)])
        return code

    def serve(self) -> list[Word]:
        """What a slot that handles faults does with an event of registers 0 to 3, once the slot's number is in 12."""
        dice, spell, code = self.dice, self.spell, []
        for _ in range(dice.weighed([(0, 5), (1, 4), (2, 2), (3, 1)])):
            code.append(
                dice.weighed([
                    (spell("rreg", dice.between(7, 11), 12, dice.below(16)), 3),
                    (spell("wreg", 12, dice.between(7, 11), dice.below(16)), 2),
                    (spell("wreg", 12, dice.one((14, 15)), dice.between(8, 11)), 4),
                    (spell("ld", dice.between(8, 11), TABLE_REGISTER, 8 * dice.below(8), 0, 0), 2),
                    (self.instruction(), 1),
                ])
            )
        return code

    def pager(self) -> list[Word]:
        """Maps the page of the address operand: bits 53 to 12 of register 2."""
        spell = self.spell
        up, down = (spell("ldi", 4, 10), spell("shl", 13, 2, 4)), (spell("ldi", 4, 22), spell("shr", 13, 13, 4))
        return [*up, *down, spell("map", 7, 13), spell("ldi", 4, 8)]

    def service(self, pages: bool) -> list[Word]:
        """Takes an event and lets its slot go on: mostly after the instruction that faulted. Register 4 is 8."""
        dice, spell = self.dice, self.spell
        code = [spell("evt", 0), spell("shr", 12, 0, 4)]
        code += self.pager() if pages and dice.chance(30) else []
        code += self.serve()
        if dice.chance(4):
            # The number is no slot's then, or is waited for in a split machine.
            far = spell("addi", 12, 12, dice.one((64, 128, 256, 65536)))
            code.append(dice.one((far, spell("ld", 12, 15, 0, 0, 0))))
        if dice.chance(97):
            code.append(spell("resume", 12, dice.weighed([(0, 10), (1, 87), (2, 3)])))
        return code

    def kernel(self, words: int, pages: bool) -> list[Word]:
        """A loop that takes events, each in another way, as far as there is room."""
        code = [self.spell("ldi", 4, 8)]
        while len(code) + 14 < words:
            code += self.service(pages)
        code.append(self.back(len(code) - 1))
        return code + self.lines(words - len(code))

    def gate(self, words: int) -> list[Word]:
        """A pointer, and code after it that uses it and goes back to its caller."""
        code = [Word(self.world.pointer().bits, True), self.spell("lip", 7, -1)]
        code.append(self.spell("ld", 8, 7, 0, 0, 0))
        code += self.lines(words - 5)
        return [*code, self.spell("jmp", 6), self.spell("br", -len(code))]

    def flood(self, words: int) -> list[Word]:
        """A loop that puts out bytes, as many as a group may."""
        return [self.spell("out", self.dice.below(16)) for _ in range(words - 1)] + [self.spell("br", 1 - words)]
