"""The table of operations. It stands here once: errors, `dis`, completion and help are made from it.

docs/INSTRUCTIONS.md has the table for readers; a test compares the two."""

from __future__ import annotations

from enum import Enum
from functools import lru_cache
from typing import Callable, Optional

from mm.records import dataclass


class Kind(Enum):
    """What may be written in the place of an operand, and the field of the word in which it is kept."""

    RD = ("rd", 52, "a register, r0 to r15")
    RA = ("ra", 48, "a register, r0 to r15")
    RB = ("rb", 44, "a register, r0 to r15")
    RD4 = ("rd", 52, "a register, r0 to r12, the first of four")
    IMM = ("imm", 0, "a number from -2^31 to 2^32 - 1")
    PLACE = ("imm", 0, "a label of the same segment, or a number of words")
    REGISTER = ("imm", 0, "the number of a register, 0 to 15")
    PRE = ("pre", 42, "any, full or empty: what the word's bit must be")
    POST = ("post", 40, "keep, full or empty: what the word's bit becomes")
    HOW = ("how", 40, "retry, skip or kill")

    def __init__(self, field: str, shift: int, wanted: str) -> None:
        self.field, self.shift, self.wanted = field, shift, wanted

    @property
    def is_register(self) -> bool:
        return self in REGISTERS

    @property
    def is_number(self) -> bool:
        return self in (Kind.IMM, Kind.PLACE, Kind.REGISTER)

    @property
    def choices(self) -> tuple[str, ...]:
        return CHOICES.get(self, ())


REGISTERS = (Kind.RD, Kind.RA, Kind.RB, Kind.RD4)
CHOICES = {
    Kind.PRE: ("any", "full", "empty"),
    Kind.POST: ("keep", "full", "empty"),
    Kind.HOW: ("retry", "skip", "kill"),
}
BRANCHES = ("br", "bz", "bnz", "lip")


@dataclass(frozen=True)
class Operation:
    """A row of the table: its number, its name, its operands in the order of a source, its tests, its effect, and an example."""

    number: int
    name: str
    operands: tuple[Kind, ...]
    tests: str
    effect: str
    example: str

    @property
    def usage(self) -> str:
        """How it is written, with names for its operands."""
        return " ".join(filter(None, [self.name, ", ".join(_SHOWN.get(kind, kind.field) for kind in self.operands)]))


_SHOWN = {
    Kind.IMM: "NUMBER",
    Kind.PLACE: "LABEL",
    Kind.REGISTER: "0..15",
    Kind.PRE: "any|full|empty",
    Kind.POST: "keep|full|empty",
    Kind.HOW: "retry|skip|kill",
}
_KINDS = {
    "rd": (Kind.RD,),
    "ra": (Kind.RA,),
    "rb": (Kind.RB,),
    "rd4": (Kind.RD4,),
    "imm": (Kind.IMM,),
    "place": (Kind.PLACE,),
    "register": (Kind.REGISTER,),
    "c": (Kind.PRE, Kind.POST),
    "how": (Kind.HOW,),
}
_ACCESS = "NotPointer Perm Bounds Align NoPage Sync"

# fmt: off
_ROWS = [
    (0x00, "halt", "", "", "the thread ends", "halt"),
    (0x01, "nop", "", "", "nothing", "nop"),
    (0x02, "ldi", "rd imm", "", "rd = the number", "ldi r1, 65"),
    (0x03, "ldhi", "rd imm", "", "rd = rd shifted left by 32, with the number's 32 bits below", "ldhi r1, 0x00100060"),
    (0x04, "mov", "rd ra", "", "rd = ra, with its tag", "mov r2, r1"),
    (0x05, "isptr", "rd ra", "", "rd = 1 if ra is a pointer, else 0", "isptr r2, r1"),
    (0x06, "eqw", "rd ra rb", "", "rd = 1 if ra and rb have the same tag and bits, else 0", "eqw r3, r1, r2"),
    (0x07, "out", "ra", "OutFull", "prints the low byte of ra", "out r1"),
    (0x08, "self", "rd", "", "rd = the slot's own number", "self r1"),
    (0x10, "add", "rd ra rb", "", "rd = ra + rb", "add r3, r1, r2"),
    (0x11, "sub", "rd ra rb", "", "rd = ra - rb", "sub r3, r1, r2"),
    (0x12, "mul", "rd ra rb", "", "rd = ra * rb", "mul r3, r1, r2"),
    (0x13, "divu", "rd ra rb", "DivZero", "rd = ra / rb, unsigned", "divu r3, r1, r2"),
    (0x14, "remu", "rd ra rb", "DivZero", "rd = the remainder of ra / rb, unsigned", "remu r3, r1, r2"),
    (0x15, "and", "rd ra rb", "", "rd = ra and rb, bit by bit", "and r3, r1, r2"),
    (0x16, "or", "rd ra rb", "", "rd = ra or rb, bit by bit", "or r3, r1, r2"),
    (0x17, "xor", "rd ra rb", "", "rd = ra exclusive or rb, bit by bit", "xor r3, r1, r2"),
    (0x18, "shl", "rd ra rb", "", "rd = ra shifted left by rb mod 64", "shl r3, r1, r2"),
    (0x19, "shr", "rd ra rb", "", "rd = ra shifted right by rb mod 64, with zeros", "shr r3, r1, r2"),
    (0x1A, "sar", "rd ra rb", "", "rd = ra shifted right by rb mod 64, with the sign", "sar r3, r1, r2"),
    (0x1B, "eq", "rd ra rb", "", "rd = 1 if the bits are equal, else 0", "eq r3, r1, r2"),
    (0x1C, "ltu", "rd ra rb", "", "rd = 1 if ra is less than rb, unsigned, else 0", "ltu r3, r1, r2"),
    (0x1D, "lts", "rd ra rb", "", "rd = 1 if ra is less than rb, signed, else 0", "lts r3, r1, r2"),
    (0x1E, "addi", "rd ra imm", "", "rd = ra + the number", "addi r1, r1, -1"),
    (0x20, "lea", "rd ra rb", "NotPointer Perm Bounds", "rd = the pointer ra moved by rb bytes", "lea r2, r1, r3"),
    (0x21, "leai", "rd ra imm", "NotPointer Perm Bounds", "rd = the pointer ra moved by the number of bytes", "leai r1, r1, 8"),
    (0x22, "leab", "rd ra rb", "NotPointer Perm Bounds", "rd = the pointer ra, rb bytes from its segment's base", "leab r2, r1, r3"),
    (0x23, "restrict", "rd ra rb", "NotPointer Malformed Perm", "rd = the pointer ra with the permission whose code is rb", "restrict r3, r1, r2"),
    (0x24, "subseg", "rd ra rb", "NotPointer Perm Bounds", "rd = the pointer ra with the shorter segment of 2^rb bytes", "subseg r3, r1, r2"),
    (0x25, "setptr", "rd ra", "Priv Malformed", "rd = the pointer that the bits of ra spell", "setptr r2, r1"),
    (0x30, "ld", "rd ra imm c", _ACCESS, "rd = the word at ra + the number, with its tag; its bit becomes the last operand", "ld r2, r1, 0, any, keep"),
    (0x31, "st", "ra rb imm c", _ACCESS, "the word at ra + the number = rb, with its tag; its bit becomes the last operand", "st r1, r2, 0, any, keep"),
    (0x40, "br", "place", "Bounds", "go to the label", "br again"),
    (0x41, "bz", "ra place", "Bounds", "go to the label if ra is 0", "bz r1, done"),
    (0x42, "bnz", "ra place", "Bounds", "go to the label if ra is not 0", "bnz r1, again"),
    (0x43, "jmp", "ra", "NotPointer Perm", "go to where the pointer ra points; through an enter pointer this enters a gate", "jmp r6"),
    (0x44, "jal", "rd ra", "NotPointer Perm Bounds", "rd = the pointer to the next instruction; go to where the pointer ra points", "jal r6, r5"),
    (0x45, "lip", "rd place", "Bounds", "rd = the instruction pointer at the label", "lip r7, table"),
    (0x50, "trap", "imm", "Trap", "a fault, always: the handler gets the number", "trap 1"),
    (0x51, "evt", "rd4", "", "takes the oldest event of its own queue into rd and the three registers after it; waits until there is one", "evt r4"),
    (0x52, "resume", "ra how", "NoSlot", "the slot ra goes on: at the same instruction, after it, or never", "resume r1, skip"),
    (0x53, "rreg", "rd ra register", "NoSlot", "rd = a register of the slot ra", "rreg r1, r2, 15"),
    (0x54, "wreg", "ra rb register", "NoSlot", "a register of the slot ra = rb", "wreg r1, r2, 15"),
    (0x60, "map", "rd ra", "Priv Bounds", "maps the page ra; rd = 1, or 0 if it cannot", "map r2, r1"),
    (0x61, "unmap", "rd ra", "Priv Bounds", "removes the page ra; rd = 1, or 0 if it is not there", "unmap r2, r1"),
]
# fmt: on

OPERATIONS = {
    name: Operation(
        number, name, tuple(kind for word in fields.split() for kind in _KINDS[word]), tests, effect, example
    )
    for number, name, fields, tests, effect, example in _ROWS
}
BY_NUMBER = {operation.number: operation for operation in OPERATIONS.values()}


@dataclass(frozen=True)
class Instruction:
    """An operation with the values of its operands, in the order of a source. Conditions and ways are their places among the choices."""

    operation: Operation
    values: tuple[int, ...]

    @property
    def name(self) -> str:
        return self.operation.name

    def value(self, field: str) -> int:
        """The value of the operand that is kept in a field."""
        return next(value for kind, value in zip(self.operation.operands, self.values) if kind.field == field)

    def has(self, field: str) -> bool:
        return any(kind.field == field for kind in self.operation.operands)

    def choice(self, field: str) -> str:
        kind = next(kind for kind in self.operation.operands if kind.field == field)
        return kind.choices[self.value(field)]

    def text(self, place: Optional[Callable[[int], str]] = None) -> str:
        """How a source has it. `place` gives the name of a label for a distance in words."""
        return " ".join(
            filter(
                None,
                [
                    self.name,
                    ", ".join(
                        self._operand(kind, value, place) for kind, value in zip(self.operation.operands, self.values)
                    ),
                ],
            )
        )

    def _operand(self, kind: Kind, value: int, place: Optional[Callable[[int], str]]) -> str:
        if kind.is_register:
            return f"r{value}"
        if kind.choices:
            return kind.choices[value]
        return place(value) if place and kind is Kind.PLACE else str(value)


def _value_in(kind: Kind, bits: int) -> int:
    if kind.is_number:
        low = bits & 0xFFFFFFFF
        return low - (1 << 32) if low >> 31 else low
    return bits >> kind.shift & (3 if kind.choices else 15)


def _legal(kind: Kind, value: int) -> bool:
    if kind.choices:
        return value < len(kind.choices)
    return value <= 12 if kind is Kind.RD4 else 0 <= value <= 15 if kind is Kind.REGISTER else True


def encode(instruction: Instruction) -> int:
    """The one word that spells an instruction."""
    bits = instruction.operation.number << 56
    for kind, value in zip(instruction.operation.operands, instruction.values):
        bits |= (value & 0xFFFFFFFF) << kind.shift
    return bits


@lru_cache(maxsize=1 << 14)
def decode(bits: int) -> Optional[Instruction]:
    """The instruction that 64 bits spell, or none."""
    operation = BY_NUMBER.get(bits >> 56)
    if operation is None:
        return None
    found = Instruction(operation, tuple(_value_in(kind, bits) for kind in operation.operands))
    legal = all(_legal(kind, value) for kind, value in zip(operation.operands, found.values))
    return found if legal and encode(found) == bits else None
