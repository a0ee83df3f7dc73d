"""The plain operations and those of integers."""

from case import ALL_DATA, DATA, does, fails, runs
from images import WORDS, Slot, pointer

MOST, HIGH = WORDS - 1, 1 << 63
OTHER = pointer("ro", 3, DATA + 8)
# What the operations of two registers are given, by the name of what it shows.
GIVEN = {
    "add": {"small": (2, 3), "carries-out": (MOST, 1), "into-the-sign": (HIGH - 1, 1), "two-signs": (HIGH, HIGH)},
    "sub": {"small": (5, 3), "borrows": (0, 1), "out-of-the-sign": (HIGH, 1), "itself": (MOST, MOST)},
    "mul": {"small": (6, 7), "wraps": (1 << 32, 1 << 32), "most": (MOST, MOST), "high-half-is-lost": (HIGH + 1, 3)},
    "divu": {
        "small": (7, 2),
        "is-unsigned": (MOST, 2),
        "by-the-most": (MOST - 1, MOST),
        "by-one": (MOST, 1),
        "of-zero": (0, 5),
        "minus-one-by-minus-one": (MOST, MOST),
        "least-by-minus-one": (HIGH, MOST),
        "by-a-high-half": (MOST, 1 << 32),
        "by-more-than-32-bits": (MOST, (3 << 33) + 5),
        "of-less-by-a-high-half": ((1 << 32) - 1, 1 << 32),
    },
    "remu": {
        "small": (7, 2),
        "is-unsigned": (MOST, 10),
        "by-the-most": (MOST - 1, MOST),
        "by-one": (MOST, 1),
        "of-zero": (0, 5),
        "least-by-minus-one": (HIGH, MOST),
        "by-a-high-half": (MOST, 1 << 32),
        "by-more-than-32-bits": (MOST, (3 << 33) + 5),
        "of-less-by-a-high-half": ((1 << 32) - 1, 1 << 32),
    },
    "and": {"some": (0b1100, 0b1010), "none": (MOST, 0), "all": (MOST, MOST), "high": (HIGH + 1, HIGH)},
    "or": {"some": (0b1100, 0b1010), "none": (0, 0), "all": (MOST, 0), "high": (HIGH, 1)},
    "xor": {"some": (0b1100, 0b1010), "itself": (MOST, MOST), "all": (MOST, 0), "high": (HIGH, HIGH + 1)},
    "eq": {"same": (5, 5), "other": (5, 6), "other-high": (5, HIGH + 5), "other-half": (5, (1 << 32) + 5)},
    "ltu": {"less": (1, 2), "same": (2, 2), "greater": (2, 1), "is-unsigned": (1, MOST), "most-is-not-less": (MOST, 0),
            "the-top-bit-alone-is-not-less": (HIGH, 0), "than-the-top-bit-alone": (0, HIGH)},
    "lts": {
        "less": (1, 2),
        "same": (2, 2),
        "greater": (2, 1),
        "is-signed": (1, MOST),
        "least": (HIGH, HIGH - 1),
        "minus-one-is-less": (MOST, 0),
        "the-top-bit-alone-is-less": (HIGH, 0),
        "than-the-top-bit-alone": (0, HIGH),
    },
}
# What each operation leaves of a pointer whole: its result has the pointer's bits, and is an integer.
WHOLE = {"add": 0, "sub": 0, "mul": 1, "divu": 1, "and": MOST, "or": 0, "xor": 0, "shl": 0, "shr": 0, "sar": 0}
SHIFTS = {
    "by-none": (HIGH + 5, 0),
    "by-one": (HIGH + 5, 1),
    "by-31": (HIGH + 5, 31),
    "by-32": (HIGH + 5, 32),
    "by-63": (HIGH + 5, 63),
    "by-64-is-by-none": (HIGH + 5, 64),
    "by-65-is-by-one": (HIGH + 5, 65),
    "by-most-is-by-63": (HIGH + 5, MOST),
    "without-a-sign": (HIGH - 1, 4),
    "low-byte-of-the-amount-is-not-enough": (HIGH + 5, 128 + 3),
}
GIVEN.update({name: SHIFTS for name in ("shl", "shr", "sar")})
IMMEDIATES = {
    "of-none": (7, 0),
    "of-minus-one": (7, -1),
    "most": (1, 2**31 - 1),
    "least": (1, -(2**31)),
    "carries-out": (MOST, 1),
    "borrows": (0, -1),
    "extends-the-sign": (1 << 40, -(2**31)),
}


def of_two_registers():
    for name, given in GIVEN.items():
        for what, (a, b) in given.items():
            yield does(f"{name}-{what}", f"{name} r3, r1, r2", {1: a, 2: b})
        yield does(f"{name}-of-pointers-is-an-integer", f"{name} r3, r1, r2", {1: ALL_DATA, 2: OTHER})
        yield does(f"{name}-of-one-register", f"{name} r5, r5, r5", {5: HIGH + 6})
        yield does(f"{name}-into-its-first", f"{name} r1, r1, r2", {1: HIGH + 6, 2: 3})
        yield does(f"{name}-into-its-second", f"{name} r2, r1, r2", {1: HIGH + 6, 2: 3})
        yield does(f"{name}-of-the-last-registers", f"{name} r15, r14, r13", {15: ALL_DATA, 14: 9, 13: 4})
    for name, other in WHOLE.items():
        yield does(f"{name}-that-leaves-a-pointer's-bits-is-an-integer", f"{name} r3, r1, r2", {1: ALL_DATA, 2: other})
        if name in ("add", "mul", "and", "or", "xor"):
            yield does(
                f"{name}-that-leaves-its-second's-bits-is-an-integer", f"{name} r3, r2, r1", {1: ALL_DATA, 2: other}
            )
    yield does("remu-that-leaves-a-pointer's-bits-is-an-integer", "remu r3, r1, r2", {1: ALL_DATA, 2: MOST})
    for name in ("eq", "ltu", "lts", "sub", "xor"):
        yield does(f"{name}-of-equal-bits-with-other-tags", f"{name} r3, r1, r2", {1: ALL_DATA, 2: ALL_DATA.bits})
        yield does(f"{name}-of-equal-bits-with-tags-the-other-way", f"{name} r3, r2, r1", {1: ALL_DATA, 2: ALL_DATA.bits})
    for name in ("divu", "remu"):
        yield fails(f"{name}-by-zero", "DivZero", f"{name} r3, r1, r2", {1: 7, 2: 0, 3: 1})
        yield fails(f"{name}-zero-by-zero", "DivZero", f"{name} r3, r1, r2", {})


def of_a_number():
    for what, (a, number) in IMMEDIATES.items():
        yield does(f"addi-{what}", f"addi r3, r1, {number}", {1: a})
    yield does("addi-that-leaves-a-pointer's-bits-is-an-integer", "addi r3, r1, 0", {1: ALL_DATA})
    yield does("addi-of-a-pointer-is-an-integer", "addi r3, r1, 8", {1: ALL_DATA})
    yield does("addi-into-its-register", "addi r1, r1, 8", {1: 5})
    for what, number in {"none": 0, "most": 2**31 - 1, "least": -(2**31), "minus-one": -1}.items():
        yield does(f"ldi-{what}", f"ldi r3, {number}", {3: HIGH + 5})
        yield does(f"ldhi-{what}", f"ldhi r3, {number}", {3: (3 << 32) + 0x89ABCDEF})
    yield does("ldi-drops-a-tag", "ldi r1, 1", {1: ALL_DATA})
    yield does("ldhi-of-a-pointer-is-an-integer", "ldhi r1, 1", {1: ALL_DATA})
    yield does("ldhi-twice", "ldhi r15, -2; ldhi r15, 3", {15: 1})


def plain():
    yield does("halt-stays", "halt", shows="state 0 halted")
    yield runs("halt-for-good", [Slot(0, ("halt", "nop"))], "0*3", ["t 0 1 did"])
    yield does("nop-changes-no-register", "nop", {register: register for register in range(16)})
    for what, word in {
        "an-integer": HIGH + 5,
        "a-pointer": ALL_DATA,
        "bits-of-a-pointer": ALL_DATA.bits,
        "a-key": pointer("key", 54, 0),
    }.items():
        yield does(f"mov-{what}", "mov r3, r1", {1: word, 3: 7})
        yield does(f"isptr-{what}", "isptr r3, r1", {1: word, 3: 7})
        yield does(f"out-{what}", "out r1", {1: word})
        yield does(f"eqw-{what}-and-itself", "eqw r3, r1, r2", {1: word, 2: word})
        yield does(f"eqw-{what}-and-zero", "eqw r3, r1, r2", {1: word})
    yield does("mov-over-a-pointer", "mov r3, r1", {1: 7, 3: ALL_DATA})
    yield does("mov-to-itself", "mov r1, r1", {1: ALL_DATA})
    yield does("mov-to-the-last-register", "mov r15, r0", {0: 7})
    yield does("isptr-of-itself", "isptr r1, r1", {1: ALL_DATA})
    yield does("eqw-same-bits-other-tag", "eqw r3, r1, r2", {1: ALL_DATA, 2: ALL_DATA.bits})
    yield does("eqw-other-tag-same-bits", "eqw r3, r2, r1", {1: ALL_DATA, 2: ALL_DATA.bits})
    yield does("eqw-other-address", "eqw r3, r1, r2", {1: ALL_DATA, 2: pointer("rw", 12, DATA + 1)})
    yield does("eqw-other-length", "eqw r3, r1, r2", {1: ALL_DATA, 2: pointer("rw", 11, DATA)})
    yield does("eqw-other-permission", "eqw r3, r1, r2", {1: ALL_DATA, 2: pointer("ro", 12, DATA)})
    yield does("eqw-other-integers", "eqw r3, r1, r2", {1: 1, 2: 2})
    yield does("eqw-into-its-first", "eqw r1, r1, r2", {1: 4, 2: 4})
    for byte in (0, 0x7F, 0x80, 0xFF, 0x100, 0x1234):
        yield does(f"out-of-{byte:x}", "out r1", {1: byte}, shows=f"out 0 {byte % 256:02x}")
    for number in (0, 1, 15):
        yield runs(
            f"self-of-slot-{number}", [Slot(number, ("self r3",), {3: ALL_DATA})], f"{number}", [f"t {number} 1 did"]
        )
    yield runs("self-of-slot-63", [Slot(63, ("self r3",), at=0x100000)], "63", ["t 63 1 did"], version=2)
    yield runs("self-is-no-group", [Slot(3, ("self r3",), group=9)], "3", ["r 3 3 i0000000000000003"])


def cases():
    yield from plain()
    yield from of_a_number()
    yield from of_two_registers()
