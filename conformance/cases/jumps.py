"""Branches, jumps and what a turn does before its instruction: the fetch, and the end of a segment."""

from case import ALL_DATA, DATA, PAGE_LOG, TOP_ADDRESS, does, fails, runs
from images import CODE, PAGE_BYTES, WORDS, Empty, Slot, instruction, plainest, pointer
from mm.machine.isa import OPERATIONS
from mm.machine.words import Permission, Pointer

HIGH = 1 << 63
OWN = pointer("xu", 8, CODE)
# The branches, each so that it is taken, and `lip`, whose address has the same test.
BRANCHES = {"br": "br {to}", "bz": "bz r1, {to}", "bnz": "bnz r2, {to}", "lip": "lip r3, {to}"}
GIVEN = {1: 0, 2: 1, 3: 7}
EXTREMES = (2**31 - 1, -(2**31))


def branches():
    words = 32
    for name, way in BRANCHES.items():
        last = {"start": words - 1}
        yield does(f"{name}-forward", [way.format(to=2), "nop", "nop"], GIVEN, turns=1)
        yield does(f"{name}-forward-and-on", [way.format(to=2), "ldi r4, 1", "ldi r5, 1"], GIVEN, turns=2)
        yield does(f"{name}-back", ["nop", "nop", way.format(to=-2)], GIVEN)
        yield does(f"{name}-to-itself", [way.format(to=0)], GIVEN, turns=2)
        yield does(f"{name}-to-the-next", [way.format(to=1), "nop"], GIVEN, turns=2)
        yield does(f"{name}-to-the-last-word", [way.format(to=words - 1)], GIVEN)
        yield fails(f"{name}-to-the-first-after", "Bounds", [way.format(to=words)], GIVEN)
        yield fails(f"{name}-to-the-word-before", "Bounds", [way.format(to=-1)], GIVEN)
        yield does(
            f"{name}-to-the-first-word", ["nop"] * (words - 1) + [way.format(to=1 - words)], GIVEN, turns=1, **last
        )
        yield fails(
            f"{name}-after-the-last-word", "Bounds", ["nop"] * (words - 1) + [way.format(to=1)], GIVEN, turns=1, **last
        )
        yield fails(f"{name}-most", "Bounds", [way.format(to=EXTREMES[0])], GIVEN)
        yield fails(f"{name}-least", "Bounds", [way.format(to=EXTREMES[1])], GIVEN)
        whole = pointer("xu", 54, CODE)
        yield does(f"{name}-most-in-the-whole-space", [way.format(to=EXTREMES[0])], GIVEN, ip=whole)
        yield fails(f"{name}-least-before-the-space", "Bounds", [way.format(to=EXTREMES[1])], GIVEN, ip=whole)
        yield runs(
            f"{name}-least-in-the-whole-space",
            [Slot(0, (way.format(to=EXTREMES[1]),), GIVEN, at=1 << 40, ip=pointer("xu", 54, 1 << 40))],
            "0",
            ["t 0 1 did"],
        )
        top = TOP_ADDRESS - 8
        yield runs(
            f"{name}-after-the-space",
            [Slot(0, (way.format(to=1),), GIVEN, at=top, ip=pointer("xu", 54, top))],
            "0",
            ["t 0 1 faulted 3"],
        )
        yield runs(
            f"{name}-at-the-top-of-the-space",
            [Slot(0, (way.format(to=-1),), GIVEN, at=top, ip=pointer("xu", 54, top))],
            "0",
            ["t 0 1 did"],
        )
        yield runs(f"{name}-in-a-segment-of-one-word", [Slot(0, (way.format(to=0),), GIVEN, log=3)], "0", ["t 0 1 did"])
        yield runs(
            f"{name}-out-of-a-segment-of-one-word",
            [Slot(0, (way.format(to=1),), GIVEN, log=3)],
            "0",
            ["t 0 1 faulted 3"],
        )
        yield does(f"{name}-in-privileged-code", [way.format(to=1), "nop"], GIVEN, permission="xp", turns=2)
    for name, (taken, others) in {
        "bz": (
            {"zero": 0}, {"one": 1, "the-sign": HIGH, "bit-32": 1 << 32, "minus-one": WORDS - 1, "a-pointer": ALL_DATA}
        ),
        "bnz": (
            {"one": 1, "the-sign": HIGH, "bit-32": 1 << 32, "minus-one": WORDS - 1, "a-pointer": ALL_DATA}, {"zero": 0}
        ),
    }.items():
        for what, word in taken.items():
            yield does(f"{name}-taken-of-{what}", f"{name} r1, 3", {1: word})
        for what, word in others.items():
            yield does(f"{name}-not-taken-of-{what}", f"{name} r1, 3; nop", {1: word})
            yield does(f"{name}-not-taken-of-{what}-tests-nothing", f"{name} r1, -1; nop", {1: word})
        yield does(f"{name}-of-the-last-register", f"{name} r15, 3", {15: int(name == "bnz")})
    yield does("lip-of-zero-is-itself", "lip r15, 0")
    yield does("lip-in-privileged-code-is-privileged", "lip r3, 1; restrict r4, r3, r1", {1: 6}, permission="xp")


def through_enter_pointers(name, way, code):
    """Where an enter pointer leads is tested by the fetch, as where an execute pointer leads."""
    for permission in ("eu", "ep"):
        for what, to, ends in (
            ("a-misaligned-address", pointer(permission, PAGE_LOG, DATA + 17), "faulted 4"),
            ("the-last-byte", pointer(permission, PAGE_LOG, DATA + 0xFFF), "faulted 3"),
            ("a-segment-of-one-word", pointer(permission, 3, DATA + 16), "did"),
            ("a-misaligned-address-of-one-word", pointer(permission, 3, DATA + 18), "faulted 3"),
            ("a-segment-of-four-bytes", pointer(permission, 2, DATA + 16), "faulted 3"),
            ("a-segment-of-one-byte", pointer(permission, 0, DATA + 16), "faulted 3"),
            ("an-unmapped-page", pointer(permission, PAGE_LOG, DATA + PAGE_BYTES), "faulted 5"),
            ("a-word-that-is-no-instruction", pointer(permission, PAGE_LOG, DATA + 32), "faulted 7"),
        ):
            yield does(f"{name}-through-{permission}-to-{what}", [way], {1: to}, cells={**code, DATA + 32: -1}, turns=2,
                       shows=f"t 0 2 {ends}")


def jumps():
    there = pointer("xu", PAGE_LOG, DATA + 16)
    code = {DATA + 16: "ldi r7, 1", DATA + 24: "halt"}
    for name, way in {"jmp": "jmp r1", "jal": "jal r3, r1"}.items():
        for permission in Permission:
            to = pointer(permission.short, PAGE_LOG, DATA + 16)
            if permission.executes or permission.enters:
                yield does(f"{name}-through-{permission.short}", [way], {1: to}, cells=code, turns=2)
                yield does(
                    f"{name}-through-{permission.short}-from-privileged-code",
                    [way],
                    {1: to},
                    cells=code,
                    turns=2,
                    permission="xp",
                )
            else:
                yield fails(f"{name}-through-{permission.short}", "Perm", [way], {1: to, 3: 7}, code)
        yield fails(f"{name}-through-an-integer", "NotPointer", [way], {1: there.bits, 3: 7}, code)
        yield fails(
            f"{name}-notpointer-before-perm", "NotPointer", [way], {1: pointer("key", PAGE_LOG, DATA).bits, 3: 7}, code
        )
        yield does(f"{name}-to-itself", [way], {1: OWN}, turns=2 if name == "jmp" else 1)
        yield does(f"{name}-to-a-segment-of-one-word", [way], {1: pointer("xu", 3, DATA + 16)}, cells=code, turns=2)
        yield does(
            f"{name}-to-a-segment-without-a-word",
            [way],
            {1: pointer("xu", 2, DATA + 16)},
            cells=code,
            turns=2,
            shows="t 0 2 faulted 3",
        )
        yield does(
            f"{name}-to-a-misaligned-address",
            [way],
            {1: pointer("xu", PAGE_LOG, DATA + 17)},
            cells=code,
            turns=2,
            shows="t 0 2 faulted 4",
        )
        yield does(
            f"{name}-to-an-unmapped-page",
            [way],
            {1: pointer("xu", PAGE_LOG, DATA + PAGE_BYTES)},
            cells=code,
            turns=2,
            shows="t 0 2 faulted 5",
        )
        yield does(
            f"{name}-to-a-word-that-is-no-instruction",
            [way],
            {1: there},
            cells={DATA + 16: -1},
            turns=2,
            shows="t 0 2 faulted 7",
        )
        yield does(
            f"{name}-to-the-top-of-the-space",
            [way],
            {1: pointer("eu", 54, TOP_ADDRESS - 8)},
            cells={TOP_ADDRESS - 8: "nop"},
            turns=3,
            shows="t 0 3 faulted 3",
        )
        yield does(f"{name}-to-zero", [way], {1: pointer("ep", 54, 0)}, cells={0: "nop"}, turns=2)
        yield does(
            f"{name}-of-the-last-registers", [way.replace("r1", "r14").replace("r3", "r15")], {14: there}, cells=code
        )
        yield from through_enter_pointers(name, way, code)
    end = {"start": 31}
    yield does("jmp-in-the-last-word", ["nop"] * 31 + ["jmp r1"], {1: there}, cells=code, turns=2, **end)
    yield fails("jal-in-the-last-word", "Bounds", ["nop"] * 31 + ["jal r3, r1"], {1: there, 3: 7}, code, turns=1, **end)
    yield fails(
        "jal-notpointer-before-bounds",
        "NotPointer",
        ["nop"] * 31 + ["jal r3, r1"],
        {1: there.bits, 3: 7},
        code,
        turns=1,
        **end,
    )
    yield fails(
        "jal-perm-before-bounds", "Perm", ["nop"] * 31 + ["jal r3, r1"], {1: ALL_DATA, 3: 7}, code, turns=1, **end
    )
    yield runs(
        "jal-at-the-top-of-the-space",
        [Slot(0, ("jal r3, r1",), {1: there}, at=TOP_ADDRESS - 8, ip=pointer("xu", 54, TOP_ADDRESS - 8))],
        "0",
        ["t 0 1 faulted 3"],
        cells=code,
    )
    yield does("jal-over-its-pointer", "jal r1, r1", {1: there}, cells=code, turns=2)
    yield fails("jal-over-its-pointer-keeps-it-at-a-fault", "Perm", "jal r1, r1", {1: ALL_DATA}, code)
    yield does("jal-links-privileged-code", "jal r3, r1", {1: there}, permission="xp", cells=code)
    yield does("jal-and-back", ["jal r3, r1", "ldi r4, 1"], {1: there}, cells={DATA + 16: "jmp r3"}, turns=3)
    yield does("jal-through-a-gate-and-back", ["jal r3, r1", "ldi r4, 1"], {1: pointer("ep", PAGE_LOG, DATA + 16)},
               cells={DATA + 16: "setptr r5, r6", DATA + 24: "jmp r3"}, turns=4, shows="t 0 2 faulted 10")
    yield does(
        "jmp-down-from-privileged-code",
        "setptr r5, r6; jmp r1",
        {1: there, 6: 1 << 60},
        cells={DATA + 16: "setptr r5, r6"},
        permission="xp",
        turns=3,
        shows="t 0 3 faulted 8",
    )


def fetches():
    """The tests of a fetch, by the image's instruction pointer, and the step to the next word."""
    for log in (0, 1, 2):
        yield fails(f"fetch-in-a-segment-of-length-{log}", "Bounds", ["nop"], ip=pointer("xu", log, CODE))
    for by in range(1, 8):
        yield fails(f"fetch-misaligned-by-{by}", "Align", ["nop"], ip=pointer("xu", 8, CODE + by))
    yield fails("fetch-bounds-before-align", "Bounds", ["nop"], ip=pointer("xu", 2, CODE + 2))
    yield fails("fetch-bounds-before-align-in-the-last-bytes", "Bounds", ["nop"], ip=pointer("xu", 3, CODE + 2))
    yield fails("fetch-bounds-before-nopage", "Bounds", ["nop"], ip=pointer("xu", 1, DATA))
    yield fails("fetch-bounds-before-illegal", "Bounds", [-1], ip=pointer("xu", 1, CODE))
    yield fails("fetch-align-before-nopage", "Align", ["nop"], ip=pointer("xu", 12, DATA + 4))
    yield fails("fetch-align-before-illegal", "Align", [-1, -1], turns=1, ip=pointer("xu", 12, CODE + 4))
    yield fails("fetch-nopage", "NoPage", ["nop"], ip=pointer("xu", 12, DATA))
    yield fails("fetch-nopage-in-privileged-code", "NoPage", ["nop"], ip=pointer("xp", 54, DATA))
    yield fails("fetch-nopage-at-zero", "NoPage", ["nop"], ip=pointer("xu", 54, 0))
    yield fails("fetch-nopage-at-the-top", "NoPage", ["nop"], ip=pointer("xu", 54, TOP_ADDRESS - 8))
    yield does("fetch-of-an-empty-word", [Empty(instruction("ldi r1, 1"))])
    yield does(
        "fetch-leaves-the-bit", [Empty(instruction("nop")), "ld r3, r1, 0, empty, keep"], {1: pointer("ro", 8, CODE)}
    )
    yield runs(
        "fetch-at-the-top-of-the-space",
        [Slot(0, ("nop", "nop"), at=TOP_ADDRESS - 16, ip=pointer("xu", 54, TOP_ADDRESS - 16))],
        "0*3",
        ["t 0 2 did", "t 0 3 faulted 3"],
    )
    yield runs("fetch-at-zero", [Slot(0, ("ldi r1, 1",), at=0, ip=pointer("xp", 54, 0))], "0", ["t 0 1 did"])
    yield runs(
        "fetch-over-the-end-of-a-page",
        [Slot(0, ("nop", "ldi r1, 1"), at=CODE + 0xFF8, ip=pointer("xu", 54, CODE + 0xFF8))],
        "0*2",
        ["t 0 2 did"],
    )
    yield runs(
        "fetch-over-the-end-of-the-last-page",
        [Slot(0, ("nop",), at=CODE + 0xFF8, ip=pointer("xu", 54, CODE + 0xFF8))],
        "0*2",
        ["t 0 2 faulted 5"],
    )


def ends():
    """The last word of a segment, for each operation that goes on to the next word."""
    last = ["nop"] * 31
    given = {1: ALL_DATA, 2: 8, 4: 1, 9: 0x200}
    texts = {name: operation.example for name, operation in OPERATIONS.items()}
    texts.update(
        {
            "halt": "halt",
            "lea": "lea r3, r1, r2",
            "leai": "leai r3, r1, 8",
            "leab": "leab r3, r1, r2",
            "restrict": "restrict r3, r1, r4",
            "subseg": "subseg r3, r1, r2",
            "setptr": "setptr r3, r5",
            "lip": "lip r3, 0",
            "map": "map r3, r9",
            "unmap": "unmap r3, r9",
            "divu": "divu r3, r4, r2",
            "remu": "remu r3, r4, r2",
        },
    )
    for name, text in texts.items():
        if name in ("br", "bz", "bnz", "jmp", "jal", "trap", "evt", "resume", "rreg", "wreg"):
            continue
        yield does(
            f"past-after-{name}" if name != "halt" else "halt-in-the-last-word",
            last + [text],
            {**given, 5: ALL_DATA.bits},
            start=31,
            permission="xp",
            turns=2,
            spare=1,
            pages=(DATA // PAGE_BYTES,),
            shows="state 0 halted" if name == "halt" else "t 0 2 faulted 3",
        )
    for name, register in {"bz": 4, "bnz": 0}.items():
        yield does(
            f"past-after-{name}-that-is-not-taken",
            last + [f"{name} r{register}, -99"],
            given,
            start=31,
            turns=2,
            shows="t 0 2 faulted 3",
        )
    for log, end in {3: CODE + 8, 4: CODE + 16, 53: 1 << 53, 54: TOP_ADDRESS}.items():
        yield runs(
            f"past-at-the-end-of-length-{log}",
            [Slot(0, ("nop",), at=end - 8, ip=pointer("xu", log, end - 8)), Slot(1, ("nop",), at=end % TOP_ADDRESS)],
            "0*2",
            ["t 0 1 did", "t 0 2 faulted 3"],
        )
    yield fails("past-has-no-operands", "Bounds", last + ["lea r3, r1, r2"], given, start=31, turns=2)
    yield runs(
        "past-in-a-segment-of-one-word",
        [Slot(0, ("nop", "nop"), log=3)],
        "0*2",
        ["ip 0 p30c0000000100000 past", "t 0 2 faulted 3"],
    )
    yield runs(
        "past-before-nopage",
        [Slot(0, last + ["nop"], start=31, at=0x110F00), Slot(1, ("unmap r1, r2",), {2: 0x110}, permission="xp")],
        "0 1 0",
        ["page 00000000110 gone", "t 0 2 faulted 3"],
    )
    yield runs(
        "past-before-illegal",
        [
            Slot(0, last + ["nop"], start=31),
            Slot(1, ("st r1, r2, -8, any, keep",), {1: pointer("rw", 54, CODE + 0x100), 2: -1}),
        ],
        "0 1 0",
        ["t 0 2 faulted 3"],
    )
    yield runs(
        "past-is-not-set-by-a-branch-to-the-last-word",
        [Slot(0, ["br 31"] + last[:30] + ["br -31"])],
        "0*3",
        ["t 0 3 did"],
    )
    yield runs("past-is-not-set-by-a-blocked-turn", [Slot(0, last + ["evt r1"], start=31)], "0*2", ["t 0 2 blocked"])


# The fields of a word with their bits. Nothing uses the last one.
FIELDS = {
    "rd": range(52, 56),
    "ra": range(48, 52),
    "rb": range(44, 48),
    "c": range(40, 44),
    "imm": range(32),
    "": range(32, 40),
}


def words():
    """Words that are no instruction: each unused bit of each operation, each limited field, each unknown operation. A
    handler skips each of them."""
    for name, operation in OPERATIONS.items():
        good = plainest(operation)
        fields = {kind.field for kind in operation.operands}
        limits = {"pre": "c", "post": "c", "how": "c"}
        used = {limits.get(field, field) for field in fields}
        bits = [bit for field, places in FIELDS.items() if field not in used for bit in places]
        yield from skipped(f"illegal-unused-bits-of-{name}", [good | 1 << bit for bit in bits])
    for name, text in {"ld": "ld r2, r1, 0, any, keep", "st": "st r1, r2, 0, any, keep"}.items():
        yield from skipped(
            f"illegal-condition-of-{name}", [instruction(text) | c << 40 for c in (3, 7, 11, 12, 13, 14, 15)]
        )
    yield from skipped("illegal-way-of-resume", [instruction("resume r1, retry") | c << 40 for c in range(3, 16)])
    yield from skipped("illegal-register-of-evt", [instruction("evt r0") | register << 52 for register in (13, 14, 15)])
    for name in ("rreg", "wreg"):
        good = instruction(f"{name} r1, r2, 0")
        yield from skipped(
            f"illegal-register-of-{name}", [good | imm for imm in (16, 17, 31, 256, 1 << 16, 1 << 31, (1 << 32) - 1)]
        )
    known = {operation.number for operation in OPERATIONS.values()}
    others = [number for number in range(256) if number not in known]
    for at in range(0, len(others), 31):
        numbers = others[at : at + 31]
        yield from skipped(
            f"illegal-operations-{numbers[0]:02x}-to-{numbers[-1]:02x}", [number << 56 for number in numbers]
        )
    for name in ("add", "ld", "st", "br", "jmp", "trap", "map"):
        operation = OPERATIONS[name]
        # A pointer whose bits would be an instruction.
        word = Pointer.of_bits(operation.number << 56)
        yield fails(f"illegal-pointer-with-the-bits-of-{name}", "Illegal", [word])


def skipped(name, words):
    """Words that are no instruction, one after the other in slot 1; its handler skips each."""
    serve = ("evt r0", "resume r8, skip", "br -2")
    yield runs(
        name,
        [Slot(0, serve, {8: 1}), Slot(1, tuple(words), handler=0, at=CODE + 0x200, log=9)],
        " ".join(["1 0*3"] * len(words)),
        [f"t 1 {len(words)} faulted 7", f"t 0 {3 * len(words)} did"],
    )


def cases():
    yield from branches()
    yield from jumps()
    yield from fetches()
    yield from ends()
    yield from words()
