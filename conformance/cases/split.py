"""Split machines: loads whose words come later, the registers that wait for them, and ports."""

from case import ALL_DATA, DATA, runs
from images import CODE, Empty, Slot, instruction, pointer
from mm.machine.isa import OPERATIONS

SPLIT = {"version": 2, "split": True}
PAGE = DATA >> 12
# Each operation with words for its registers with which it is carried out. r8 is where the words are loaded from.
OTHERS = {
    "ldhi": ("ldhi r4, 1", {4: 5}),
    "lea": ("lea r4, r1, r2", {1: ALL_DATA, 2: 8}),
    "leai": ("leai r4, r1, 8", {1: ALL_DATA}),
    "leab": ("leab r4, r1, r2", {1: ALL_DATA, 2: 8}),
    "restrict": ("restrict r4, r1, r2", {1: ALL_DATA, 2: 1}),
    "subseg": ("subseg r4, r1, r2", {1: ALL_DATA, 2: 3}),
    "setptr": ("setptr r4, r1", {1: ALL_DATA.bits}),
    "ld": ("ld r4, r1, 8, any, keep", {1: ALL_DATA}),
    "st": ("st r1, r2, 8, any, keep", {1: ALL_DATA, 2: 9}),
    "bz": ("bz r1, 2", {1: 0}),
    "bnz": ("bnz r1, 2", {1: 3}),
    "jmp": ("jmp r1", {1: pointer("eu", 8, CODE + 8)}),
    "jal": ("jal r4, r1", {1: pointer("eu", 8, CODE + 8)}),
    "lip": ("lip r4, 0", {}),
    "ldi": ("ldi r4, 3", {}),
    "self": ("self r4", {}),
    "mov": ("mov r4, r1", {1: ALL_DATA}),
    "isptr": ("isptr r4, r1", {1: ALL_DATA}),
    "out": ("out r1", {1: 0x41}),
    "addi": ("addi r4, r1, 8", {1: 5}),
    "map": ("map r4, r1", {1: PAGE + 1}),
    "unmap": ("unmap r4, r1", {1: PAGE + 1}),
}
SERVING = {
    "resume": ("resume r1, skip", {1: 1}), "rreg": ("rreg r4, r1, 5", {1: 1}), "wreg": ("wreg r1, r2, 5", {1: 1, 2: 9})
}
# Words for the registers with which an operation fails its first test.
FAILING = {
    "divu": {1: 1, 2: 0},
    "remu": {1: 1, 2: 0},
    "lea": {1: 5},
    "leai": {1: 5},
    "leab": {1: 5},
    "restrict": {1: 5},
    "subseg": {1: 5},
    "setptr": {1: 0},
    "ld": {1: 5},
    "st": {1: 5},
    "jmp": {1: 5},
    "jal": {1: 5},
    "resume": {1: 9},
    "rreg": {1: 9},
    "wreg": {1: 9},
    "map": {1: 1 << 42},
    "unmap": {1: 1 << 42},
}


def given(name):
    if name in OTHERS or name in SERVING:
        return (OTHERS | SERVING)[name]
    return f"{name} r4, r1, r2", {1: 6, 2: 3}


def registers_of(name):
    """The registers that the operation names in `given`, by their fields."""
    text, _ = given(name)
    words = text.partition(" ")[2].split(", ")
    return {kind.field: int(word[1:]) for kind, word in zip(OPERATIONS[name].operands, words) if kind.is_register}


def waiting():
    """Each operation that needs a register whose load has not come: by each of its registers."""
    for name, operation in OPERATIONS.items():
        if name == "evt" or not any(kind.is_register for kind in operation.operands):
            continue
        text, held = given(name)
        for field, register in registers_of(name).items():
            cell = held.get(register, 7)
            before = {**{number: word for number, word in held.items() if number != register}, 8: ALL_DATA}
            yield case_of(
                f"split-{name}-waits-for-{field}", name, f"ld r{register}, r8, 0, any, keep", text, before, {DATA: cell}
            )
    for place in range(4):
        slots = [
            Slot(0, (f"ld r{place + 4}, r8, 0, any, keep", "evt r4"), {8: ALL_DATA}), Slot(1, ("trap 1",), handler=0)
        ]
        yield runs(
            f"split-evt-waits-for-its-register-{place}",
            slots,
            "1 0*3",
            ["t 0 2 blocked", "t 0 3 did"],
            cells={DATA: 7},
            **SPLIT,
        )
    slots = [Slot(0, ("ld r8, r8, 0, any, keep", "evt r4"), {8: ALL_DATA}), Slot(1, ("trap 1",), handler=0)]
    yield runs("split-evt-waits-for-no-fifth-register", slots, "1 0*2", ["t 0 2 did"], cells={DATA: 7}, **SPLIT)
    slots = [Slot(0, ("ld r4, r8, 0, any, keep", "evt r4"), {8: ALL_DATA})]
    yield runs(
        "split-evt-of-an-empty-queue-waits-for-its-register-first",
        slots,
        "0*3",
        ["r 0 4 i0000000000000007", "t 0 3 blocked"],
        cells={DATA: 7},
        **SPLIT,
    )


def case_of(name, operation, load, text, before, cells, ends="did"):
    code = (load, text) if operation not in ("jmp", "jal") else (load, text, "halt")
    if operation in SERVING:
        slots = [Slot(0, ("evt r12",) + code, before), Slot(1, ("trap 1",), {5: 55}, handler=0)]
        return runs(name, slots, "1 0*4", ["t 0 3 blocked", f"t 0 4 {ends}"], cells=cells, **SPLIT)
    privileged = operation in ("setptr", "map", "unmap")
    slots = [Slot(0, code, before, permission="xp" if privileged else "xu")]
    return runs(name, slots, "0*3", ["t 0 2 blocked", f"t 0 3 {ends}"], cells=cells, spare=1, **SPLIT)


def before_tests():
    """An operation whose own tests fail waits first for its registers."""
    numbers = {"divu": 9, "remu": 9, "setptr": 10, "map": 3, "unmap": 3, "resume": 12, "rreg": 12, "wreg": 12}
    for name, held in FAILING.items():
        text, good = given(name)
        fields = registers_of(name)
        register = fields.get("rd", fields.get("rb", fields["ra"]))
        words = {**good, **held}
        before = {**{number: word for number, word in words.items() if number != register}, 8: ALL_DATA}
        yield case_of(
            f"split-{name}-waits-before-its-tests",
            name,
            f"ld r{register}, r8, 0, any, keep",
            text,
            before,
            {DATA: words.get(register, 7)},
            f"faulted {numbers.get(name, 1)}",
        )
    for name, text in {"setptr": "setptr r4, r1", "map": "map r4, r1", "unmap": "unmap r4, r1"}.items():
        slots = [Slot(0, ("ld r1, r8, 0, any, keep", text), {8: ALL_DATA})]
        yield runs(
            f"split-{name}-in-user-code-waits-first",
            slots,
            "0*3",
            ["t 0 2 blocked", "t 0 3 faulted 8"],
            cells={DATA: ALL_DATA.bits},
            **SPLIT,
        )
    full = [Slot(0, ("ld r1, r8, 0, any, keep", "ld r2, r8, 8, any, keep", "trap 1"), {8: ALL_DATA})]
    yield runs("split-trap-waits-for-no-register", full, "0*3", ["t 0 3 faulted 11"], cells={DATA: 5}, **SPLIT)
    for what, word in {
        "unknown-operation": 0x09 << 56,
        "unused-field": instruction("add r4, r1, r2") | 1,
        "condition": instruction("ld r1, r8, 0, any, keep") | 3 << 40,
    }.items():
        yield runs(
            f"split-illegal-before-waiting-{what}",
            [Slot(0, ("ld r1, r8, 0, any, keep", word), {8: ALL_DATA})],
            "0*2",
            ["t 0 2 faulted 7"],
            cells={DATA: 5},
            **SPLIT,
        )
    for name in ("halt", "nop", "br 0"):
        yield runs(
            f"split-{name.split()[0]}-waits-for-no-register",
            [Slot(0, tuple(f"ld r{number}, r8, 0, any, keep" for number in range(8)) + (name,), {8: ALL_DATA})],
            "0*9",
            ["t 0 9 did"],
            cells={DATA: 5},
            **SPLIT,
        )


def loads():
    """What a load does in its own turn, and which word comes."""
    base = {8: ALL_DATA, 9: 77}
    load = "ld r1, r8, 0, any, keep"
    one = {DATA: 5, DATA + 8: 6, DATA + 16: ALL_DATA}

    def alone(name, code, schedule, shows, registers=base, cells=one, **slot):
        return runs(name, [Slot(0, code, registers, **slot)], schedule, shows, cells=cells, **SPLIT)

    yield alone("split-ld-is-pending", (load,), "0", ["r 0 1 empty", "load 0 1 i0000000000000005"])
    yield alone("split-ld-of-a-pointer", ("ld r1, r8, 16, any, keep", "mov r2, r1"), "0*3", ["t 0 3 did"])
    yield alone("split-ld-over-its-pointer", ("ld r8, r8, 0, any, keep", "mov r2, r8"), "0*3", ["t 0 3 did"])
    yield alone("split-ld-over-a-word", (load,), "0", ["r 0 1 empty"], {**base, 1: ALL_DATA})
    yield alone(
        "split-ld-word-of-the-time-of-issue",
        (load, "st r8, r9, 0, any, keep", "mov r2, r1", "nop"),
        "0*4",
        ["r 0 1 i0000000000000005", "t 0 4 did"],
    )
    yield alone(
        "split-ld-sets-the-bit-at-once",
        ("ld r1, r8, 0, full, empty", "ld r2, r8, 0, empty, full"),
        "0*2",
        ["t 0 2 did"],
    )
    yield alone("split-ld-bit-that-fails-issues-nothing", ("ld r1, r8, 0, empty, keep",), "0*2 128", ["t 0 2 blocked"])
    yield alone("split-ld-fault-issues-nothing", ("ld r1, r8, -8, any, keep",), "0 128", ["t 0 1 faulted 3"])
    yield alone(
        "split-ld-of-no-page-issues-nothing",
        ("ld r1, r7, 0, any, keep",),
        "0 128",
        ["t 0 1 faulted 5"],
        {**base, 7: pointer("rw", 54, 0)},
    )
    yield alone(
        "split-ld-twice-to-one-register",
        (load, "ld r1, r8, 8, any, keep", "mov r2, r1"),
        "0*5",
        ["t 0 2 blocked", "t 0 4 blocked", "t 0 5 did"],
    )
    yield alone(
        "split-ld-through-a-register-that-waits",
        ("ld r1, r8, 16, any, keep", "ld r2, r1, 8, any, keep", "mov r3, r2"),
        "0*5",
        ["t 0 2 blocked", "t 0 5 did"],
    )
    yield alone(
        "split-oldest-load-comes-first",
        (load, "ld r2, r8, 8, any, keep", "mov r3, r2"),
        "0*5",
        ["t 0 3 blocked", "t 0 4 blocked", "t 0 5 did"],
    )
    yield alone(
        "split-oldest-load-alone-comes",
        (load, "ld r2, r8, 8, any, keep", "mov r3, r1"),
        "0*4",
        ["t 0 3 blocked", "t 0 4 did"],
    )
    yield alone(
        "split-two-registers-wait",
        (load, "ld r2, r8, 8, any, keep", "add r3, r1, r2"),
        "0*5",
        ["t 0 4 blocked", "t 0 5 did"],
    )
    yield alone(
        "split-registers-that-are-not-named-wait-on",
        (load, "add r3, r9, r9", "out r3", "st r8, r9, 8, any, keep"),
        "0*4 128",
        ["t 0 4 did", "m 0 1"],
    )
    yield alone(
        "split-ld-in-the-last-word",
        ("nop",) * 31 + (load,),
        "0*2 128",
        ["r 0 1 empty", "t 0 2 faulted 3", "m 0 1"],
        start=31,
    )
    yield alone(
        "split-past-before-waiting",
        (("nop",) * 30) + (load, "mov r2, r1"),
        "0*4",
        ["t 0 2 blocked", "t 0 3 did", "t 0 4 faulted 3"],
        start=30,
    )
    whole = tuple(f"ld r{number}, r{15}, {8 * number}, any, keep" for number in range(16))
    cells = {DATA + 8 * number: 100 + number for number in range(16)}
    yield alone("split-all-registers-wait", whole, "0*16 128*17", ["t 0 16 did", "m 0 15"], {15: ALL_DATA}, cells)
    yield alone(
        "split-all-registers-wait-for-the-last",
        whole + ("out r15",),
        "0*33",
        ["t 0 32 blocked", "t 0 33 did"],
        {15: ALL_DATA},
        cells,
    )
    yield alone("split-halted-slot-keeps-its-loads", (load, "halt"), "0*3 128 128", ["state 0 halted", "m 0 1"])
    yield alone(
        "split-ld-of-an-empty-word",
        ("ld r1, r8, 8, empty, full", "mov r2, r1"),
        "0*3",
        ["t 0 3 did"],
        base,
        {DATA + 8: Empty(6)},
    )
    yield alone(
        "split-blocked-turn-fetches-alone", (load, "ld r2, r1, 0, any, keep"), "0*2", ["t 0 2 blocked fetch"], base, one
    )


def ports():
    load = ("ld r1, r8, 0, any, keep", "ld r2, r8, 8, any, keep", "nop")
    slot = Slot(0, load, {8: ALL_DATA})
    cells = {DATA: 5, DATA + 8: ALL_DATA}
    yield runs(
        "port-delivers-the-oldest", [slot], "0*2 128", ["m 0 1", "r 0 1 i0000000000000005"], cells=cells, **SPLIT
    )
    yield runs("port-delivers-one-by-one", [slot], "0*2 128*3 0", ["m 0 1", "m 0 2", "t 0 3 did"], cells=cells, **SPLIT)
    yield runs("port-with-nothing-pending-is-idle", [slot], "128*2 0 128", ["t 0 1 did", "m 0 1"], cells=cells, **SPLIT)
    yield runs("port-of-a-slot-that-is-not-there", [slot], "0 129 191 192 255 128", ["m 0 1"], cells=cells, **SPLIT)
    yield runs("port-in-a-plain-machine-of-version-2", [slot], "0 128 0 128", ["t 0 2 did"], cells=cells, version=2)
    yield runs("port-in-a-machine-of-version-1", [slot], "0 128 0 128", ["t 0 2 did"], cells=cells)
    yield runs("port-of-slot-63", [Slot(63, load, {8: ALL_DATA}, at=CODE)], "63 191", ["m 63 1"], cells=cells, **SPLIT)
    yield runs(
        "port-of-a-halted-slot",
        [Slot(0, load[:1] + ("halt",), {8: ALL_DATA})],
        "0*2 128",
        ["m 0 1"],
        cells=cells,
        **SPLIT,
    )
    yield runs(
        "port-of-a-slot-that-faulted",
        [Slot(0, load[:1] + ("trap 1",), {8: ALL_DATA})],
        "0*2 128",
        ["m 0 1"],
        cells=cells,
        **SPLIT,
    )
    waits = Slot(1, load[:1] + ("trap 1", "halt"), {8: ALL_DATA}, handler=0)
    yield runs(
        "port-of-a-waiting-slot",
        [Slot(0, ("evt r0",)), waits],
        "1*2 129 0",
        ["m 1 1", "t 0 1 did"],
        cells=cells,
        **SPLIT,
    )
    yield runs(
        "port-of-a-taken-slot", [Slot(0, ("evt r0",)), waits], "1*2 0 129", ["t 0 1 did", "m 1 1"], cells=cells, **SPLIT
    )
    yield runs(
        "port-frees-a-register",
        [Slot(0, load[:1] + ("mov r3, r1",), {8: ALL_DATA})],
        "0 128 0",
        ["m 0 1", "t 0 2 did"],
        cells=cells,
        **SPLIT,
    )
    two = [Slot(number, load, {8: ALL_DATA}) for number in (0, 1)]
    yield runs(
        "port-of-two-slots-each-its-own",
        two,
        "0 1 129 128 1 0 128 129",
        ["m 1 1", "m 0 1", "m 0 2", "m 1 2"],
        cells=cells,
        **SPLIT,
    )
    yield runs(
        "split-loads-of-two-slots-wait-each-for-its-own",
        [Slot(number, load[:1] + ("mov r3, r1",), {8: ALL_DATA}) for number in (0, 1)],
        "0 1 0 1 1 0",
        ["t 0 2 blocked", "t 1 2 blocked", "t 0 3 did"],
        cells=cells,
        **SPLIT,
    )
    yield runs(
        "split-load-of-one-word-by-two-slots",
        [Slot(number, ("ld r1, r8, 0, full, empty",), {8: ALL_DATA}) for number in (0, 1)],
        "0 1 128 1",
        ["load 0 1", "t 1 1 blocked", "m 0 1", "t 1 2 blocked"],
        cells=cells,
        **SPLIT,
    )


def serving():
    """`rreg` and `wreg` of a register that waits, and slots with pending loads that are resumed."""
    cells = {DATA: 5, DATA + 8: 6}
    loads = ("ld r4, r8, 0, any, keep", "ld r5, r8, 8, any, keep", "trap 1", "mov r6, r5")
    for name, text in {"rreg": "rreg r9, r8, 5", "wreg": "wreg r8, r10, 5"}.items():
        handler = Slot(0, ("evt r0", text), {8: 1, 10: ALL_DATA})
        yield runs(
            f"split-{name}-of-a-register-that-waits",
            [handler, Slot(1, loads[1:], {8: ALL_DATA}, handler=0)],
            "1*2 0*3",
            ["t 0 2 blocked", "r 1 5", "t 0 3 did"],
            cells=cells,
            **SPLIT,
        )
        yield runs(
            f"split-{name}-of-the-second-that-waits",
            [handler, Slot(1, loads, {8: ALL_DATA}, handler=0)],
            "1*3 0*4",
            ["r 1 4 i0000000000000005", "t 0 3 blocked", "t 0 4 did"],
            cells=cells,
            **SPLIT,
        )
        yield runs(
            f"split-{name}-of-a-register-that-does-not-wait",
            [Slot(0, ("evt r0", text.replace(", 5", ", 8")), {8: 1, 10: 9}), Slot(1, loads, {8: ALL_DATA}, handler=0)],
            "1*3 0*2",
            ["t 0 2 did"],
            cells=cells,
            **SPLIT,
        )
        yield runs(
            f"split-{name}-noslot-before-waiting",
            [Slot(0, (text,), {8: 1, 10: 9}), Slot(1, loads, {8: ALL_DATA}, handler=0)],
            "1*3 0",
            ["t 0 1 faulted 12"],
            cells=cells,
            **SPLIT,
        )
        own = "ld r9, r11, 0, any, keep" if name == "rreg" else "ld r10, r11, 0, any, keep"
        yield runs(
            f"split-{name}-waits-for-its-own-register-first",
            [Slot(0, ("evt r0", own, text), {8: 1, 10: 9, 11: ALL_DATA}), Slot(1, loads[1:], {8: ALL_DATA}, handler=0)],
            "1*2 0*5",
            ["t 0 3 blocked", "t 0 4 blocked", "t 0 5 did"],
            cells=cells,
            **SPLIT,
        )
    for how, shows in {"retry": "t 1 4 faulted 11", "skip": "t 1 4 blocked", "kill": "state 1 halted"}.items():
        yield runs(
            f"split-resume-{how}-keeps-pending-loads",
            [Slot(0, ("evt r0", f"resume r8, {how}"), {8: 1}), Slot(1, loads, {8: ALL_DATA}, handler=0)],
            "1*3 0*2 1*3 129*2",
            [shows],
            cells=cells,
            **SPLIT,
        )
    yield runs(
        "split-event-of-a-register-that-came",
        [
            Slot(0, ("evt r0",)),
            Slot(1, ("ld r1, r8, 0, any, keep", "ld r2, r1, 8, any, keep"), {8: ALL_DATA}, handler=0),
        ],
        "1*3 0",
        ["t 1 2 blocked", "event 0 1 1", "t 0 1 did"],
        cells=cells,
        **SPLIT,
    )
    yield runs(
        "split-evt-leaves-other-registers-waiting",
        [Slot(0, ("ld r9, r8, 0, any, keep", "evt r0"), {8: ALL_DATA}), Slot(1, ("trap 1",), handler=0)],
        "1 0*2 128",
        ["t 0 2 did", "m 0 9"],
        cells=cells,
        **SPLIT,
    )
    yield runs(
        "split-blocked-by-sync-delivers-nothing",
        [Slot(0, ("ld r1, r8, 0, any, keep", "ld r2, r8, 8, empty, keep"), {8: ALL_DATA})],
        "0*3 128",
        ["t 0 3 blocked", "m 0 1"],
        cells=cells,
        **SPLIT,
    )


def cases():
    yield from waiting()
    yield from before_tests()
    yield from loads()
    yield from ports()
    yield from serving()
