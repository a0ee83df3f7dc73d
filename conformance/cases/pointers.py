"""The operations on pointers: each test and its edges, and each test before those after it."""

from case import ALL_DATA, DATA, TOP_ADDRESS, does, fails
from images import WORDS, pointer
from mm.machine.words import Permission

HIGH = 1 << 63
PERMISSIONS = [permission.short for permission in Permission]
MAY_MOVE = ("ro", "rw", "xu", "xp")


def moved(name, what, start, by, to=None):
    """A pointer moved by the three operations that move one: it comes to an address, or the fault is Bounds. `lea` and
    `leai` go from its address, `leab` from its segment's base, which `name` says."""
    ways = {"lea": "lea r3, r1, r2", "leab": "leab r3, r1, r2", "leai": f"leai r3, r1, {by}"}
    code = ways[name]
    if to is None:
        return fails(f"{name}-{what}", "Bounds", code, {1: start, 2: by, 3: 7})
    wanted = pointer(start.permission.short, start.log, to)
    return does(f"{name}-{what}", code, {1: start, 2: by}, shows=f"r 0 3 p{wanted.bits:016x}")


def from_the_address():
    """What `lea` and `leai` share: offsets that fit in 32 bits."""
    middle = pointer("rw", 12, DATA + 0x804)
    for name in ("lea", "leai"):
        yield moved(name, "by-none", middle, 0, DATA + 0x804)
        yield moved(name, "to-the-last-byte", middle, 0x7FB, DATA + 0xFFF)
        yield moved(name, "to-the-first-after", middle, 0x7FC)
        yield moved(name, "to-the-first-byte", middle, -0x804, DATA)
        yield moved(name, "to-the-byte-before", middle, -0x805)
        yield moved(name, "a-segment-further", middle, 0x1000)
        yield moved(name, "a-segment-back", middle, -0x1000)
        for log in (0, 1, 2, 3):
            small = pointer("rw", log, DATA)
            yield moved(name, f"length-{log}-to-its-last", small, (1 << log) - 1, DATA + (1 << log) - 1)
            yield moved(name, f"length-{log}-after-its-last", small, 1 << log)
            yield moved(name, f"length-{log}-before-its-first", small, -1)
        half = pointer("ro", 53, (1 << 53) - 1)
        yield moved(name, "length-53-stays-below-the-middle", half, 1)
        yield moved(name, "length-53-back", half, -1, (1 << 53) - 2)
        upper = pointer("ro", 53, 1 << 53)
        yield moved(name, "length-53-stays-above-the-middle", upper, -1)
        whole = pointer("rw", 54, TOP_ADDRESS - 8)
        yield moved(name, "length-54-to-the-top", whole, 7, TOP_ADDRESS - 1)
        yield moved(name, "length-54-past-the-top", whole, 8)
        yield moved(name, "length-54-below-zero", pointer("rw", 54, 0), -1)
        yield moved(name, "length-54-over-the-middle", pointer("rw", 54, (1 << 53) - 1), 1, 1 << 53)
        yield moved(name, "most-of-32-bits", pointer("rw", 54, 0), 2**31 - 1, 2**31 - 1)
        yield moved(name, "least-of-32-bits", pointer("rw", 54, 2**31), -(2**31), 0)
        yield moved(name, "least-of-32-bits-below-zero", pointer("rw", 54, 2**31 - 1), -(2**31))
    yield moved("lea", "by-the-whole-space", pointer("rw", 54, 0), TOP_ADDRESS - 1, TOP_ADDRESS - 1)
    yield moved("lea", "by-the-size-of-the-space", pointer("rw", 54, 0), TOP_ADDRESS)
    yield moved("lea", "back-by-the-whole-space", pointer("rw", 54, TOP_ADDRESS - 1), 1 - TOP_ADDRESS, 0)
    yield moved("lea", "by-the-most", ALL_DATA, HIGH - 1)
    yield moved("lea", "by-the-least", ALL_DATA, -HIGH)
    yield moved("lea", "sum-past-64-bits-wraps-not", pointer("rw", 54, TOP_ADDRESS - 8), HIGH - 8)
    yield fails(
        "lea-by-the-bits-of-a-pointer", "Bounds", "lea r3, r1, r2", {1: pointer("rw", 54, 0), 2: pointer("ro", 0, 0)}
    )
    yield does("lea-by-minus-five-as-64-bits", "lea r3, r1, r2", {1: pointer("rw", 54, 5), 2: WORDS - 5})


def from_the_base():
    """What `leab` has alone."""
    middle = pointer("rw", 12, DATA + 0x804)
    yield moved("leab", "by-none-is-the-base", middle, 0, DATA)
    yield moved("leab", "to-the-last-byte", middle, 0xFFF, DATA + 0xFFF)
    yield moved("leab", "to-the-first-after", middle, 0x1000)
    yield moved("leab", "to-the-byte-before", middle, -1)
    yield moved("leab", "by-its-offset-stays", middle, 0x804, DATA + 0x804)
    for log in (0, 3, 53):
        base = 1 << 53
        start = pointer("ro", log, base + (1 << log) - 1)
        yield moved("leab", f"length-{log}-to-its-first", start, 0, base)
        yield moved("leab", f"length-{log}-to-its-last", start, (1 << log) - 1, base + (1 << log) - 1)
        yield moved("leab", f"length-{log}-after-its-last", start, 1 << log)
        yield moved("leab", f"length-{log}-before-its-first", start, -1)
    whole = pointer("rw", 54, TOP_ADDRESS - 8)
    yield moved("leab", "length-54-to-zero", whole, 0, 0)
    yield moved("leab", "length-54-to-the-top", whole, TOP_ADDRESS - 1, TOP_ADDRESS - 1)
    yield moved("leab", "length-54-past-the-top", whole, TOP_ADDRESS)
    yield moved("leab", "length-54-below-zero", whole, -1)
    yield moved("leab", "by-the-most", middle, HIGH - 1)
    yield moved("leab", "by-the-least", middle, -HIGH)


WAYS = {"lea": "lea r3, r1, r2", "leai": "leai r3, r1, {by}", "leab": "leab r3, r1, r2"}


def moving_tests():
    """Perm of each permission, and the order of the three tests."""
    for name, way in WAYS.items():
        for permission in PERMISSIONS:
            start = pointer(permission, 12, DATA + 8)
            code = way.format(by=8)
            if permission in MAY_MOVE:
                yield does(f"{name}-of-{permission}", code, {1: start, 2: 8})
            else:
                yield fails(f"{name}-of-{permission}", "Perm", code, {1: start, 2: 8, 3: 7})
        key = pointer("key", 12, DATA)
        far = 0x1000
        yield fails(f"{name}-of-an-integer", "NotPointer", way.format(by=8), {1: DATA, 2: 8, 3: 7})
        yield fails(f"{name}-of-the-bits-of-a-pointer", "NotPointer", way.format(by=8), {1: ALL_DATA.bits, 2: 8})
        yield fails(f"{name}-notpointer-before-perm", "NotPointer", way.format(by=8), {1: key.bits, 2: 8})
        yield fails(f"{name}-notpointer-before-bounds", "NotPointer", way.format(by=far), {1: ALL_DATA.bits, 2: far})
        yield fails(f"{name}-perm-before-bounds", "Perm", way.format(by=far), {1: key, 2: far})
        into = way.format(by=8).replace("r3", "r1")
        yield does(f"{name}-into-its-pointer", into, {1: ALL_DATA, 2: 8})
        if name != "leai":
            yield does(f"{name}-into-its-amount", way.replace("r3", "r2"), {1: ALL_DATA, 2: 8})
        last = way.format(by=9).replace("r3", "r15").replace("r1,", "r14,").replace("r2", "r13")
        yield does(f"{name}-of-the-last-registers", last, {14: ALL_DATA, 13: 9})


def restricting():
    for permission in Permission:
        start = pointer(permission.short, 12, DATA + 0x123)
        for other in Permission:
            name, registers = f"restrict-{permission.short}-to-{other.short}", {1: start, 2: other.code, 3: 7}
            if other in permission.may_become:
                yield does(name, "restrict r3, r1, r2", registers)
            else:
                yield fails(name, "Perm", "restrict r3, r1, r2", registers)
    rw = pointer("rw", 12, DATA)
    for what, code in {
        "0": 0,
        "8": 8,
        "9": 9,
        "15": 15,
        "17": 17,
        "257": 257,
        "1-and-2-to-the-32": (1 << 32) + 1,
        "most": WORDS - 1,
        "1-in-the-place-of-a-pointer": 1 << 60,
    }.items():
        yield fails(f"restrict-to-code-{what}", "Malformed", "restrict r3, r1, r2", {1: rw, 2: code, 3: 7})
    yield fails(
        "restrict-to-the-bits-of-a-pointer", "Malformed", "restrict r3, r1, r2", {1: rw, 2: pointer("ro", 0, 0)}
    )
    yield fails("restrict-of-an-integer", "NotPointer", "restrict r3, r1, r2", {1: DATA, 2: 1})
    yield fails("restrict-notpointer-before-malformed", "NotPointer", "restrict r3, r1, r2", {1: rw.bits, 2: 8})
    yield fails(
        "restrict-notpointer-before-perm", "NotPointer", "restrict r3, r1, r2", {1: pointer("key", 12, DATA).bits, 2: 1}
    )
    yield fails(
        "restrict-malformed-before-perm", "Malformed", "restrict r3, r1, r2", {1: pointer("eu", 12, DATA), 2: 8}
    )
    yield does(
        "restrict-keeps-length-and-address", "restrict r3, r1, r2", {1: pointer("xp", 54, TOP_ADDRESS - 1), 2: 6}
    )
    yield does("restrict-of-length-0", "restrict r3, r1, r2", {1: pointer("xp", 0, 0), 2: 3})
    yield does("restrict-into-its-pointer", "restrict r1, r1, r2", {1: rw, 2: 1})
    yield does("restrict-into-its-code", "restrict r2, r1, r2", {1: rw, 2: 1})
    yield does("restrict-of-the-last-registers", "restrict r15, r14, r13", {14: rw, 13: 7})
    yield fails(
        "restrict-twice-gives-nothing-back",
        "Perm",
        "restrict r3, r1, r2; ldi r2, 2; restrict r3, r3, r2",
        {1: rw, 2: 1},
    )


def narrowing():
    for permission in PERMISSIONS:
        start = pointer(permission, 12, DATA + 0x804)
        if permission in MAY_MOVE:
            yield does(f"subseg-of-{permission}", "subseg r3, r1, r2", {1: start, 2: 3})
        else:
            yield fails(f"subseg-of-{permission}", "Perm", "subseg r3, r1, r2", {1: start, 2: 3, 3: 7})
    for log in (1, 3, 4, 12, 53, 54):
        start = pointer("rw", log, 0)
        yield does(f"subseg-of-length-{log}-to-one-less", "subseg r3, r1, r2", {1: start, 2: log - 1})
        yield does(f"subseg-of-length-{log}-to-0", "subseg r3, r1, r2", {1: start, 2: 0})
        yield fails(f"subseg-of-length-{log}-to-itself", "Bounds", "subseg r3, r1, r2", {1: start, 2: log})
        yield fails(f"subseg-of-length-{log}-to-one-more", "Bounds", "subseg r3, r1, r2", {1: start, 2: log + 1})
    yield fails("subseg-of-length-0-to-0", "Bounds", "subseg r3, r1, r2", {1: pointer("rw", 0, DATA), 2: 0})
    for what, log in {
        "55": 55,
        "63": 63,
        "64": 64,
        "64-and-3": 67,
        "256-and-3": 259,
        "2-to-the-32-and-3": (1 << 32) + 3,
        "minus-one": WORDS - 1,
        "least": HIGH,
    }.items():
        yield fails(f"subseg-to-length-{what}", "Bounds", "subseg r3, r1, r2", {1: pointer("rw", 54, DATA), 2: log})
    for log in (0, 2, 3, 53):
        yield does(
            f"subseg-at-the-top-to-length-{log}", "subseg r3, r1, r2", {1: pointer("rw", 54, TOP_ADDRESS - 1), 2: log}
        )
    yield fails("subseg-to-the-bits-of-a-pointer", "Bounds", "subseg r3, r1, r2", {1: ALL_DATA, 2: pointer("ro", 0, 0)})
    yield fails("subseg-of-an-integer", "NotPointer", "subseg r3, r1, r2", {1: DATA, 2: 3})
    yield fails(
        "subseg-notpointer-before-perm", "NotPointer", "subseg r3, r1, r2", {1: pointer("key", 12, DATA).bits, 2: 3}
    )
    yield fails("subseg-notpointer-before-bounds", "NotPointer", "subseg r3, r1, r2", {1: ALL_DATA.bits, 2: 12})
    yield fails("subseg-perm-before-bounds", "Perm", "subseg r3, r1, r2", {1: pointer("key", 12, DATA), 2: 12})
    yield does("subseg-into-its-pointer", "subseg r1, r1, r2", {1: ALL_DATA, 2: 3})
    yield does("subseg-into-its-length", "subseg r2, r1, r2", {1: ALL_DATA, 2: 3})
    yield does("subseg-of-the-last-registers", "subseg r15, r14, r13", {14: ALL_DATA, 13: 5})
    yield does(
        "subseg-is-another-segment", "lea r3, r1, r2; subseg r4, r3, r5; leab r4, r4, r6", {1: ALL_DATA, 2: 0x808, 5: 3}
    )


def making():
    for permission in Permission:
        for log in (0, 3, 53, 54):
            bits = pointer(permission.short, log, TOP_ADDRESS - 1).bits
            yield does(f"setptr-{permission.short}-of-length-{log}", "setptr r3, r1", {1: bits}, permission="xp")
    for code in (0, 8, 9, 15):
        yield fails(
            f"setptr-of-code-{code}",
            "Malformed",
            "setptr r3, r1",
            {1: code << 60 | 12 << 54 | DATA, 3: 7},
            permission="xp",
        )
    for log in (55, 56, 63):
        yield fails(
            f"setptr-of-length-{log}", "Malformed", "setptr r3, r1", {1: 2 << 60 | log << 54 | DATA}, permission="xp"
        )
    yield does("setptr-of-a-pointer", "setptr r3, r1", {1: ALL_DATA}, permission="xp")
    yield does("setptr-of-address-zero", "setptr r1, r1", {1: 1 << 60}, permission="xp")
    yield fails("setptr-in-user-code", "Priv", "setptr r3, r1", {1: ALL_DATA.bits, 3: 7})
    yield fails("setptr-of-a-pointer-in-user-code", "Priv", "setptr r3, r1", {1: ALL_DATA})
    yield fails("setptr-priv-before-malformed", "Priv", "setptr r3, r1", {1: 0})
    yield does("setptr-of-the-last-registers", "setptr r15, r14", {14: ALL_DATA.bits}, permission="xp")
    yield does(
        "setptr-and-load-through-it",
        "setptr r1, r1; ld r2, r1, 0, any, keep",
        {1: ALL_DATA.bits},
        permission="xp",
        cells={DATA: 77},
    )


def cases():
    yield from from_the_address()
    yield from from_the_base()
    yield from moving_tests()
    yield from restricting()
    yield from narrowing()
    yield from making()
