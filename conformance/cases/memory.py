"""Loads and stores: each test of an access and its edges, each test before those after it, and the synchronisation
bits."""

from case import ALL_DATA, DATA, LAST_WORD, PAGE_LOG, TOP_ADDRESS, does, fails, runs
from images import PAGE_BYTES, Empty, Slot, pointer
from mm.machine.words import Permission

# The three kinds of access of an instruction, as text with places for the offset, and the permissions that allow each.
WAYS = {"ld": "ld r3, r1, {at}, any, keep", "ldset": "ld r3, r1, {at}, any, full", "st": "st r1, r2, {at}, any, keep"}
LOADS, STORES = ("ro", "rw", "xu", "xp"), ("rw",)
STORED = 0x5555
AROUND = {DATA: 11, DATA + 8: 12, LAST_WORD - 8: 13, LAST_WORD: 14}
NEXT_PAGE = DATA + PAGE_BYTES
FIRST, LAST = 0, TOP_ADDRESS - 8
CONDITIONS, SETTINGS = ("any", "full", "empty"), ("keep", "full", "empty")


def reach(name, what, start, at=0, cause=None, cells=None, **more):
    """An access of the kind that `name` says, at an offset from a pointer."""
    code = WAYS[name].format(at=at)
    registers = {1: start, 2: STORED, 3: 7}
    cells = AROUND if cells is None else cells
    if cause:
        return fails(f"{name}-{what}", cause, code, registers, cells, **more)
    return does(f"{name}-{what}", code, registers, cells=cells, **more)


def permissions():
    for name in WAYS:
        allowed = LOADS if name == "ld" else STORES
        for permission in Permission:
            start = pointer(permission.short, PAGE_LOG, DATA)
            yield reach(
                name, f"through-{permission.short}", start, cause=None if permission.short in allowed else "Perm"
            )
        yield reach(name, "through-an-integer", DATA, cause="NotPointer")
        yield reach(name, "through-the-bits-of-a-pointer", ALL_DATA.bits, cause="NotPointer")
    yield fails("ldempty-through-ro", "Perm", "ld r3, r1, 0, any, empty", {1: pointer("ro", 12, DATA)}, AROUND)
    yield fails(
        "ldempty-of-an-empty-word-through-ro",
        "Perm",
        "ld r3, r1, 0, any, empty",
        {1: pointer("ro", 12, DATA)},
        {DATA: Empty(3)},
    )


def bounds():
    for name in WAYS:
        page = pointer("rw", PAGE_LOG, DATA)
        end = pointer("rw", PAGE_LOG, LAST_WORD)
        yield reach(name, "bounds-first-word", page)
        yield reach(name, "bounds-last-word", page, 0xFF8)
        yield reach(name, "bounds-first-after", page, 0x1000, "Bounds", pages=(NEXT_PAGE // PAGE_BYTES,))
        yield reach(name, "bounds-back-to-the-first", end, -0xFF8)
        yield reach(name, "bounds-word-before", page, -8, "Bounds", pages=(DATA // PAGE_BYTES - 1,))
        yield reach(name, "bounds-last-from-the-last", end)
        yield reach(name, "bounds-after-the-last-from-the-last", end, 8, "Bounds", pages=(NEXT_PAGE // PAGE_BYTES,))
        for log in (0, 1, 2):
            yield reach(name, f"bounds-length-{log}-covers-no-word", pointer("rw", log, DATA), 0, "Bounds")
            yield reach(name, f"bounds-length-{log}-covers-no-word-before", pointer("rw", log, DATA + 8), -8, "Bounds")
        yield reach(name, "bounds-length-3-its-word", pointer("rw", 3, DATA + 8))
        yield reach(name, "bounds-length-3-word-after", pointer("rw", 3, DATA), 8, "Bounds")
        yield reach(name, "bounds-length-3-word-before", pointer("rw", 3, DATA + 8), -8, "Bounds")
        yield reach(name, "bounds-length-4-second-word", pointer("rw", 4, DATA), 8)
        yield reach(name, "bounds-length-4-first-word-from-the-second", pointer("rw", 4, DATA + 8), -8)
        yield reach(name, "bounds-length-4-word-after", pointer("rw", 4, DATA), 16, "Bounds")
        ends = {FIRST: 21, (1 << 53) - 8: 22, 1 << 53: 23, LAST: 24}
        yield reach(name, "bounds-length-53-last-word", pointer("rw", 53, (1 << 53) - 8), cells=ends)
        yield reach(name, "bounds-length-53-first-after", pointer("rw", 53, (1 << 53) - 8), 8, "Bounds", ends)
        yield reach(name, "bounds-length-53-first-word", pointer("rw", 53, 1 << 53), cells=ends)
        yield reach(name, "bounds-length-53-word-before", pointer("rw", 53, 1 << 53), -8, "Bounds", ends)
        yield reach(name, "bounds-length-54-over-the-middle", pointer("rw", 54, (1 << 53) - 8), 8, cells=ends)
        yield reach(name, "bounds-first-word-of-the-space", pointer("rw", 54, 8), -8, cells=ends)
        yield reach(name, "bounds-before-the-space", pointer("rw", 54, 0), -8, "Bounds", ends)
        yield reach(name, "bounds-last-word-of-the-space", pointer("rw", 54, LAST - 8), 8, cells=ends)
        yield reach(name, "bounds-after-the-space", pointer("rw", 54, LAST), 8, "Bounds", ends)
        yield reach(name, "bounds-half-after-the-space", pointer("rw", 54, LAST + 4), 0, "Bounds", ends)
        yield reach(name, "bounds-most-offset-after-the-space", pointer("rw", 54, LAST), 2**31 - 8, "Bounds", ends)
        yield reach(name, "bounds-least-offset-before-the-space", pointer("rw", 54, FIRST), -(2**31), "Bounds", ends)
        far = {2**31 - 8: 31, 2**31: 32}
        yield reach(name, "bounds-most-offset", pointer("rw", 54, 0), 2**31 - 8, cells=far)
        yield reach(name, "bounds-least-offset", pointer("rw", 54, 2**32), -(2**31), cells=far)
        yield reach(name, "bounds-pointer-at-the-last-byte", pointer("rw", 12, DATA + 0xFFF), -7, cells=AROUND)


def alignment():
    for name in WAYS:
        for by in range(1, 8):
            yield reach(name, f"misaligned-by-{by}", pointer("rw", PAGE_LOG, DATA + by), 0, "Align")
        yield reach(name, "misaligned-by-its-offset", ALL_DATA, 4, "Align")
        yield reach(name, "misaligned-by-a-negative-offset", pointer("rw", PAGE_LOG, DATA + 16), -1, "Align")
        yield reach(name, "misaligned-over-the-last-words", ALL_DATA, 0xFF4, "Align")
        yield reach(name, "aligned-by-its-offset", pointer("rw", PAGE_LOG, DATA + 5), 3)
        yield reach(name, "aligned-by-a-negative-offset", pointer("rw", PAGE_LOG, DATA + 13), -5)


def pages():
    for name in WAYS:
        whole = pointer("rw", 54, NEXT_PAGE)
        yield reach(name, "nopage-after-a-page", whole, 0, "NoPage")
        yield reach(name, "nopage-before-a-page", whole, -PAGE_BYTES - 8, "NoPage")
        yield reach(name, "page-last-word-of-a-page", whole, -8)
        yield reach(name, "nopage-at-zero", pointer("rw", 54, 0), 0, "NoPage")
        yield reach(name, "nopage-at-the-top", pointer("rw", 54, LAST), 0, "NoPage")
        for bit in (12 + 8, 32, 45, 53):
            yield reach(name, f"nopage-bit-{bit}-of-the-address", pointer("rw", 54, DATA ^ 1 << bit), 0, "NoPage")


def order():
    key, integer = pointer("key", PAGE_LOG, DATA), ALL_DATA.bits
    small, off, gone = pointer("rw", 3, DATA), pointer("rw", PAGE_LOG, DATA + 4), pointer("rw", 54, NEXT_PAGE)
    empty = {DATA: Empty(3), DATA + 8: Empty(4), LAST_WORD: Empty(5)}
    waits = {
        "ld": "ld r3, r1, {at}, full, keep",
        "ldset": "ld r3, r1, {at}, full, empty",
        "st": "st r1, r2, {at}, full, keep",
    }
    for name, way in waits.items():
        for what, cause, start, at in (
            ("notpointer-before-perm", "NotPointer", key.bits, 0),
            ("notpointer-before-bounds", "NotPointer", small.bits, 8),
            ("notpointer-before-align", "NotPointer", off.bits, 0),
            ("notpointer-before-nopage", "NotPointer", gone.bits, 0),
            ("notpointer-before-sync", "NotPointer", integer, 0),
            ("perm-before-bounds", "Perm", key, 0x1000),
            ("perm-before-align", "Perm", key, 4),
            ("perm-before-nopage", "Perm", pointer("key", 54, NEXT_PAGE), 0),
            ("perm-before-sync", "Perm", key, 0),
            ("bounds-before-align", "Bounds", small, 12),
            ("bounds-before-align-in-its-last-bytes", "Bounds", small, 4),
            ("bounds-before-nopage", "Bounds", ALL_DATA, 0x1000),
            ("bounds-before-sync", "Bounds", small, 8),
            ("align-before-nopage", "Align", gone, 4),
            ("align-before-sync", "Align", off, 0),
            ("sync-last-of-all", "Sync", ALL_DATA, 0),
        ):
            yield fails(f"{name}-{what}", cause, way.format(at=at), {1: start, 2: STORED, 3: 7}, empty)


def bits():
    """Each condition and setting over a full and an empty word."""
    for before in CONDITIONS:
        for after in SETTINGS:
            for is_full in (True, False):
                passes = before == "any" or (before == "full") == is_full
                cell = {DATA: 9 if is_full else Empty(9)}
                what = f"{before}-{after}-of-a-{'full' if is_full else 'empty'}-word"
                for name, code in (
                    ("ld", f"ld r3, r1, 0, {before}, {after}"), ("st", f"st r1, r2, 0, {before}, {after}")
                ):
                    if passes:
                        yield does(f"{name}-{what}", code, {1: ALL_DATA, 2: STORED, 3: 7}, cells=cell)
                    else:
                        yield fails(f"{name}-{what}", "Sync", code, {1: ALL_DATA, 2: STORED, 3: 7}, cell)


def words():
    """What is loaded and stored: words with their tags, and where they go."""
    held = pointer("key", 54, TOP_ADDRESS - 1)
    yield does("ld-a-pointer", "ld r3, r1, 0, any, keep", {1: ALL_DATA}, cells={DATA: held})
    yield does(
        "ld-an-integer-with-the-bits-of-a-pointer", "ld r3, r1, 0, any, keep", {1: ALL_DATA}, cells={DATA: held.bits}
    )
    yield does("ld-over-its-pointer", "ld r1, r1, 8, any, keep", {1: ALL_DATA}, cells={DATA + 8: 5})
    yield does("ld-a-pointer-and-load-through-it", "ld r1, r1, 0, any, keep; ld r1, r1, 8, any, keep", {1: ALL_DATA},
               cells={DATA: pointer("ro", 4, DATA + 16), DATA + 24: 6})
    yield does("ld-to-the-last-register", "ld r15, r14, 0, any, keep", {14: ALL_DATA}, cells=AROUND)
    yield does("ld-code", "ld r3, r1, 0, any, keep", {1: pointer("xu", 8, 0x100000)})
    yield does(
        "ld-each-place-of-a-block",
        "; ".join(f"ld r{place + 2}, r1, {8 * place}, any, keep" for place in range(9)),
        {1: ALL_DATA},
        cells={DATA + 8 * place: held if place % 3 == 1 else 40 + place for place in range(9)},
    )
    for after in SETTINGS:
        code = f"ld r3, r1, 0, any, {after}; ld r4, r1, 0, any, keep"
        yield does(f"ld-{after}-leaves-a-pointer", code, {1: ALL_DATA}, cells={DATA: held})
        yield does(f"ld-{after}-leaves-a-pointer-in-an-empty-word", code, {1: ALL_DATA}, cells={DATA: Empty(held)})
    yield does("st-a-pointer", "st r1, r2, 0, any, keep", {1: ALL_DATA, 2: held}, cells=AROUND)
    yield does(
        "st-an-integer-over-a-pointer", "st r1, r2, 0, any, keep", {1: ALL_DATA, 2: held.bits}, cells={DATA: held}
    )
    yield does("st-its-own-pointer", "st r1, r1, 0, any, keep", {1: ALL_DATA}, cells=AROUND)
    yield does("st-the-word-that-is-there", "st r1, r2, 0, any, keep", {1: ALL_DATA, 2: 5}, cells={DATA: 5})
    yield does(
        "st-the-word-that-is-there-sets-the-bit", "st r1, r2, 0, any, empty", {1: ALL_DATA, 2: 5}, cells={DATA: 5}
    )
    yield does("st-of-the-last-registers", "st r14, r15, 8, any, keep", {14: ALL_DATA, 15: 6}, cells=AROUND)
    yield does(
        "st-and-load-again",
        "st r1, r2, 0, any, keep; ld r3, r1, 0, any, keep; ld r4, r1, 8, any, keep",
        {1: ALL_DATA, 2: held},
        cells=AROUND,
    )
    yield does(
        "st-changes-one-word",
        "st r1, r2, 8, any, empty; ld r3, r1, 0, full, keep; ld r4, r1, 16, full, keep",
        {1: ALL_DATA, 2: 1},
        cells=AROUND,
    )
    yield does(
        "st-in-two-pages",
        "st r1, r2, 0, any, keep; st r1, r3, -8, any, keep; ld r4, r1, 0, any, keep; ld r5, r1, -8, any, keep",
        {1: pointer("rw", 54, NEXT_PAGE), 2: 1, 3: 2},
        pages=(NEXT_PAGE // PAGE_BYTES, DATA // PAGE_BYTES),
    )
    yield does(
        "st-into-the-next-instruction",
        "st r1, r2, 8, any, keep; halt; nop",
        {1: pointer("rw", 8, 0x100000), 2: 0x0230000000000005},
        turns=3,
        shows="r 0 3 i0000000000000005",
    )
    yield does(
        "st-a-pointer-into-the-next-instruction",
        "st r1, r1, 8, any, keep; nop",
        {1: pointer("rw", 8, 0x100000)},
        shows="t 0 2 faulted 7",
    )


def long_ago():
    """Words that were stored long ago, with many others in between: what a cache or a translation buffer may lose."""
    far = [0, 0x1000, 0x2000, 0x40, 0x1040]
    yield again("st-in-words-4096-bytes-apart-and-load", far, 3)
    yield again("st-in-each-block-of-two-pages-and-load", [64 * block for block in range(128)], 2)
    yield again("st-in-twenty-pages-and-load", [PAGE_BYTES * page + 8 for page in range(20)], 20)
    yield again("st-in-other-blocks-of-twenty-pages-and-load", [(PAGE_BYTES + 64) * page for page in range(20)], 20)
    # The last store takes the line of the first one's block, whose page was looked up before those of fifteen others.
    others = [(PAGE_BYTES + 64) * page for page in range(1, 15)]
    yield again("st-over-a-block-of-a-page-used-long-ago", [0x800 + at for at in (0, *others, 15 * PAGE_BYTES)], 16)
    yield again("st-in-the-same-words-twice-and-load", [*far, *reversed(far)], 3)
    held = {1: ALL_DATA, 2: pointer("key", 54, 9)}
    for name, text in {"ld": "ld r3, r1, {}, empty, full", "st": "st r1, r1, {}, empty, keep"}.items():
        for what, at in {"of-the-word": 0, "of-its-block": 8, "of-its-page": 64}.items():
            code = f"st r1, r2, 0, any, keep; {text.format(at)}"
            load = Slot(1, ("ld r4, r1, 0, any, keep",), held)
            yield runs(
                f"{name}-that-fails-by-the-bit-{what}-loses-nothing",
                [Slot(0, tuple(code.split("; ")), held), load],
                "0*3 1",
                ["t 0 3 blocked", "r 1 4 p"],
                cells=AROUND,
            )


def again(name, places, pages):
    """Another word is stored at each place, and then each is loaded."""
    code = [line for at in places for line in (f"st r1, r2, {at}, any, keep", "addi r2, r2, 1")]
    code += [f"ld r3, r1, {at}, any, keep" for at in places]
    mapped = tuple(DATA // PAGE_BYTES + page for page in range(pages))
    return does(name, code, {1: pointer("rw", 54, DATA), 2: 0x70}, pages=mapped, log=12)


def between_slots():
    """Words and bits that one slot leaves for another."""
    registers = {1: ALL_DATA, 2: 5}
    yield runs(
        "sync-hands-a-word-over",
        [Slot(0, ("ld r3, r1, 0, full, empty",), registers), Slot(1, ("st r1, r2, 0, empty, full",), registers)],
        "0*2 1 0",
        ["t 0 2 blocked", "t 1 1 did", "t 0 3 did"],
        cells={DATA: Empty(0)},
    )
    yield runs(
        "sync-waits-for-an-empty-word",
        [Slot(0, ("st r1, r2, 0, empty, full",), registers), Slot(1, ("ld r3, r1, 0, full, empty",), registers)],
        "0*2 1 0",
        ["t 0 2 blocked", "t 1 1 did", "t 0 3 did"],
        cells={DATA: 8},
    )
    yield runs(
        "sync-two-wait-for-one-word",
        [
            Slot(slot, ("ld r3, r1, 0, full, empty",), registers) for slot in (0, 1)
        ] + [Slot(2, ("st r1, r2, 0, empty, full",), registers)],
        "0 1 2 1 0",
        ["t 1 2 did", "t 0 2 blocked"],
        cells={DATA: Empty(0)},
    )
    yield runs(
        "sync-is-not-the-reader's-to-take-without-a-setting",
        [Slot(slot, ("ld r3, r1, 0, full, keep",), registers) for slot in (0, 1)],
        "0 1",
        ["t 0 1 did", "t 1 1 did"],
        cells={DATA: 8},
    )
    yield runs(
        "st-is-seen-by-another-slot",
        [Slot(0, ("st r1, r2, 0, any, keep",), registers), Slot(1, ("ld r3, r1, 0, any, keep",), registers)],
        "0 1",
        ["r 1 3 i0000000000000005"],
        pages=(DATA // PAGE_BYTES,),
    )
    yield runs(
        "st-into-another-slot's-code",
        [Slot(0, ("st r1, r2, 0, any, keep",), {1: pointer("rw", 8, 0x100100), 2: 0}), Slot(1, ("nop", "nop"))],
        "0 1",
        ["state 1 halted"],
    )


def cases():
    yield from permissions()
    yield from bounds()
    yield from alignment()
    yield from pages()
    yield from order()
    yield from bits()
    yield from words()
    yield from long_ago()
    yield from between_slots()
