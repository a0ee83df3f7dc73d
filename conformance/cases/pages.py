"""Pages that are mapped and removed, and the frames that they take."""

from case import ALL_DATA, DATA, TOP_ADDRESS, does, fails, runs
from images import CODE, PAGE_BYTES, WORDS, Empty, Slot, pointer

PAGE, CODE_PAGE = DATA // PAGE_BYTES, CODE // PAGE_BYTES
LAST_PAGE = (1 << 42) - 1
WHOLE = pointer("rw", 54, 0)
EMPTY = Empty(3)
XP = {"permission": "xp"}


def mapping():
    for name in ("map", "unmap"):
        code = f"{name} r3, r1"
        given = {"pages": (PAGE,), "spare": 1, **XP}
        yield does(f"{name}-of-a-page-that-is-mapped", code, {1: PAGE, 3: 7}, **given)
        yield does(f"{name}-of-a-page-that-is-not-mapped", code, {1: PAGE + 1, 3: 7}, **given)
        for what, page in {"zero": 0, "one-below-the-limit": LAST_PAGE}.items():
            yield does(f"{name}-of-page-{what}", code, {1: page}, **given)
        yield does(f"{name}-of-page-zero-that-is-mapped", code, {1: 0}, pages=(0,), spare=1, **XP)
        yield does(f"{name}-of-the-last-page-that-is-mapped", code, {1: LAST_PAGE}, pages=(LAST_PAGE,), spare=1, **XP)
        for what, page in {
            "2-to-the-42": 1 << 42,
            "2-to-the-42-and-a-page": (1 << 42) + PAGE,
            "2-to-the-63": 1 << 63,
            "minus-one": WORDS - 1,
            "a-pointer": ALL_DATA,
        }.items():
            yield fails(f"{name}-of-page-{what}", "Bounds", code, {1: page, 3: 7}, **given)
        yield fails(f"{name}-in-user-code", "Priv", code, {1: PAGE, 3: 7}, pages=(PAGE,), spare=1)
        yield fails(f"{name}-priv-before-bounds", "Priv", code, {1: 1 << 42}, spare=1)
        yield does(f"{name}-into-its-register", f"{name} r1, r1", {1: PAGE}, **given)
        yield does(f"{name}-of-the-last-registers", f"{name} r15, r14", {14: PAGE + 1, 15: 3}, **given)
        yield does(f"{name}-twice", f"{name} r3, r1; {name} r4, r1", {1: PAGE + (name == "map")}, **given)
    yield does("map-without-a-frame", "map r3, r1", {1: PAGE, 3: 7}, **XP)
    yield does("map-into-the-last-frame", "map r3, r1; map r4, r2", {1: PAGE, 2: PAGE + 1, 4: 7}, spare=1, **XP)
    yield does("map-until-no-frame-is-free", "map r3, r1; addi r1, r1, 1; br -2", {1: PAGE}, spare=5, turns=21, **XP)
    yield does("map-of-a-mapped-page-without-a-frame", "map r3, r1", {1: PAGE, 3: 7}, pages=(PAGE,), **XP)
    yield does(
        "map-after-unmap-takes-its-frame", "unmap r3, r1; map r4, r2", {1: PAGE, 2: PAGE + 1}, pages=(PAGE,), **XP
    )
    yield does(
        "unmap-frees-one-frame",
        "unmap r3, r1; map r4, r2; map r5, r6",
        {1: PAGE, 2: PAGE + 1, 5: 7, 6: PAGE + 2},
        pages=(PAGE,),
        **XP,
    )
    yield does("unmap-of-no-page-frees-no-frame", "unmap r3, r1; map r4, r1", {1: PAGE, 4: 7}, **XP)


def contents():
    load = "ld r5, r8, 0, any, keep"
    data = {8: ALL_DATA, 1: PAGE, 2: PAGE + 1, 9: 77, 10: pointer("rw", 12, DATA + PAGE_BYTES)}
    yield does(
        "map-gives-zeros", f"map r3, r1; {load}; ld r6, r8, 4088, full, keep", {**data, 5: 9, 6: 9}, spare=1, **XP
    )
    yield does("map-again-gives-zeros", f"unmap r3, r1; map r4, r1; {load}", {**data, 5: 9}, cells={DATA: 5}, **XP)
    yield does(
        "map-again-gives-full-words",
        "unmap r3, r1; map r4, r1; ld r5, r8, 8, full, keep",
        data,
        cells={DATA + 8: EMPTY},
        **XP,
    )
    yield does(
        "map-in-the-frame-of-another-page-gives-zeros",
        "unmap r3, r1; map r4, r2; ld r5, r10, 0, any, keep; ld r6, r10, 8, full, keep",
        {**data, 5: 9},
        cells={DATA: ALL_DATA, DATA + 8: EMPTY},
        **XP,
    )
    yield does(
        "map-after-a-store-gives-zeros",
        f"st r8, r9, 0, any, empty; unmap r3, r1; map r4, r1; {load}",
        {**data, 5: 9},
        pages=(PAGE,),
        **XP,
    )
    yield does(
        "unmap-loses-what-was-stored",
        f"st r8, r9, 0, any, keep; unmap r3, r1; {load}",
        data,
        pages=(PAGE,),
        shows="t 0 3 faulted 5",
        **XP,
    )
    yield does(
        "unmap-after-a-load", f"{load}; unmap r3, r1; {load}", data, cells={DATA: 5}, shows="t 0 3 faulted 5", **XP
    )
    yield does(
        "unmap-leaves-other-pages",
        f"unmap r3, r2; {load}; ld r6, r10, 0, any, keep",
        data,
        cells={DATA: 5, DATA + PAGE_BYTES: 6},
        shows="t 0 3 faulted 5",
        **XP,
    )
    yield does(
        "unmap-the-lower-page",
        f"unmap r3, r1; ld r6, r10, 0, any, keep; {load}",
        data,
        cells={DATA: 5, DATA + PAGE_BYTES: 6},
        shows="t 0 3 faulted 5",
        **XP,
    )
    yield does(
        "unmap-and-store-again",
        "unmap r3, r1; map r4, r1; st r8, r9, 16, full, empty; ld r6, r8, 16, empty, full",
        data,
        cells={DATA + 16: 5},
        **XP,
    )
    yield does(
        "map-the-last-page-and-use-its-last-word",
        "map r3, r1; st r8, r9, 0, any, keep; ld r5, r8, 0, any, keep",
        {1: LAST_PAGE, 8: pointer("rw", 54, TOP_ADDRESS - 8), 9: 77},
        spare=1,
        **XP,
    )
    yield does(
        "map-the-first-page-and-use-its-first-word",
        "map r3, r1; st r8, r9, 0, any, keep; ld r5, r8, 0, any, keep",
        {8: WHOLE, 9: 77},
        spare=1,
        **XP,
    )
    yield does(
        "map-below-all-pages",
        "map r3, r1; st r8, r9, 0, any, keep; ld r5, r10, 0, any, keep; ld r6, r8, 0, any, keep",
        {1: 1, 8: pointer("rw", 12, PAGE_BYTES), 9: 77, 10: ALL_DATA},
        cells={DATA: 5},
        spare=1,
        **XP,
    )
    yield does(
        "map-between-two-pages",
        "map r3, r1; st r8, r9, 0, any, keep; ld r5, r10, 0, any, keep; ld r6, r10, 8192, any, keep",
        {1: PAGE + 1, 8: pointer("rw", 12, DATA + PAGE_BYTES), 9: 77, 10: pointer("rw", 54, DATA)},
        cells={DATA: 5, DATA + 2 * PAGE_BYTES: 6},
        spare=1,
        **XP,
    )


def code():
    yield does("unmap-the-page-that-runs", "unmap r3, r1; nop", {1: CODE_PAGE}, shows="t 0 2 faulted 5", **XP)
    yield does("map-the-page-that-ran", "nop; nop", {}, ip=pointer("xp", 12, DATA), shows="t 0 1 faulted 5", turns=1)
    yield runs(
        "unmap-the-page-of-another-slot",
        [Slot(0, ("unmap r3, r1",), {1: 0x110}, **XP), Slot(1, ("nop", "nop"), at=0x110000)],
        "1 0 1",
        ["t 1 2 faulted 5"],
    )
    yield runs(
        "map-code-that-is-zeros-halts",
        [Slot(0, ("map r3, r1",), {1: PAGE}, **XP), Slot(1, ("jmp r1",), {1: pointer("xu", 12, DATA)})],
        "0 1*2",
        ["state 1 halted"],
        spare=1,
    )
    yield runs(
        "unmap-is-for-all-slots",
        [Slot(0, ("unmap r3, r1",), {1: PAGE}, **XP), Slot(1, ("ld r3, r1, 0, any, keep",) * 2, {1: ALL_DATA})],
        "1 0 1",
        ["t 1 2 faulted 5"],
        cells={DATA: 5},
    )
    yield runs(
        "map-is-for-all-slots",
        [Slot(0, ("map r3, r1",), {1: PAGE}, **XP), Slot(1, ("ld r3, r1, 0, any, keep",), {1: ALL_DATA, 3: 1})],
        "0 1",
        ["t 1 1 did"],
        spare=1,
    )


def cases():
    yield from mapping()
    yield from contents()
    yield from code()
