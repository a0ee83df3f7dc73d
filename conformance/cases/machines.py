"""Images at the limits of both versions, schedules with idle items, and round robin."""

from case import ALL_DATA, DATA, TOP_ADDRESS, Case, runs
from images import CODE, PAGE_BYTES, WORDS, Empty, Image, Slot, pointer

OUT = ("out r1", "halt")


def limits():
    """Slots, groups, frames and pages up to their limits."""
    for version, slots, frames in ((1, 16, 256), (2, 64, 4096)):
        page = CODE // PAGE_BYTES
        mapped = tuple(range(page, page + frames))
        last = (page + frames) * PAGE_BYTES - 8
        many = [
            Slot(
                number,
                ("st r2, r1, 0, any, keep", "ld r3, r2, 0, any, keep", "out r3"),
                {1: number + 1, 2: pointer("rw", 54, last - number * (frames // slots * PAGE_BYTES + 8))},
                group=slots - 1 - number,
                at=CODE,
                log=12,
            )
            for number in range(slots)
        ]
        turns = " ".join(f"{number}*3" for number in reversed(range(slots)))
        yield runs(
            f"image-version-{version}-most-slots-and-pages",
            many,
            turns,
            [f"out {slots - 1} 01", f"t {slots - 1} 3 did"],
            pages=mapped,
            frames=frames,
            version=version,
        )
        yield runs(
            f"image-version-{version}-most-frames-and-few-pages",
            [Slot(0, ("map r3, r1",), {1: DATA >> 12}, permission="xp")],
            "0",
            ["t 0 1 did"],
            frames=frames,
            version=version,
        )
        yield runs(
            f"image-version-{version}-every-frame-is-mapped",
            [Slot(0, ("map r3, r1", "addi r1, r1, 1", "bnz r3, -2"), {1: DATA >> 12}, permission="xp")],
            f"0*{3 * frames}",
            [f"page {(DATA >> 12) + frames - 2:011x} new", f"t 0 {3 * frames} did"],
            frames=frames,
            version=version,
        )
    yield runs(
        "image-one-slot-one-frame-no-page",
        [Slot(0, (), ip=pointer("xu", 12, CODE))],
        "0",
        ["t 0 1 faulted 5"],
        frames=1,
    )
    yield runs("image-slot-15-group-15-alone", [Slot(15, OUT, {1: 7}, at=CODE)], "15*2", ["out 15 07"])
    yield runs("image-slot-63-group-63-alone", [Slot(63, OUT, {1: 7}, at=CODE)], "63*2", ["out 63 07"], version=2)
    yield runs(
        "image-version-2-plain",
        [Slot(0, ("ld r1, r8, 0, any, keep", "mov r2, r1"), {8: ALL_DATA})],
        "0*2",
        ["t 0 2 did"],
        cells={DATA: 5},
        version=2,
    )
    yield runs(
        "image-version-2-split-most-slots",
        [
            Slot(number, ("ld r1, r8, 0, any, keep", "out r1"), {8: ALL_DATA}, group=0, at=CODE, log=4)
            for number in range(64)
        ],
        " ".join(map(str, range(64))) + " " + " ".join(
            str(128 + number) for number in range(64)
        ) + " " + " ".join(map(str, range(64))),
        ["m 63 1", "t 63 2 did"],
        cells={DATA: 5},
        version=2,
        split=True,
    )
    words = {
        0: WORDS - 1,
        1: 1 << 63,
        2: pointer("ro", 0, 0),
        3: pointer("key", 54, TOP_ADDRESS - 1),
        14: 1,
        15: pointer("eu", 53, 1 << 53),
    }
    yield runs(
        "image-registers-of-each-kind",
        [Slot(0, tuple(f"isptr r{number}, r{number}" for number in range(16)), words)],
        "0*16",
        ["r 0 15 i0000000000000001"],
    )
    cells = {
        DATA + 8 * place: [place, pointer("key", 54, place), Empty(place), Empty(pointer("ro", 3, place))][mixed(place)]
        for place in range(512)
    }
    places = sorted({*range(10), *range(0, 512, 37), *range(60, 70), *range(250, 260), *range(503, 512)})
    code = [f"ld r2, r1, {8 * place}, {'empty' if mixed(place) > 1 else 'full'}, keep" for place in places]
    yield runs(
        "image-cells-of-each-kind",
        [Slot(0, tuple(code), {1: ALL_DATA}, log=9)],
        f"0*{len(code)}",
        [f"t 0 {len(code)} did"],
        cells=cells,
    )
    ends = {0: 1, 8: 2, TOP_ADDRESS - 8: 3}
    yield runs(
        "image-pages-at-both-ends",
        [
            Slot(
                0,
                ("ld r2, r1, 0, any, keep", "ld r3, r4, 0, any, keep"),
                {1: pointer("ro", 54, 0), 4: pointer("ro", 54, TOP_ADDRESS - 8)},
            ),
        ],
        "0*2",
        ["r 0 2 i0000000000000001", "r 0 3 i0000000000000003"],
        cells=ends,
    )
    yield runs("image-halted-slot", [Slot(0, OUT, halted=True), Slot(1, OUT)], "0*2 1*2 0", ["t 1 2 did"])
    yield runs(
        "image-code-in-a-page-of-user-and-privileged-slots",
        [
            Slot(0, ("setptr r1, r2",), {2: 1 << 60}, permission="xp", at=CODE),
            Slot(1, (), {2: 1 << 60}, ip=pointer("xu", 8, CODE)),
        ],
        "0 1",
        ["t 0 1 did", "t 1 1 faulted 8"],
    )


def mixed(place):
    """A number below 4 for each place, without a period of 8 or 64 places."""
    return (place * 5 + place // 8 * 3 + place // 64) % 4


LOOP = ("addi r1, r1, 1", "br -1")


def schedules():
    """Items that name nothing that runs, and how a schedule is written."""
    def under(name, schedule, cycles, shows, slots=(Slot(1, LOOP), Slot(3, OUT))):
        return Case(name, Image(tuple(slots)), cycles, schedule, tuple(shows))

    yield under("schedule-slots-that-are-not-there", "0 1 2 4 15 1", 6, ["t 1 2 did"])
    yield under("schedule-items-above-all-slots", "16 63 64 127 128 129 255 1", 8, ["t 1 1 did"])
    yield under("schedule-of-a-slot-that-has-halted", "3*5 1", 6, ["t 3 2 did", "t 1 1 did"])
    yield under("schedule-idle-at-both-ends", "0*3 1 0*3", 7, ["t 1 1 did"])
    yield under("schedule-of-idle-items-alone", "0*9", 9, [])
    yield under("schedule-empty", "", 5, [])
    yield under("schedule-of-comments-alone", "# nothing\n  # 1 1 1", 5, [])
    yield under("schedule-with-comments-and-blanks", "1 # 3 3\n\t3\r\n1#\n1*2\n", 9, ["t 1 4 did", "t 3 1 did"])
    yield under("schedule-longer-than-the-cycles", "1*3 3*2 1*9", 4, ["t 3 1 did"])
    yield under("schedule-shorter-than-the-cycles", "1*3", 100, ["t 1 3 did"])
    yield under("schedule-cut-within-a-repetition", "3 1*10", 5, ["t 1 4 did"])
    yield under("schedule-of-no-cycles", "1*3", 0, [])
    yield under("schedule-alternating", "1 3 1 3 1 3 1", 7, ["t 1 4 did", "t 3 2 did"])
    yield under("schedule-of-a-waiting-slot", "0 0 1 0 1 0", 6, ["t 0 1 faulted 11", "t 1 2 did", "t 0 2 did"],
                [Slot(0, ("trap 1", "halt"), handler=1), Slot(1, ("evt r0", "resume r8, skip"), {8: 0})])
    yield under("schedule-of-a-taken-slot", "0 1 0 0 1 0", 6, ["t 1 2 did", "t 0 2 did"],
                [Slot(0, ("trap 1", "halt"), handler=1), Slot(1, ("evt r0", "resume r8, skip"), {8: 0})])
    yield under("schedule-most-of-one-item", "0*1000000", 1000000, ["t 0 2 did"], [Slot(0, ("nop", "halt"))])


def robin():
    """Without a schedule: the next running slot after the last one, by number."""
    def order(name, cycles, shows, slots, **image):
        return Case(name, Image(tuple(slots), **image), cycles, None, tuple(shows))

    loops = {number: Slot(number, LOOP) for number in range(16)}
    yield order("robin-one-slot", 6, ["t 0 6 did"], [loops[0]])
    yield order("robin-two-slots", 6, ["t 0 3 did", "t 1 3 did"], [loops[0], loops[1]])
    yield order("robin-begins-with-the-least", 5, ["t 3 2 did"], [loops[3], loops[7], loops[15]])
    yield order(
        "robin-begins-with-the-least-that-runs", 5, ["t 7 3 did"], [Slot(3, LOOP, halted=True), loops[7], loops[15]]
    )
    yield order("robin-goes-round-after-slot-15", 40, ["t 15 2 did", "t 0 3 did"], loops.values())
    yield order(
        "robin-passes-over-slots-that-halt",
        9,
        ["state 1 halted", "t 2 3 did"],
        [loops[0], Slot(1, ("nop", "halt")), loops[2]],
    )
    yield order(
        "robin-ends-when-no-slot-runs", 50, ["state 1 halted"], [Slot(0, ("halt",)), Slot(1, ("nop", "nop", "halt"))]
    )
    yield order("robin-of-no-running-slot", 50, [], [Slot(0, ("halt",), halted=True)])
    yield order("robin-of-no-cycles", 0, [], [loops[0]])
    yield order(
        "robin-ends-when-all-wait",
        50,
        ["state 0 waiting", "state 1 waiting"],
        [Slot(0, ("trap 1",), handler=1), Slot(1, ("trap 1",), handler=0)],
    )
    yield order(
        "robin-goes-on-while-a-slot-is-blocked", 8, ["t 0 4 blocked", "t 1 4 did"], [Slot(0, ("evt r0",)), loops[1]]
    )
    yield order("robin-comes-back-to-a-slot-that-is-resumed", 9, ["state 0 waiting", "state 0 halted"],
                [Slot(0, ("trap 1", "halt"), handler=1), Slot(1, ("evt r0", "resume r8, skip", "br 0"), {8: 0})])
    yield order(
        "robin-after-the-last-slot-halts", 7, ["state 2 halted", "t 0 3 did"], [loops[0], loops[1], Slot(2, ("halt",))]
    )
    yield order(
        "robin-of-64-slots",
        130,
        ["t 63 2 did", "t 1 3 did"],
        [Slot(number, LOOP, at=CODE, log=4) for number in range(64)],
        version=2,
    )
    yield order(
        "robin-delivers-by-need-alone",
        7,
        ["t 0 2 blocked"],
        [Slot(0, ("ld r1, r8, 0, any, keep", "mov r2, r1", "halt"), {8: ALL_DATA})],
        cells={DATA: 5},
        version=2,
        split=True,
    )


def cases():
    yield from limits()
    yield from schedules()
    yield from robin()
