"""Faults, events and handlers: what `evt`, `resume`, `rreg` and `wreg` meet."""

from case import ALL_DATA, DATA, fails, runs
from images import CODE, WORDS, Empty, Slot, pointer

# What a handler does with the slot whose number is in r8.
SERVING = {"resume-retry": "resume r8, retry", "resume-skip": "resume r8, skip", "resume-kill": "resume r8, kill",
           "rreg": "rreg r9, r8, 5", "wreg": "wreg r8, r10, 5"}
EMPTY = Empty(3)
HELD = {8: 1, 9: 7, 10: ALL_DATA}
TRAPS = ("trap 7", "ldi r6, 1", "halt")


def served(**slot):
    return Slot(1, TRAPS, {5: 55}, handler=0, **slot)


def states():
    """Each operation that serves a slot, on a slot in each state."""
    for name, text in SERVING.items():
        done = [Slot(0, ("evt r0", text, "rreg r11, r8, 5"), HELD), served()]
        yield runs(f"{name}-of-a-taken-slot", done, "1 0*2 1", ["t 0 2 did"])
        refused = {
            "waiting-slot": ([Slot(0, (text,), HELD), served()], "1 0", 1),
            "running-slot": ([Slot(0, (text,), HELD), served()], "0", 1),
            "halted-slot": ([Slot(0, (text,), HELD), served(halted=True)], "0", 1),
            "killed-slot": ([Slot(0, ("evt r0", "resume r8, kill", text), HELD), served()], "1 0*3", 3),
            "retried-slot": ([Slot(0, ("evt r0", "resume r8, retry", text), HELD), served()], "1 0*3", 3),
            "skipped-slot": ([Slot(0, ("evt r0", "resume r8, skip", text), HELD), served()], "1 0*3", 3),
            "slot-that-waits-again": ([Slot(0, ("evt r0", "resume r8, retry", text), HELD), served()], "1 0*2 1 0", 3),
            "slot-that-is-not-there": ([Slot(0, (text,), HELD)], "0", 1),
            "itself": ([Slot(0, (text,), {**HELD, 8: 0})], "0", 1),
            "itself-with-a-handler": ([Slot(0, (text,), {**HELD, 8: 0}, handler=1), Slot(1, ("evt r0",))], "0 1", 1),
            "slot-without-a-handler": ([Slot(0, (text,), HELD), Slot(1, TRAPS)], "0", 1),
            "slot-that-faulted-without-a-handler": ([Slot(0, (text,), HELD), Slot(1, TRAPS)], "1 0", 1),
            "slot-that-another-serves-and-waits": (
                [Slot(0, (text,), HELD), Slot(1, TRAPS, handler=2), Slot(2, ("evt r0",))], "1 0", 1
            ),
            "slot-that-another-has-taken": (
                [Slot(0, (text,), HELD), Slot(1, TRAPS, handler=2), Slot(2, ("evt r0",))], "1 2 0", 1
            ),
            "its-own-handler": ([Slot(0, (text,), HELD, handler=1), Slot(1, ("evt r0", "halt"))], "0 1", 1),
        }
        for what, (slots, schedule, turn) in refused.items():
            yield runs(
                f"{name}-of-a-{what}" if not what.startswith("it") else f"{name}-of-{what}",
                slots,
                schedule,
                [f"t 0 {turn} faulted 12"],
            )
        for what, number in {
            "256-and-1": 257,
            "2-to-the-32-and-1": (1 << 32) + 1,
            "2-to-the-63-and-1": (1 << 63) + 1,
            "128-and-1": 129,
            "minus-one": WORDS - 1,
            "a-pointer": pointer("ro", 0, 1),
        }.items():
            slots = [Slot(0, ("evt r0", text), {**HELD, 8: number}), served()]
            yield runs(f"{name}-of-number-{what}", slots, "1 0*2", ["t 0 2 faulted 12"])
        yield fails(f"{name}-event-of-no-slot", "NoSlot", text, {**HELD, 8: 9})


def events():
    """What `evt` gives, and in which order."""
    yield runs("evt-of-an-empty-queue", [Slot(0, ("evt r0",), {0: 1, 1: 2, 2: 3, 3: 4})], "0*3", ["t 0 3 blocked"])
    yield runs(
        "evt-of-an-empty-queue-with-a-handler",
        [Slot(0, ("evt r0",), handler=1), Slot(1, ("evt r0",))],
        "0*2 1",
        ["t 0 2 blocked", "t 1 1 blocked"],
    )
    for register in (0, 1, 11, 12):
        before = {number: ALL_DATA for number in range(16)}
        yield runs(
            f"evt-into-r{register}",
            [Slot(0, (f"evt r{register}",), before), Slot(1, ("ld r1, r2, 8, any, keep",), {2: 44}, handler=0)],
            "1 0",
            ["t 0 1 did"],
        )
    yield runs(
        "evt-oldest-first",
        [
            Slot(0, ("evt r0", "evt r4", "evt r8")),
            *(Slot(number, (f"trap {number}",), handler=0) for number in (1, 2, 3)),
        ],
        "3 1 2 0*3",
        ["r 0 0 i000000000000030b", "r 0 4 i000000000000010b", "r 0 8 i000000000000020b"],
    )
    yield runs(
        "evt-after-the-last-is-blocked",
        [Slot(0, ("evt r0", "evt r4")), Slot(1, TRAPS, handler=0)],
        "1 0*3",
        ["t 0 3 blocked"],
    )
    yield runs(
        "evt-wakes-when-an-event-comes",
        [Slot(0, ("evt r0",)), Slot(1, TRAPS, handler=0)],
        "0*2 1 0",
        ["t 0 2 blocked", "t 0 3 did"],
    )
    yield runs(
        "evt-of-its-own-queue-alone",
        [Slot(0, ("evt r0",)), Slot(1, TRAPS, handler=2), Slot(2, ("evt r0",))],
        "1 0 2",
        ["t 0 1 blocked", "t 2 1 did"],
    )
    yield runs(
        "evt-of-an-event-that-came-again",
        [Slot(0, ("evt r0", "resume r8, retry", "evt r4"), {8: 1}), Slot(1, TRAPS, handler=0)],
        "1 0*2 1 0",
        ["event 0 1 11", "t 0 3 did"],
    )
    yield runs(
        "evt-of-slot-15", [Slot(0, ("evt r0",)), Slot(15, TRAPS, handler=0)], "15 0", ["r 0 0 i0000000000000f0b"]
    )
    yield runs(
        "evt-of-slot-63",
        [Slot(0, ("evt r0",)), Slot(63, TRAPS, handler=0, at=CODE + 0x800)],
        "63 0",
        ["r 0 0 i0000000000003f0b"],
        version=2,
    )
    yield runs(
        "evt-of-a-slot-of-privileged-code",
        [Slot(0, ("evt r0",)), Slot(1, TRAPS, handler=0, permission="xp")],
        "1 0",
        ["t 0 1 did"],
    )
    for imm in (0, 1, -1, 2**31 - 1, -(2**31)):
        yield fails(f"trap-{imm}", "Trap", f"trap {imm}")
    yield runs(
        "trap-of-all-faults-and-skip",
        [
            Slot(0, ("evt r0", "resume r8, skip", "br -2"), {8: 1}),
            Slot(
                1,
                FAULTING,
                {1: ALL_DATA.bits, 2: pointer("key", 4, DATA), 3: ALL_DATA, 4: 3, 5: pointer("rw", 54, 0)},
                handler=0,
            ),
        ],
        " ".join(["1 0*3"] * len(FAULTING)),
        [f"t 1 {len(FAULTING)} faulted"],
        cells={DATA: 5},
    )


FAULTING = (
    "ld r9, r1, 8, any, keep",
    "ld r9, r2, -8, any, keep",
    "ld r9, r3, -8, any, keep",
    "st r3, r4, 1, any, keep",
    "st r5, r3, 16, any, keep",
    "st r3, r5, 0, empty, keep",
    "setptr r9, r1",
    "divu r9, r3, r0",
    "restrict r9, r3, r0",
    "trap -3",
    "rreg r9, r4, 2",
    "wreg r4, r3, 2",
    "resume r3, kill",
    "jal r9, r2",
    "jmp r3",
    "lea r9, r3, r1",
    "leai r9, r3, -1",
    "leab r9, r2, r1",
    "subseg r9, r3, r3",
    "br -99",
    "bz r0, -98",
    "bnz r1, 97",
    "lip r9, -96",
    "map r9, r1",
    "unmap r9, r3",
)


def resuming():
    """What comes of a slot that is resumed."""
    skips = Slot(0, ("evt r0", "resume r8, skip"), {8: 1})
    retries = Slot(0, ("evt r0", "resume r8, retry"), {8: 1})
    yield runs(
        "resume-skip-goes-on-after-the-fault",
        [skips, Slot(1, TRAPS, handler=0)],
        "1 0*2 1*2",
        ["r 1 6 i0000000000000001", "state 1 halted"],
    )
    yield runs("resume-retry-faults-again", [retries, Slot(1, TRAPS, handler=0)], "1 0*2 1", ["t 1 2 faulted 11"])
    yield runs(
        "resume-kill-halts-for-good",
        [Slot(0, ("evt r0", "resume r8, kill"), {8: 1}), Slot(1, TRAPS, handler=0)],
        "1 0*2 1*2",
        ["state 1 halted"],
    )
    last = ("nop",) * 31 + ("trap 1",)
    yield runs(
        "resume-skip-in-the-last-word-is-past",
        [skips, Slot(1, last, start=31, handler=0)],
        "1 0*2 1",
        ["ip 1 p3200000000", "t 1 2 faulted 3"],
    )
    passed = ("nop",) * 32
    yield runs(
        "resume-skip-of-a-slot-that-is-past",
        [Slot(0, ("evt r0", "resume r8, skip", "evt r0"), {8: 1}), Slot(1, passed, start=31, handler=0)],
        "1*2 0*2 1 0",
        ["t 1 3 faulted 3"],
    )
    yield runs(
        "resume-retry-of-a-slot-that-is-past",
        [retries, Slot(1, passed, start=31, handler=0)],
        "1*2 0*2 1",
        ["t 1 3 faulted 3"],
    )
    yield runs(
        "resume-skip-of-a-misaligned-pointer",
        [skips, Slot(1, TRAPS, ip=pointer("xu", 8, CODE + 0x101), handler=0)],
        "1 0*2 1",
        ["t 1 2 faulted 4"],
    )
    for what, at, end in (
        ("to-the-last-byte", 0xF7, "ip 1 p32000000001001ff"), ("to-no-byte", 0xF9, "ip 1 p32000000001001f9 past")
    ):
        slot = Slot(1, TRAPS, ip=pointer("xu", 8, CODE + 0x100 + at), handler=0)
        name = f"resume-skip-of-a-misaligned-pointer-{what}"
        yield runs(name, [skips, slot], "1 0*2 1", [end, "t 1 2 faulted 3"])
    yield runs(
        "resume-skip-at-the-top-of-the-space",
        [skips, Slot(1, ("trap 1",), at=(1 << 54) - 8, ip=pointer("xu", 54, (1 << 54) - 8), handler=0)],
        "1 0*2 1",
        ["t 1 2 faulted 3"],
    )
    yield runs(
        "resume-skip-of-a-jump",
        [skips, Slot(1, ("jmp r0", "ldi r6, 1"), handler=0)],
        "1 0*2 1",
        ["r 1 6 i0000000000000001"],
    )
    yield runs(
        "resume-retry-after-a-page-came",
        [
            Slot(0, ("evt r0", "map r9, r10", "resume r8, retry"), {8: 1, 10: DATA >> 12}, permission="xp"),
            Slot(1, ("ld r3, r1, 0, any, keep",), {1: ALL_DATA, 3: 9}, handler=0),
        ],
        "1 0*3 1",
        ["t 1 2 did"],
        spare=1,
    )
    yield runs(
        "resume-retry-after-a-register-was-mended",
        [
            Slot(0, ("evt r0", "wreg r8, r10, 1", "resume r8, retry"), HELD),
            Slot(1, ("ld r3, r1, 0, any, keep",), handler=0),
        ],
        "1 0*3 1",
        ["t 1 2 did"],
        cells={DATA: 77},
    )
    yield runs(
        "resume-retry-of-a-word-that-was-empty",
        [
            Slot(0, ("evt r0", "st r10, r8, 0, any, full", "resume r8, retry"), HELD),
            Slot(1, ("ld r3, r10, 0, full, empty",), {10: ALL_DATA}, handler=0),
        ],
        "1 0*3 1",
        ["event 0 1 6", "t 1 2 did"],
        cells={DATA: EMPTY},
    )
    yield runs(
        "resume-in-the-last-word",
        [Slot(0, ("evt r0",) + ("nop",) * 30 + ("resume r8, skip",), {8: 1}), Slot(1, TRAPS, handler=0)],
        "1 0*33",
        ["t 0 32 did", "t 0 33 faulted 3"],
    )


    for name, text in {"evt": "evt r4", "rreg": "rreg r9, r8, 5", "wreg": "wreg r8, r10, 5"}.items():
        slots = [
            Slot(0, ("evt r0",) + ("nop",) * 30 + (text,), HELD), Slot(1, TRAPS, handler=0), Slot(2, TRAPS, handler=0)
        ]
        yield runs(f"past-after-{name}", slots, "1 2 0*33", ["t 0 32 did", "t 0 33 faulted 3"])


def registers():
    """`rreg` and `wreg` of each register, of words of both kinds."""
    held = {number: pointer("key", 54, number) if number % 2 else number for number in range(16)}
    for register in (0, 1, 14, 15):
        yield runs(
            f"rreg-of-r{register}",
            [Slot(0, ("evt r0", f"rreg r9, r8, {register}"), HELD), Slot(1, TRAPS, held, handler=0)],
            "1 0*2",
            ["r 0 9 "],
        )
        yield runs(
            f"wreg-of-r{register}",
            [Slot(0, ("evt r0", f"wreg r8, r10, {register}"), HELD), Slot(1, TRAPS, held, handler=0)],
            "1 0*2",
            [f"r 1 {register} p{ALL_DATA.bits:016x}"],
        )
    yield runs(
        "rreg-into-the-number",
        [Slot(0, ("evt r0", "rreg r8, r8, 5"), HELD), Slot(1, TRAPS, {5: 55}, handler=0)],
        "1 0*2",
        ["r 0 8 i0000000000000037"],
    )
    yield runs(
        "rreg-into-the-last-register",
        [Slot(0, ("evt r0", "rreg r15, r14, 5"), {14: 1}), Slot(1, TRAPS, {5: 55}, handler=0)],
        "1 0*2",
        ["r 0 15 i0000000000000037"],
    )
    yield runs(
        "wreg-of-its-own-number",
        [Slot(0, ("evt r0", "wreg r8, r8, 5"), HELD), Slot(1, TRAPS, {5: 55}, handler=0)],
        "1 0*2",
        ["r 1 5 i0000000000000001"],
    )
    yield runs(
        "wreg-of-an-integer-over-a-pointer",
        [Slot(0, ("evt r0", "wreg r8, r9, 5"), HELD), Slot(1, TRAPS, {5: ALL_DATA}, handler=0)],
        "1 0*2",
        ["r 1 5 i0000000000000007"],
    )
    yield runs(
        "wreg-of-the-word-that-is-there",
        [Slot(0, ("evt r0", "wreg r8, r9, 5"), HELD), Slot(1, TRAPS, {5: 7}, handler=0)],
        "1 0*2",
        ["t 0 2 did"],
    )
    yield runs(
        "rreg-and-wreg-leave-the-slot-taken",
        [
            Slot(0, ("evt r0", "rreg r9, r8, 5", "wreg r8, r9, 6", "resume r8, skip"), HELD),
            Slot(1, TRAPS, {5: 55}, handler=0),
        ],
        "1 0*2 1 0*2 1",
        ["t 0 4 did", "t 1 2 did"],
    )
    yield runs(
        "wreg-of-a-slot-below",
        [Slot(1, ("evt r0", "wreg r8, r10, 5", "rreg r9, r8, 4"), {**HELD, 8: 0}), Slot(0, TRAPS, {4: 44}, handler=1)],
        "0 1*3",
        ["t 1 3 did"],
    )


def queues():
    """Queues that are full: each served slot has one event there at most."""
    loop = ("evt r0", "br -1")
    for count, version in ((15, 1), (63, 2)):
        for order, numbers in (("rising", range(count)), ("falling", reversed(range(count)))):
            slots = [
                Slot(number, ("trap 3",), {1: number}, handler=count, group=number % 4, at=CODE, log=3)
                for number in range(count)
            ]
            slots.append(Slot(count, loop, at=CODE + 0x1000))
            yield runs(
                f"queue-of-{count}-events-{order}",
                slots,
                " ".join(map(str, numbers)) + f" {count}*{2 * count + 1}",
                [f"t {count} {2 * count + 1} blocked"],
                version=version,
            )


def handlers():
    """Handlers that have handlers."""
    yield runs(
        "handler-of-a-handler",
        [
            Slot(0, TRAPS, handler=1),
            Slot(1, ("evt r0", "trap 1", "resume r8, skip"), {8: 0}, handler=2),
            Slot(2, ("evt r0", "resume r8, skip"), {8: 1}),
        ],
        "0 1*2 2*2 1 0",
        ["t 1 3 did", "t 0 2 did"],
    )
    yield runs(
        "handler-that-faults-leaves-its-slot-taken",
        [Slot(0, TRAPS, handler=1), Slot(1, ("evt r0", "trap 1"))],
        "0 1*2 0",
        ["state 0 taken", "state 1 faulted 11"],
    )
    yield runs(
        "handler-of-a-handler-may-not-serve-the-slot",
        [Slot(0, TRAPS, handler=1), Slot(1, ("evt r0",), handler=2), Slot(2, ("resume r8, skip",), {8: 0})],
        "0 1 2",
        ["t 2 1 faulted 12"],
    )
    yield runs(
        "handlers-of-each-other-that-both-wait",
        [Slot(0, TRAPS, handler=1), Slot(1, TRAPS, handler=0)],
        "0 1 0 1",
        ["state 0 waiting", "state 1 waiting"],
    )
    yield runs(
        "handlers-of-each-other-in-turn",
        [
            Slot(0, ("trap 1", "evt r0", "resume r8, skip"), {8: 1}, handler=1),
            Slot(1, ("evt r0", "resume r8, skip", "trap 2", "halt"), {8: 0}, handler=0),
        ],
        "0 1*3 0*2 1",
        ["t 0 1 faulted 11", "t 1 3 faulted 11", "t 0 3 did", "state 1 halted"],
    )
    yield runs(
        "handlers-in-a-ring",
        [Slot(number, TRAPS, handler=(number + 1) % 3) for number in range(3)],
        "0 1 2 0 1 2",
        ["state 2 waiting"],
    )
    yield runs(
        "handler-that-is-halted",
        [Slot(0, TRAPS, handler=1), Slot(1, ("evt r0",), halted=True)],
        "0 1 0",
        ["event 1 0 11"],
    )
    yield runs(
        "handler-that-has-faulted",
        [Slot(0, TRAPS, handler=1), Slot(1, ("trap 1",))],
        "1 0 1",
        ["state 1 faulted 11", "event 1 0 11"],
    )
    yield runs(
        "handler-that-waits-gets-more-events",
        [
            Slot(0, TRAPS, handler=2),
            Slot(1, TRAPS, handler=2),
            Slot(2, ("trap 1", "evt r0", "evt r4"), handler=3),
            Slot(3, ("evt r0", "resume r8, skip"), {8: 2}),
        ],
        "0 2 1 3*2 2*2",
        ["t 2 3 did"],
    )
    yield runs(
        "handler-of-two-slots",
        [
            Slot(0, ("evt r0", "evt r4", "resume r8, skip", "resume r9, skip"), {8: 2, 9: 1}),
            Slot(1, TRAPS, handler=0),
            Slot(2, TRAPS, handler=0),
        ],
        "1 2 0*4 1 2",
        ["t 0 4 did", "t 1 2 did", "t 2 2 did"],
    )
    yield runs(
        "handler-in-another-group-puts-out-for-its-own",
        [Slot(0, TRAPS, handler=1, group=4), Slot(1, ("evt r0", "out r0"), group=2)],
        "0 1*2",
        ["out 2 0b"],
    )
    yield runs(
        "sync-without-a-handler-is-blocked",
        [Slot(0, ("ld r3, r1, 0, empty, keep",), {1: ALL_DATA})],
        "0*2",
        ["t 0 2 blocked"],
        cells={DATA: 1},
    )
    yield runs(
        "sync-with-a-handler-is-an-event",
        [Slot(0, ("st r1, r2, 8, full, keep",), {1: ALL_DATA, 2: 5}, handler=1), Slot(1, ("evt r0",))],
        "0 1",
        ["event 1 0 6"],
        cells={DATA + 8: EMPTY},
    )


def cases():
    yield from states()
    yield from events()
    yield from resuming()
    yield from registers()
    yield from queues()
    yield from handlers()
