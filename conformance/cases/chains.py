"""Turns that need what the turns just before them did.

A machine that works on several turns at once has to hand on what is not written yet. So each operation that writes a
register is followed by each operation that reads one, by each of its registers, one and two turns later; in one slot,
and in two slots that take turns and use the same register. Then the same for cells, code, pages, outputs, states,
events and loads that arrive."""

from case import ALL_DATA, DATA, Case, runs
from images import CODE, Empty, Image, Slot, instruction, pointer

WORKER, OTHER_WORKER, HANDLER, SERVED = 5, 6, 1, 2
CODE_LOG, SPLIT = 12, {"version": 2, "split": True}
MAPPED = (DATA // 4096,)
STALE_POINTER, PAGE = pointer("rw", 12, DATA + 8), 0x300
# The registers that stay: the one that is written and read is r1, and results go to r5.
HELD = {
    2: 21, 3: pointer("rw", 12, DATA + 64), 4: 8, 6: pointer("rw", 12, DATA + 128), 7: 1000, 8: SERVED, 9: PAGE,
    10: pointer("rw", 12, DATA + 64).bits, 11: -1,
}
# What writes r1, after what it needs: an integer that is not zero, or a pointer.
INTEGERS = {
    "ldi": "ldi r1, 21", "ldhi": "ldhi r1, 3", "mov": "mov r1, r2", "isptr": "isptr r1, r3", "eqw": "eqw r1, r2, r2",
    "self": "self r1", "add": "add r1, r2, r4", "sub": "sub r1, r2, r4", "mul": "mul r1, r2, r4",
    "divu": "divu r1, r7, r4", "remu": "remu r1, r2, r4", "and": "and r1, r2, r11", "or": "or r1, r2, r4",
    "xor": "xor r1, r2, r4", "shl": "shl r1, r2, r4", "shr": "shr r1, r7, r4", "sar": "sar r1, r7, r4",
    "eq": "eq r1, r2, r2", "ltu": "ltu r1, r2, r7", "lts": "lts r1, r2, r7", "addi": "addi r1, r2, 1",
    "ld": "ld r1, r6, 8, any, keep", "rreg": "rreg r1, r8, 7", "map": "unmap r12, r9; map r1, r9",
    "unmap": "map r12, r9; unmap r1, r9",
}
POINTERS = {
    "mov": "mov r1, r3", "lea": "lea r1, r3, r4", "leai": "leai r1, r3, 16", "leab": "leab r1, r3, r4",
    "restrict": "restrict r1, r3, r15", "subseg": "subseg r1, r3, r4", "setptr": "setptr r1, r10",
    "ld": "ld r1, r6, 16, any, keep", "lip": "lip r1, {after}", "jal": "lip r13, 3; jal r1, r13; br 2",
    "rreg": "rreg r1, r8, 6",
}
# What reads r1, by which of its registers. After `~` stands what is never reached.
THREE = ("eqw", "add", "sub", "mul", "divu", "remu", "and", "or", "xor", "shl", "shr", "sar", "eq", "ltu", "lts")
BESIDE = {"eqw": "r0", "eq": "r0", "ltu": "r7", "lts": "r7", "and": "r11", "divu": "r7", "remu": "r7"}
READERS = [
    *((f"{name} rd, {first}, {second}") for name in THREE for first, second in (
        ("r1", BESIDE.get(name, "r4") if name not in ("divu", "remu") else "r4"), (BESIDE.get(name, "r4"), "r1"))),
    "ldhi r1, 7", "mov rd, r1", "isptr rd, r1", "out r1", "addi rd, r1, 4", "lea rd, r1, r4", "lea rd, r3, r1",
    "leai rd, r1, 8", "leab rd, r1, r4", "leab rd, r3, r1", "restrict rd, r1, r15", "restrict rd, r3, r1",
    "subseg rd, r1, r15", "subseg rd, r3, r1", "setptr rd, r1", "ld rd, r1, 0, any, keep", "st r1, r4, 0, any, keep",
    "st r6, r1, 24, any, keep", "bz r1, 2", "bnz r1, 2 ~ halt", "resume r1, retry", "rreg rd, r1, 3", "wreg r1, r4, 3",
    "wreg r8, r1, 3", "map rd, r1", "unmap rd, r1", "jmp r1", "jal rd, r1",
]
CELLS = {DATA + 128 + 8: 21, DATA + 128 + 16: pointer("rw", 12, DATA + 72), DATA: 77, DATA + 64: 78}


def lines_of(text):
    return [line.strip() for line in text.split(";")] if text else []


def block(stale, writer, reader, between):
    """A block of code, and how many turns it takes: a stale word, the writer, so many turns, the reader."""
    reached, _, rest = reader.replace("rd", "r5").partition(" ~ ")
    # A branch on zero is not taken unless the word is stale.
    first = "ldi r1, 0" if reader.startswith("b") else stale
    written, middle = lines_of(writer), ["addi r12, r12, 1"] * between
    after = len(middle) + (3 if rest else 2)
    code = [first, *(line.format(after=after) for line in written), *middle, reached, *lines_of(rest)]
    unreached = len(lines_of(rest)) + ("jal" in writer)
    if "jal" in writer:
        # The link is to a word that leads behind the reader; the jump itself goes to what is between.
        code[code.index("br 2")] = f"br {after}"
    return code, len(code) - unreached


class Chain:
    """The code of a worker that runs block after block, and the schedule of its blocks."""

    def __init__(self):
        self.code, self.turns = [], []

    def add(self, code, turns):
        self.code += code
        self.turns.append(turns)

    def slot(self, number, registers, at, **more):
        return Slot(number, (*self.code, "halt"), registers, at=at, log=CODE_LOG, handler=HANDLER, permission="xp",
                    **more)


# What handles the faults of the workers: it reads the event, and lets the slot go on after the instruction.
SKIPS = Slot(HANDLER, ("evt r4", "shr r8, r4, r9", "resume r8, skip", "br -3"), {9: 8})
# What is served by the workers: it has faulted, and one worker has read the event.
SERVED_SLOT = Slot(SERVED, ("trap 1",), {7: 21, 6: pointer("rw", 12, DATA + 72), 3: 9}, handler=WORKER)


def chain_of(writer, is_pointer, between):
    """The blocks of a writer with all readers."""
    chain = Chain()
    for reader in READERS:
        chain.add(*block("mov r1, r0", writer, reader, between))
    return chain


def held(name, is_pointer):
    stale = 3 if is_pointer else STALE_POINTER
    return {**HELD, 0: stale, 15: 1}


def writers():
    for name, text in INTEGERS.items():
        yield name, text, False
    for name, text in POINTERS.items():
        yield name, text, True


def title(name, is_pointer):
    both = name in INTEGERS and name in POINTERS
    return f"{name}-of-a-pointer" if both and is_pointer else name


def chained(name, chain, registers, version):
    """A chain in one slot."""
    slots = [chain.slot(WORKER, registers, CODE), SKIPS, SERVED_SLOT]
    slots[0] = Slot(WORKER, ("evt r12", *slots[0].code), registers, at=CODE + 0x10000, log=CODE_LOG, handler=HANDLER,
                    permission="xp")
    order = [f"{SERVED} {WORKER}", *(f"{WORKER}*{turns} {HANDLER}*4" for turns in chain.turns), f"{WORKER}"]
    return case_of(name, slots, order, f"t {WORKER} {sum(chain.turns) + 2} did", version)


def case_of(name, slots, order, shows, version):
    return runs(name, slots, " ".join(order), [shows], cells=CELLS, spare=3, **version)


def in_one_slot():
    for name, text, is_pointer in writers():
        for between in (0, 1):
            chain = chain_of(text, is_pointer, between)
            what = "next" if between == 0 else "next-but-one"
            yield chained(
                f"chain-{title(name, is_pointer)}-is-read-by-the-{what}", chain, held(name, is_pointer), {"version": 1}
            )


def in_two_slots():
    """Two slots that take turns in the same code with the same registers, which hold other words."""
    for name, text, is_pointer in writers():
        if name in ("rreg", "map", "unmap", "jal"):
            continue
        chain = chain_of(text, is_pointer, 0)
        registers = held(name, is_pointer)
        others = {**registers, 2: 42, 3: pointer("rw", 12, DATA + 256), 6: pointer("rw", 12, DATA + 512), 7: 4000,
                  0: 6 if is_pointer else pointer("rw", 12, DATA + 24), 8: 3}
        slots = [
            Slot(WORKER, (*chain.code, "halt"), registers, at=CODE + 0x10000, log=CODE_LOG, handler=HANDLER,
                 permission="xp"),
            Slot(OTHER_WORKER, (), others, handler=HANDLER, ip=pointer("xp", CODE_LOG, CODE + 0x10000)),
            SKIPS,
        ]
        cells = {**CELLS, DATA + 512 + 8: 43, DATA + 512 + 16: pointer("rw", 12, DATA + 264)}
        order = [f"{WORKER} {OTHER_WORKER} " * turns + f"{HANDLER}*8" for turns in chain.turns]
        yield runs(
            f"chain-{title(name, is_pointer)}-in-two-slots", slots, " ".join(order),
            [f"t {OTHER_WORKER} {sum(chain.turns)} "], cells=cells, spare=3,
        )


def of_events():
    """`evt` as the writer of four registers, each read by what comes next."""
    for place in range(4):
        for between in (0, 1):
            chain = Chain()
            for reader in READERS:
                if reader.startswith("wreg r8"):
                    continue
                reached, _, rest = reader.replace("r1,", "r@,").replace("rd", "r5").partition(" ~ ")
                if reached.endswith(" r1"):
                    reached = reached[:-1] + "@"
                reached = reached.replace("r@", f"r{12 + place}").replace("r15", "r0") if "r@" in reached else reached
                reset = f"ldi r{12 + place}, 0" if reader.startswith("b") else f"mov r{12 + place}, r0"
                if place >= 2 and reader.startswith("bnz"):
                    rest = ""
                code = [reset, "evt r12", *["addi r10, r10, 1"] * between, reached, *lines_of(rest), "resume r8, skip"]
                chain.add(code, len(code) - len(lines_of(rest)) - 1)
            trapper = Slot(3, ("trap 9", "br -1"), {}, handler=WORKER)
            registers = {**held("evt", False), 8: 3}
            worker = Slot(WORKER, (*chain.code, "halt"), registers, at=CODE + 0x10000, log=CODE_LOG, handler=HANDLER,
                          permission="xp")
            order = [f"3*2 {WORKER}*{turns} {HANDLER}*4 {WORKER}" for turns in chain.turns]
            what = "next" if between == 0 else "next-but-one"
            yield runs(
                f"chain-evt-register-{place}-is-read-by-the-{what}", [worker, SKIPS, trapper], " ".join(order),
                [f"t {WORKER} {len(chain.turns) * 3} "], cells=CELLS, spare=3,
            )


def of_issued_loads():
    """A split machine: each reader waits for a load, which comes by need, or by a port just before or after."""
    ways = {"by-need": "", "by-a-port-before": f"{128 + WORKER} ", "by-a-port-of-another": "133 134 "}
    for what, ports in ways.items():
        for kind, offset in {"an-integer": 8, "a-pointer": 16}.items():
            chain = Chain()
            for reader in READERS:
                code, turns = block("mov r1, r0", f"ld r1, r6, {offset}, any, keep", reader, 0)
                chain.add(code, turns)
            registers = held("ld", kind == "a-pointer")
            worker = Slot(WORKER, (*chain.code, "halt"), registers, at=CODE + 0x10000, log=CODE_LOG, handler=HANDLER,
                          permission="xp")
            order = [
                f"{WORKER}*{turns - 1} {ports}{WORKER}*{1 if ports else 2} {HANDLER}*4 " for turns in chain.turns
            ]
            yield runs(
                f"chain-split-ld-of-{kind}-arrives-{what}", [worker, SKIPS], "".join(order) + f"{WORKER}",
                [f"t {WORKER} {len(chain.turns) * 3} "], cells=CELLS, spare=3, **SPLIT,
            )


def of_cells():
    """Stores and the loads and stores after them, of one cell and of two, in one slot and in two."""
    base = {8: ALL_DATA, 9: 77, 10: pointer("rw", 12, DATA + 8), 11: ALL_DATA}
    accesses = [
        "st r8, r9, 0, any, keep", "ld r1, r8, 0, any, keep", "st r8, r10, 0, any, empty", "ld r2, r8, 0, empty, full",
        "st r8, r11, 0, full, empty", "ld r3, r8, 0, any, full", "ld r4, r8, 0, full, empty",
        "st r8, r9, 0, empty, full",
    ]
    pairs = tuple(line for first in accesses for second in accesses for line in (first, second))
    for between in (0, 1):
        code = []
        for number in range(0, len(pairs), 2):
            code += [pairs[number], *["addi r5, r5, 1"] * between, pairs[number + 1], "st r10, r5, 0, any, keep"]
        slots = [Slot(0, tuple(code), base, log=CODE_LOG, handler=1, at=CODE + 0x10000), SKIPS]
        each = 3 + between
        order = "".join(f"0*{each - 2} 1*4 0 1*4 0 " for _ in range(len(pairs) // 2))
        yield runs(f"chain-of-cells-{'next' if not between else 'next-but-one'}", slots, order,
                   [f"t 0 {3 * len(pairs) // 2} "], pages=MAPPED)
    two = [
        Slot(0, ("addi r9, r9, 1", "st r8, r9, 0, any, keep", "ld r1, r8, 8, any, keep", "br -3"), base),
        Slot(1, ("addi r9, r9, 3", "st r8, r9, 8, any, keep", "ld r1, r8, 0, any, keep", "br -3"), base),
    ]
    yield runs("chain-of-cells-in-two-slots", two, "0 1 " * 24, ["t 1 24 did"], pages=MAPPED)
    yield runs("chain-of-cells-in-two-slots-a-turn-apart", two, "0 " + "0 1 " * 24, ["t 1 24 did"], pages=MAPPED)
    handed = [
        Slot(0, ("st r8, r9, 0, empty, full", "addi r9, r9, 1", "br -2"), {8: ALL_DATA, 9: 5}),
        Slot(1, ("ld r1, r8, 0, full, empty", "br -1"), {8: ALL_DATA}),
    ]
    orders = {"in-turn": "0 1 " * 30, "two-and-two": "0 0 1 1 " * 15, "one-and-three": "0 1 1 1 " * 10}
    for name, order in orders.items():
        yield runs(f"chain-of-a-word-handed-on-{name}", handed, order, ["t 0 10 "], cells={DATA: Empty()})


def of_code():
    """A store into code, and the word that is fetched so many turns later, by the same slot and by another."""
    new = "addi r1, r1, 64"
    for distance in range(1, 6):
        code = ["st r8, r9, 0, any, keep", *["nop"] * (distance - 1), "addi r1, r1, 1", "halt"]
        yield runs(
            f"chain-store-into-code-{distance}-turns-on",
            [Slot(0, tuple(code), {8: pointer("rw", 8, CODE + 8 * distance), 9: instruction(new)})],
            f"0*{distance + 2}", ["r 0 1 i0000000000000040"],
        )
        other = [
            Slot(0, ("st r8, r9, 0, any, keep", "nop", "nop", "nop", "nop"),
                 {8: pointer("rw", 8, CODE + 0x100), 9: instruction(new)}),
            Slot(1, ("addi r1, r1, 1", "halt")),
        ]
        yield runs(
            f"chain-store-into-another-slot's-code-{distance}-turns-on", other, f"0*{distance} 1*2",
            ["r 1 1 i0000000000000040"],
        )
    again = ("st r8, r9, 0, any, keep", "addi r1, r1, 1", "st r8, r10, 0, any, keep", "br -3")
    yield runs(
        "chain-code-that-is-stored-again-and-again",
        [Slot(0, again, {8: pointer("rw", 8, CODE + 8), 9: instruction(new), 10: instruction("addi r2, r2, 1")})], "0*24",
        ["t 0 24 did"],
    )
    emptied = ("ld r1, r8, 0, any, empty", "nop", "nop", "ld r1, r8, 0, any, full", "br -4")
    yield runs(
        "chain-code-whose-bit-is-emptied-runs", [Slot(0, emptied, {8: pointer("rw", 8, CODE + 16)})], "0*15",
        ["t 0 15 did"],
    )


def of_pages():
    """A page that is mapped or removed, and what comes next: a store, a load, a fetch, by one slot and by two."""
    there = pointer("rw", 12, PAGE << 12)
    base = {8: there, 9: PAGE, 10: 5, 11: pointer("xu", 12, PAGE << 12), 12: instruction("nop")}
    for distance in range(1, 5):
        wait = ["nop"] * (distance - 1)
        for what, access in {"load": "ld r1, r8, 8, any, keep", "store": "st r8, r10, 8, any, keep"}.items():
            code = ("map r2, r9", *wait, access, "st r8, r10, 16, any, keep", "unmap r2, r9", *wait, access, "halt")
            yield runs(
                f"chain-map-{what}-and-unmap-{what}-{distance}-turns-on",
                [Slot(0, code, base, permission="xp", handler=1), SKIPS], f"0*{2 * distance + 3} 1*4 0",
                ["event 1 0 5"], spare=1,
            )
        code = ("unmap r2, r9", *wait, "jmp r11")
        yield runs(
            f"chain-unmap-and-a-fetch-{distance}-turns-on", [Slot(0, code, base, permission="xp")],
            f"0*{distance + 2}", [f"t 0 {distance + 2} faulted 5"], cells={(PAGE << 12) + 8: 1}, spare=1,
        )
        yield runs(
            f"chain-unmap-and-another-slot's-fetch-{distance}-turns-on",
            [Slot(0, ("unmap r2, r9", "nop", "nop", "nop"), base, permission="xp"),
             Slot(1, (), {}, ip=pointer("xu", 12, PAGE << 12))],
            f"1 0*{distance} 1 0", ["t 1 2 faulted 5"], cells={PAGE << 12: "nop", (PAGE << 12) + 8: "nop"}, spare=1,
        )
    again = ("map r2, r9", "st r8, r10, 0, any, keep", "unmap r3, r9", "map r2, r9", "ld r1, r8, 0, any, keep",
             "unmap r3, r9", "br -6")
    yield runs("chain-map-again-and-again", [Slot(0, again, base, permission="xp")], "0*42", ["t 0 42 did"], spare=1)


def of_states():
    """Items of a slot just after it has stopped, or just after it may go on."""
    trapper = Slot(1, ("trap 1", "addi r1, r1, 1", "addi r1, r1, 2", "br -3"), {}, handler=0)
    for way in ("retry", "skip", "kill"):
        for distance in range(1, 5):
            handler = Slot(0, ("evt r4", f"resume r8, {way}", "nop", "nop", "nop"), {8: 1})
            yield runs(
                f"chain-resume-{way}-and-the-slot-{distance}-turns-on", [handler, trapper],
                f"1 0*{1 + distance} 1*3 0", ["t 0 2 did"],
            )
    yield runs(
        "chain-items-of-a-slot-that-has-just-halted", [Slot(0, ("halt",)), Slot(1, ("nop", "nop"))], "0*3 1 0 1",
        ["t 1 2 did"],
    )
    yield runs(
        "chain-items-of-a-slot-that-has-just-faulted", [Slot(0, ("trap 1",)), Slot(1, ("nop", "nop"))], "0*3 1 0 1",
        ["t 1 2 did"],
    )
    yield runs(
        "chain-evt-of-an-event-just-queued", [Slot(0, ("evt r4", "resume r8, skip", "br -2"), {8: 1}), trapper],
        "0 0 1 0 1 1 0 0 1 1 1 1 0 0 0", ["taken 0"],
    )
    yield runs(
        "chain-fault-in-the-last-word-and-skip",
        [Slot(0, ("evt r4", "resume r8, skip"), {8: 1}),
         Slot(1, ("nop",) * 31 + ("trap 1",), {}, handler=0, start=31)], "1 0 0 1 1 0", ["ip 1 "],
    )
    served = Slot(1, ("trap 1", "add r5, r3, r3", "add r6, r5, r3", "br -3"), {3: 1}, handler=0)
    for distance in range(0, 3):
        handler = Slot(
            0, ("evt r4", "wreg r8, r9, 3", *["nop"] * distance, "rreg r10, r8, 3", "resume r8, skip", "addi r9, r9, 5",
                f"br -{5 + distance}"), {8: 1, 9: 50},
        )
        order = f"1 0*{4 + distance} 1*2 0*2 1*2 "
        yield runs(f"chain-wreg-then-rreg-{distance + 1}-turns-on", [handler, served], order * 3, ["t 0 4 did"])
    own = Slot(0, ("evt r4", *(f"rreg r{number}, r8, {number}" for number in range(9, 16))), {8: 1})
    filled = Slot(1, ("trap 1",), {number: 100 + number for number in range(16)}, handler=0)
    yield runs("chain-rreg-of-the-same-register", [own, filled], "1 0*8", ["r 0 15 i0000000000000073"])
    into = Slot(0, ("evt r4", *(f"wreg r8, r{number}, {number}" for number in range(9, 16))),
                {8: 1, **{number: 200 + number for number in range(9, 16)}})
    yield runs("chain-wreg-of-the-same-register", [into, filled], "1 0*8", ["r 1 15 i00000000000000d7"])


def of_queues():
    """A handler that reads many events while two more wait, so that a queue of any length goes round."""
    for count in (17, 65, 130):
        handler = Slot(0, ("evt r4", "shr r8, r4, r9", "resume r8, skip", "br -3"), {9: 8})
        others = [Slot(number, ("trap 1", "addi r1, r1, 1", "br -2"), {}, handler=0) for number in (1, 2, 3)]
        order = ["1 2 3", *(f"0*4 {1 + number % 3}*3" for number in range(count))]
        yield runs(f"chain-{count}-events-with-two-waiting", [handler, *others], " ".join(order), [f"t 0 {4 * count} did"])
    loads = ("ld r1, r8, 0, any, keep", "ld r2, r8, 8, any, keep", "ld r3, r8, 16, any, keep", "mov r4, r1",
             "addi r5, r5, 1", "br -5")
    cells = {DATA: 1, DATA + 8: 2, DATA + 16: ALL_DATA}
    yield runs("chain-40-loads-with-two-pending", [Slot(0, loads, {8: ALL_DATA})], "0*10 128 " * 20, ["t 0 200 did"],
               cells=cells, **SPLIT)
    yield runs("chain-40-loads-by-ports", [Slot(0, loads, {8: ALL_DATA})], "0 0 128 0 128 128 0*3 " * 20, ["m 0 3"],
               cells=cells, **SPLIT)


def of_outputs():
    """Bytes one after another from slots of one group, up to the limit and beyond."""
    count = 4096
    slots = [Slot(number, ("out r1", "br -1"), {1: number}, group=7) for number in (0, 1)]
    full = [Slot(0, ("out r1", "br -1"), {1: 1}, group=7), Slot(1, ("out r1", "out r1", "halt"), {1: 2}, group=7)]
    yield runs("chain-outputs-of-two-slots-of-a-group", slots, "0 1 " * 12, ["t 1 12 "])
    for before in (1, 2):
        order = f"0*{2 * (count - before)} 0 1 0 1 1"
        yield runs(f"chain-the-last-{before}-bytes-of-two-slots", full, order, ["t 1 "])


def of_turns():
    """Where a slot is, after each way to go on, in one slot and in two that take turns."""
    code = ("addi r1, r1, 1", "bnz r1, 2", "halt", "br 2", "halt", "lip r2, 3", "jmp r2", "halt", "lip r2, 3",
            "jal r3, r2", "halt", "bz r1, 5", "sub r1, r4, r1", "br -13")
    slots = [Slot(number, code, {4: 3 + number}) for number in (0, 1, 2)]
    yield runs("chain-jumps-in-one-slot", slots, "0*40", ["t 0 40 did"])
    yield runs("chain-jumps-in-two-slots", slots, "0 1 " * 30, ["t 1 30 did"])
    yield runs("chain-jumps-in-three-slots", slots, "0 1 2 " * 25 + "2 1 0 0 " * 10, ["t 2 30 did"])
    yield Case("chain-jumps-in-round-robin", Image(tuple(slots)), 90, None, ("t 2 30 did",))


def cases():
    yield from in_one_slot()
    yield from in_two_slots()
    yield from of_events()
    yield from of_issued_loads()
    yield from of_cells()
    yield from of_code()
    yield from of_pages()
    yield from of_states()
    yield from of_queues()
    yield from of_outputs()
    yield from of_turns()
