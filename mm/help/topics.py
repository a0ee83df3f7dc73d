"""Topics that no table has."""

from __future__ import annotations

from mm.records import dataclass



@dataclass(frozen=True)
class Topic:
    """A text: its name, what it is about in a line, and its lines."""

    name: str
    about: str
    text: str


SOURCES = Topic(
    "sources",
    "what a source looks like",
    """\
A source is a text. Each line has an optional label (a name and `:`) and an optional statement; `;` begins a comment.

    ; Puts out the letter A, twice.
    .segment main 6             ; code: 2^6 = 64 bytes, room for 8 words
      ldi r2, 2
    again: ldi r1, 65
      out r1
      addi r2, r2, -1
      bnz r2, again
      halt
    .segment box 3              ; data: one word, empty at first
      .empty .int 0
    .thread 0 0 none xu main    ; slot 0, group 0, no handler, runs main as user code
    .reg 3 ptr rw box           ; its register 3 is a pointer that may read and write the box

`mm help directives` and `mm help operations` list what you can write in a line; docs/ASSEMBLER.md has all rules.""",
)

POINTERS = Topic(
    "pointers",
    "what a guarded pointer says",
    """\
A pointer has a permission, a segment of 2^L bytes and an address in it. With `rw 2^3 box` you may read and write the 8 bytes at box.

    ro   read
    rw   read and write
    xu   read, and run as user code
    xp   read, and run as privileged code
    eu   enter as user code: jump to it, and nothing else
    ep   enter as privileged code
    key  nothing: a ticket that nobody can forge

Pointers are tagged words. Arithmetic on a pointer gives an integer without the tag, and nothing makes that a pointer again.
    lea, leai, leab   move a pointer inside its segment (never just past its end: no pointer points outside)
    restrict          takes rights away: rw may become ro or key; xu may become ro, eu or key
    subseg            makes the segment shorter
`.reg N ptr PERMISSION NAME` gives a pointer to a thread, and `.ptr PERMISSION NAME` puts one into memory.""",
)

SCHEDULES = Topic(
    "schedules",
    "the order in which slots take turns",
    """\
Without a schedule slots take turns in round robin. A schedule is a text of items with blanks between; `#` begins a comment.
    0          slot 0 takes a turn
    1*5        slot 1 takes five
    128        in a split machine: the port of slot 0 delivers a load (128 + slot)
`mm run FILE --schedule FILE` reads one from a file, `mm run FILE --turns '0 1*5'` from the command line. It has at most 1000000 items.""",
)

NETS = Topic(
    "nets",
    "links and events of `mm net`",
    """\
Each file of `mm net LINKS EVENTS FILE..` is a node, numbered from 0. A link carries integers from a word of one node to a word of another.
Links, in a text:
    0.sent>1.got         from the word `sent` of node 0 to the word `got` of node 1 (or addresses: 0.0x100120>1.0x100128)
Events, in another:
    0:0*7                slot 0 of node 0 takes seven turns
    +0                   link 0 takes the word at its beginning, if it is full, and leaves it empty
    0@2                  link 0 carries its packet 2 (counted from 0) to its end, if that is empty and the packet is the next
`#` begins a comment in both.""",
)

NAMES = Topic(
    "names",
    "names and numbers where a command wants an address",
    """\
    box            a segment or a label
    box+8          8 bytes after it
    gate.door      the label `door` of the segment `gate`, if several labels have this name
    counter.asm:20 the first word that line 20 makes
    0x100100       a number: decimal, 0x, 0b or 0o; an address also as `mmachine` prints it, in 14 hexadecimal digits
`mm` shows the label at an address; if there is none, the nearest label before it; if there is none, the segment and the offset.
Names come from the sources. For an image they come from the source next to it, if that links to exactly this image, or from --names SOURCE.""",
)

RANGES = Topic(
    "ranges",
    "how to name a range for `mm holders` and `mm sweep`",
    """\
    box            all bytes of a segment, or the word of a label
    box,4          2^4 bytes from box on
    0x100100,3     2^3 bytes from an address on, which is a multiple of 2^3""",
)

IDIOMS = Topic(
    "idioms",
    "how to do common things",
    """\
A loop, r3 times:
    again: ..
      addi r3, r3, -1
      bnz r3, again
If r1 is less than r2, signed (ltu: unsigned; eq: equal):
      lts r3, r1, r2
      bnz r3, less
A number with 64 bits:
      ldi r1, 0x12345678      ; the upper half
      ldhi r1, 0x9abcdef0     ; moves it up, and puts the lower half below
A call in the same segment, and the way back:
      lip r5, square
      jal r6, r5
      ..
    square: mul r1, r1, r1
      jmp r6
Word r3 of an array (r1 points into its segment):
      ldi r4, 8
      mul r4, r3, r4
      leab r2, r1, r4         ; from the segment's base on
A stack (r14 points into its segment, r13 is how many bytes are in use; a push past the end is a fault, Bounds):
      leab r12, r14, r13      ; push r2
      st r12, r2, 0, any, keep
      addi r13, r13, 8
      addi r13, r13, -8       ; pop r2
      leab r12, r14, r13
      ld r2, r12, 0, any, keep
A lock in a word (full: free; r1 points to it, rw):
      ld r2, r1, 0, full, empty   ; take it, or wait
      ..
      st r1, r2, 0, empty, full   ; give it back
A gate: its segment begins with its pointers, and its caller has only an `eu` pointer to the door:
    .segment gate 6
      .ptr rw count
    door: lip r7, -1          ; the word before the door
      ld r7, r7, 0, any, keep ; the pointer to the count
      ..
      ldi r7, 0               ; leave nothing to the caller
      jmp r6                  ; the caller came by `jal r6, r5`
If the caller has a handler, a fault in the gate shows it the registers and this segment: docs/IDIOMS.md says what to do.""",
)

WAITING = Topic(
    "waiting",
    "synchronisation bits, and slots that wait for ever",
    """\
Each word in memory has a bit that says full or empty. `ld` and `st` name two conditions: what the bit must be, and what it becomes.
    ld r2, r1, 0, full, empty     waits until the word is full, loads it and leaves it empty
    st r1, r2, 0, empty, full     waits until it is empty, stores and leaves it full
    ld r2, r1, 0, any, keep       whatever the bit is
If the condition fails in a slot without a handler, the slot tries again at its next turn. If its last turns all failed so, `mm run` says
`waiting at .. for box to be full`, and `for ever` if no other slot can change it. Both sides need an rw pointer: to set the bit is to write.""",
)

STATUSES = Topic(
    "statuses",
    "exit statuses",
    """\
    0    done, whatever the program did
    1    the words of the command are wrong
    2    a file, groups, a range or links are wrong; a message says where
    3    a file could not be read
    4    the output could not be written
    5    memory ran out
    127  the program mmachine was not found
These are the statuses of mmachine, and 127 of mm's own.""",
)

JSON_TOPIC = Topic(
    "json",
    "output for programs",
    """\
`--json` of run, solo, continue, trace, symbols, audit, keeps and grade writes one JSON value in a documented form: docs/JSON.md.""",
)

TOPICS = {
    topic.name: topic
    for topic in (SOURCES, POINTERS, SCHEDULES, NAMES, RANGES, WAITING, IDIOMS, NETS, STATUSES, JSON_TOPIC)
}
