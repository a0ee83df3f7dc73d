"""Checkouts that are wrong in one place, for tools/spoiled: for scripts of the merge check that run no program, and for
the library that tools/hostile puts before one.

Each has what is wrong, the script with its words, the file, a text that stands there once, and what stands there
instead. The script has to notice, in a copy of this checkout with this one change."""

EDITS, COUNTS, OPERATIONS, NAMES = [".ci/edits"], [".ci/counts"], [".ci/operations"], [".ci/names"]
CLAIMS, COMMENTS, HINTS, BROKEN = [".ci/claims"], [".ci/comments"], [".ci/hints"], ["tools/broken", "--applies"]
CLAUSES, BROWSER = ["docs/clauses", "--check"], [".ci/view", "--short"]
# What stands between the program and the system does there what a wrong program would do: {} is the program.
SMALL, TYPED = "run examples/letterbox.img 100 examples/letterbox.schedule", "debug examples/counter.img < examples/bug.input"
MEMORY, CALLS, SHORT = (["tools/hostile", "--quick", "--program", "{}", "--only", it, SMALL, TYPED] for it in ("memory", "calls", "short"))
BETWEEN = MEMORY, CALLS, SHORT
# Those that the merge check does not try.
LONG = (HINTS, BROWSER, *BETWEEN)

TREES = [
    ("a wrong body does not apply", EDITS, "crates/mm_word/must-fail/restrict_ro_to_rw.edit", "Perm::Key,", "Perm::Kez,"),
    ("a wrong body changes nothing", EDITS, "crates/mm_word/must-fail/restrict_ro_to_rw.edit",
     "matches!(to, Perm::Key | Perm::Rw)", "to == Perm::Key"),
    # Less is tried, or says less.
    ("the tests of `mm` are not run", COUNTS, ".ci/run", "timed .ci/mm\n", "timed .ci/mm true\n"),
    ("nothing is proved", COUNTS, ".ci/run", "    timed .ci/proofs\n", "    timed rt version\n"),
    ("a script that fails ends nothing", COUNTS, ".ci/run", '    "$@" || exit\n', '    "$@" || true\n'),
    ("a script that fails beside others ends nothing", COUNTS, ".ci/run", '.ci/run --one "$room" || exit 1\n',
     '.ci/run --one "$room" || true\n'),
    ("what a thread touches is nowhere", COUNTS, "crates/mm_top/specs/Headline.antt", "  pub reaches : Reaches i items\n",
     "  pub reaches : Reaches i items → Reaches i items\n"),
    ("what is on standard error at Done is nothing new", COUNTS, "crates/mm_top/src/top.rt",
     "D.taken diag.new ≡ D.taken diag.old }", "D.taken diag.new ≡ D.taken diag.new }"),
    ("a wrong body is no code", COUNTS, "crates/mm_seg/wrong/pushes_nothing.edit", "new: ", "new: this is no code ("),
    ("a test asserts less", COUNTS, "mm/tests/test_check_why.py", "    def test_wrong(self):\n", "    def wrong(self):\n"),
    ("a module of tests is left out", COUNTS, "mm/tests/test_check_why.py", "import unittest\n",
     'import unittest\nraise unittest.SkipTest("later")\n'),
    ("a script wants less after a sign of a comment", COUNTS, ".ci/answers", '("1*", 0), ("*1", 0), ', ""),
    ("a property of the pointer unit is always so", COUNTS, "hardware/formal/pointers.sv", "assert (is_below);", "assert (is_below || 1);"),
    ("a program that asks the library of C asks less", COUNTS, "mm/tests/library.c", "most < 9; most++)", "most < 1; most++)"),
    ("a recorded session has another answer", COUNTS, "mm/tests/sessions/dap-condition.txt", '"verified": true', '"verified": false'),
    ("an exercise asks for less", COUNTS, "docs/course/grade/1.1.txt", "gives 0 isptr 0\n", ""),
    ("a script that another one calls looks at less", COUNTS, "editors/check_vscode.py", '(4, 3, "there is no operation `MOV`"), ', ""),
    # Pages.
    # (in two pieces, since else this file would have the name)
    ("a page of the code names what is not there", NAMES, "docs/DECISIONS.md", "`StopReason`", "`StopReaso" "z`"),
    ("a program that is not built here uses what is not there", NAMES, "conformance/logger/main.txt", "use mm_text::TextBuffer;",
     "use mm_text::Gather;"),
    ("a link leads to no page", NAMES, "README.md", "without a proof](docs/INSTALL.md)", "without a proof](docs/INSTALLING.md)"),
    ("a link leads to no heading", NAMES, "README.md", "docs/PROVED.md#what-is-not-proved); the", "docs/PROVED.md#not-proved); the"),
    ("a file has each operation and is not on the page", OPERATIONS, "docs/CARRYING_ON.md", "`mm/machine/isa.py`", "`mm/machine/words.py`"),
    ("a link leads to another definition", CLAUSES, "docs/INSTRUCTIONS.md", "[1A]: ../crates/mm_isa/specs/Table.antt#L46",
     "[1A]: ../crates/mm_isa/specs/Table.antt#L45"),
    ("a program may print twice as much", CLAIMS, "README.md", "prints at most 4,096 bytes", "prints at most 8,192 bytes"),
    ("numbers are kept too", CLAIMS, "docs/KEEPS.md", "- **Nothing about integers.**", "- **About integers too.**"),
    ("what is only tested is proved", CLAIMS, "README.md", "- **Only tested:** `mm`", "- **Proved:** `mm`"),
    ("a law says more", CLAIMS, "docs/THEOREMS.md", "| A word that a group can write it can touch. |",
     "| A word that a group can write no other can touch. |"),
    ("a definition is told as another one", CLAIMS, "docs/MODEL.md", "the least slot, running or halted, whose",
     "the least running slot whose"),
    ("a contract is told as more", CLAIMS, "docs/PROVED.md", "**What is read:** nothing if the words are in no row of the table of commands",
     "**What is read:** nothing if a word is wrong"),
    ("an operation does something else", CLAIMS, "docs/INSTRUCTIONS.md", "bits(A) shifted right by bits(B) mod 64, with the sign",
     "bits(A) shifted right by bits(B), with zeros"),
    ("a definition has another meaning than its row", CLAIMS, "crates/mm_isa/specs/Alu.antt", "alu_result Or a b = Ok (bit_or a b)",
     "alu_result Or a b = Ok (bit_xor a b)"),
    ("C catches what it does not catch", CLAIMS, "docs/C.md", "  - Fields of one structure, and rows of one array of arrays, have no fence between them.\n", ""),
    ("all is whole in the quick form", CLAIMS, "docs/RELIABILITY.md", "and of the other parts every so many\ncases that are alike are tried.",
     "and so are the other parts."),
    ("a form of JSON has something else", CLAIMS, "docs/JSON.md", "`turns` (how many at least)", "`turns` (how many at most)"),
    ("a core is proved", CLAIMS, "hardware/README.md", "None of it is proved\nbut what", "All of it is proved,\nas"),
    ("files are read together", CLAIMS, "docs/FORMATS.md", "and parsed before the next one is opened", "before the first one is parsed"),
    ("a server answers everybody", CLAIMS, "docs/SERVE.md", "- Without `--host` only your own computer", "- Without `--host` everybody"),
    ("a wrong body has no row", CLAIMS, "docs/WRONG.md", "| pushes_nothing ", "| pushes_something "),
    # Code.
    ("a function says nothing", COMMENTS, "crates/mmachine/src/main.rt", "/// The status of the process at an answer.\n", "\n"),
    ("a module takes what it does not use", HINTS, "mm/status.py", "from __future__ import annotations\n",
     "from __future__ import annotations\n\nimport fractions\n"),
    ("a page never comes up", BROWSER, "mm/view/main.js", "  root.dataset.place = place;", "  root.dataset.place = = place;"),
    ("a page shows events that somebody took", BROWSER, "mm/view/replay.js", "slot.queue.shift()", "slot.queue.slice()"),
    ("a page shows no pages that came", BROWSER, "mm/view/replay.js", "if (isNew) this.pages.add(page);", "if (isNew) this.pages.delete(page);"),
    ("a page shows another load on its way", BROWSER, "mm/view/replay.js", "slot.pending.push([b, c])", "slot.pending.push([b + 1, c])"),
    ("a page hangs", BROWSER, "mm/view/main.js", "  root.dataset.place = place;", "  for (;;) root.dataset.place = place;"),
    ("want of memory is overlooked", MEMORY, "tools/between.c", "    errno = ENOMEM;\n    return 1;\n", "    return 0;\n"),
    ("a read that fails is the end", CALLS, "tools/between.c", "return fails(name) ? -1 : syscall(SYS_read,", "return fails(name) ? 0 : syscall(SYS_read,"),
    ("a read that fails after the first is the end", CALLS, "tools/between.c", "return fails(name) ? -1 : syscall(SYS_read,",
     "return fails(name) ? -(syscall(SYS_lseek, file, 0, SEEK_CUR) == 0) : syscall(SYS_read,"),
    ("a write that fails is done", CALLS, "tools/between.c", "return answer <= 0 ? answer : syscall(SYS_write, file, from, moves(",
     "return answer <= 0 ? (ssize_t)size : syscall(SYS_write, file, from, moves("),
    ("a write that takes nothing is made again", CALLS, "tools/between.c", "    met = name;\n    return 0;\n", "    met = name;\n    return 2;\n"),
    ("a write of one byte is that of all", SHORT, "tools/between.c", "syscall(SYS_write, file, from, moves(sink(file), size));\n}\nssize_t __write",
     "(syscall(SYS_write, file, from, moves(sink(file), size)), (ssize_t)size);\n}\nssize_t __write"),
    ("what a read of one byte leaves is lost", SHORT, "tools/between.c", "syscall(SYS_read, file, to, moves(name, size));",
     "({ ssize_t got = syscall(SYS_read, file, to, size), most = moves(name, size); got < most ? got : most; });"),
    ("a broken line does not apply", BROKEN, "mm/waves/vcd.py", 'yield "bytes", 17, len(data)', 'yield "bytes", 17, (len(data))'),
]
