"""Sentences, rows and sections of pages, held to what they speak of, for .ci/claims: the file .ci/sentences.txt.

By hand: a line `PAGE: SENTENCE`, whose sentence stands in the page, whatever its lines; and below it, indented, lines
`PATH: WORDS`, whose words stand in the file of that path. So who changes a sentence, or the thing of which it speaks,
has to come here and to read both.

Written by `.ci/claims --write`, a line with a checksum for each

  law        row of a law in docs/THEOREMS.md, with the contract of its function and the statements that this names
  operation  row of docs/INSTRUCTIONS.md, with the definitions to which it links
  crate      row of docs/PROVED.md, with the clauses of the functions that it names
  section    section of a page in `SECTIONS`, with the definitions that it describes; if it has none, it was measured
  names      other sections of docs/MODEL.md, docs/PROVED.md and docs/THEOREMS.md, with the definitions and the contracts
             that they name: those of the crates of the heading, or of all

A checksum is of both texts, whatever their blanks and the comments of code. If one has changed, read the sentence beside
what it speaks of before you write the line anew."""

import functools
import glob
import hashlib
import os
import re

PLACE = ".ci/sentences.txt"
MARK = "# Written by `.ci/claims --write`.\n"
THEOREMS, INSTRUCTIONS, PROVED = "docs/THEOREMS.md", "docs/INSTRUCTIONS.md", "docs/PROVED.md"
KEEPS, FORMATS, MODEL = "docs/KEEPS.md", "docs/FORMATS.md", "docs/MODEL.md"
# A page, a heading of it, and the definitions that the section describes, each a file below crates/.
SECTIONS = [
    ("README.md", "## What is proved", "mm_top/specs/Headline.antt mm_laws/specs/Runs.antt"),
    ("README.md", "## What it does not do", "mm_model/src/limits.rt mm_model/specs/Image.antt"),
    ("docs/RELIABILITY.md", "## How input and output are handled", "mm_io/src/system.rt mmachine/src/main.rt"),
    ("docs/RELIABILITY.md", "## What has to hold", "mmachine/specs/Exit.antt mm_load/specs/Lines.antt"),
    (THEOREMS, "## The headline", "mm_top/specs/Headline.antt mm_laws/specs/Runs.antt mm_laws/specs/Granted.antt"),
    (THEOREMS, "### The program", "mm_top/specs/Answers.antt mm_load/specs/Kinds.antt"),
    (PROVED, "## What is not proved", "mmachine/src/main.rt mm_io/src/system.rt"),
    (KEEPS, "## What a yes means", "mm_kernel/specs/Laws.antt mm_kernel/specs/Variants.antt"),
    (KEEPS, "## What it does not mean", "mm_keep_text/specs/Laws.antt"),
    (FORMATS, "## What the standard error says", "mm_load/specs/Lines.antt mmachine/specs/Exit.antt"),
    (FORMATS, "## Image", "mm_format/specs/Images.antt mm_image/specs/Faults.antt"),
    (FORMATS, "## Object", "mm_object/specs/Format.antt mm_object/specs/Faults.antt"),
    (FORMATS, "## Checkpoint", "mm_checkpoint/specs/Format.antt mm_checkpoint/specs/Faults.antt"),
    (FORMATS, "## Schedule", "mm_model/specs/Schedule.antt"),
    (FORMATS, "## Links and events", "mm_net/specs/Links.antt mm_net/specs/Events.antt"),
    (FORMATS, "## Report", "mm_model/specs/Report.antt mm_model/specs/Lines.antt"),
    (FORMATS, "## Derivation", "mm_why/specs/Derivations.antt"),
    (FORMATS, "## What a kernel keeps", "mm_keep_text/specs/Answers.antt"),
    (FORMATS, "## Exploration", "mm_explore/specs/Texts.antt mm_explore/specs/Findings.antt"),
    (FORMATS, "## Holders", "mm_sweep/specs/HolderTexts.antt"),
    (MODEL, "## Reach", "mm_model/specs/Reach.antt"),
    (MODEL, "## Worlds", "mm_model/specs/Worlds.antt"),
    ("docs/MACHINE.md", "## Words and pointers", "mm_word/specs/Perm.antt mm_word/specs/Pointer.antt mm_word/specs/Access.antt"),
    ("docs/MACHINE.md", "## Turns", "mm_model/specs/Turn.antt mm_model/specs/Run.antt"),
    ("docs/INSTRUCTIONS.md", "## Notes", "mm_model/specs/Effect.antt mm_model/specs/Turn.antt"),
    ("docs/INSTRUCTIONS.md", "## Split machines", "mm_model/specs/Turn.antt"),
    ("docs/CACHE.md", "## The count line", "mm_model/specs/Counted.antt"),
    ("docs/AUDIT.md", "## The lines of an audit", "mm_model/specs/Audit.antt mm_model/specs/Worlds.antt"),
    ("docs/AUDIT.md", "## What an audit guarantees", "mm_laws/specs/Runs.antt mm_model/specs/Reach.antt"),
    ("docs/AUDIT.md", "## Extracting groups from an image", "mm_audit/specs/Own.antt"),
    ("docs/EXPLORE.md", "## What is proved", "mm_explore/specs/Laws.antt"),
    ("docs/EXPLORE.md", "## Complete or cut short", "mm_config/specs/Configurations.antt mm_explore/specs/Moves.antt"),
    ("docs/REVOCATION.md", "## What a sweep guarantees", "mm_sweep/specs/Laws.antt mm_sweep/specs/Refusals.antt"),
    ("docs/CHECKPOINTS.md", "## A run in two pieces", "mm_top/specs/SaveToRun.antt"),
    ("docs/NETS.md", "## What a link does", "mm_net/specs/Moves.antt"),
    ("docs/NETS.md", "## What is proved", "mm_net/specs/Isolated.antt mm_net/specs/Granted.antt"),
    ("docs/LINKING.md", "## Linking", "mm_link/specs/Linked.antt mm_link/specs/Placing.antt mm_link/specs/Faults.antt"),
    ("docs/LINKING.md", "## Canonical text", "mm_disasm/specs/Canonical.antt"),
    ("docs/LINKING.md", "## Generated load", "mm_gen/specs/Generated.antt mm_gen/specs/Summary.antt"),
    ("docs/ASSEMBLER.md", "## Faults", "mm_line/specs/Faults.antt mm_asm/specs/Faults.antt"),
    ("docs/DEBUGGER.md", "## Lines and replies", "mm_debug/specs/Commands.antt mm_debug/specs/Session.antt"),
    ("docs/COMMITS.md", "## The lines", "mm_log/specs/Lines.antt mm_log/specs/Log.antt"),
    ("docs/AUDIT.md", "## What an audit does not say", "mm_model/specs/Reach.antt"),
    (KEEPS, "## What is followed, and what is not", "mm_kernel/specs/Turns.antt mm_kernel/specs/Operations.antt"),
    (KEEPS, "## If it is not known", "mm_keep_text/specs/Answers.antt mm_kernel/specs/Uses.antt"),
    (KEEPS, "## What `mmachine` writes", "mm_keep_text/specs/Told.antt"),
    ("docs/EXPLORE.md", "## The lines of an exploration", "mm_explore/specs/Texts.antt mm_explore/specs/Findings.antt"),
    ("docs/EXPLORE.md", "## What goes on for ever", "mm_explore/specs/Closed.antt mm_explore/specs/Outcomes.antt"),
    ("docs/EXPLORE.md", "## What an exploration does not say", "mm_explore/specs/Finds.antt mm_explore/specs/Schedules.antt"),
    ("docs/REVOCATION.md", "## Step by step", "mm_sweep/specs/Swept.antt mm_sweep/specs/Refusals.antt mm_sweep/specs/Holders.antt"),
    ("docs/REVOCATION.md", "## What sweeping cannot take back", "mm_sweep/specs/Swept.antt mm_sweep/specs/Refusals.antt"),
    ("docs/CHECKPOINTS.md", "## What a checkpoint has", "mm_checkpoint/specs/Format.antt mm_checkpoint/specs/States.antt"),
    ("docs/CHECKPOINTS.md", "## What is not claimed", "mm_checkpoint/specs/Checkpoints.antt"),
    ("docs/NETS.md", "## Why no pointer crosses", "mm_net/specs/Moves.antt mm_net/specs/Wires.antt"),
    ("docs/NETS.md", "## The report of a net", "mm_net/specs/Texts.antt"),
    ("docs/DEBUGGER.md", "## Going back", "mm_save/specs/Recorded.antt mm_save/specs/Laws.antt"),
    ("docs/COMMITS.md", "## Carrying out a log", "mm_log/specs/Replay.antt mm_log/specs/Laws.antt"),
    ("docs/CACHE.md", "## How an access goes through the cache", "mm_model/specs/Counted.antt mm_vmem/specs/Cached.antt"),
    ("docs/CACHE.md", "## A worked run", "mm_model/specs/Counted.antt mm_vmem/specs/Entries.antt"),
    ("docs/CACHE.md", "## What is proved", "mm_model/specs/CountFacts.antt mm_vmem/specs/Stands.antt"),
    ("docs/ASSEMBLER.md", "## Lines and tokens", "mm_line/specs/Tokens.antt mm_line/specs/Reading.antt"),
    ("docs/ASSEMBLER.md", "## Segments and words", "mm_line/specs/Statements.antt mm_line/specs/Words.antt"),
    ("docs/ASSEMBLER.md", "## Operations", "mm_line/specs/Operands.antt mm_line/specs/Ranges.antt"),
    ("docs/ASSEMBLER.md", "## Threads", "mm_line/specs/Forms.antt mm_draft/specs/Drafts.antt"),
    ("docs/MACHINE.md", "## Memory", "mm_model/specs/Memory.antt"),
    ("docs/MACHINE.md", "## Slots", "mm_model/specs/Slot.antt mm_model/specs/State.antt"),
    ("docs/MACHINE.md", "## Snapshots", "mm_machine/specs/Snapshot.antt mm_machine/specs/Validity.antt"),
    (FORMATS, "## Trace", "mm_model/specs/Trace.antt"),
    (FORMATS, "## Audit", "mm_model/specs/Audit.antt mm_audit/specs/Audits.antt"),
    ("docs/COMMANDS.md", "## All commands", "mm_top/specs/Commands.antt mm_cli/src/table.rt"),
    ("docs/COMMANDS.md", "## How a command ends", "mm_load/specs/Lines.antt mmachine/specs/Exit.antt"),
    (INSTRUCTIONS, "## The word", "mm_isa/specs/Decode.antt"),
    ("docs/RELIABILITY.md", "### A second implementation", ""),
    # What is promised of `mm` and its compiler, and what is not.
    ("docs/RELIABILITY.md", "## What the merge check does not see", ""),
    ("docs/C.md", "## What C is supported", ""),
    ("docs/C.md", "## What a pointer is", ""),
    ("docs/C.md", "## Use after free", ""),
    ("docs/CTESTS.md", "## Memory errors, case by case", ""),
    ("docs/CTESTS.md", "## Overflows", ""),
    ("docs/INSTALL.md", "## Requirements", ""),
    ("docs/SERVE.md", "### What a class may ask for", ""),
    ("docs/SERVE.md", "### Who can use it", ""),
    ("docs/MM.md", "## How far to trust it", ""),
    ("docs/C.md", "## Domains", ""),
    ("docs/C.md", "## What a kernel in C keeps", ""),
    ("docs/JSON.md", "## run, solo, continue", ""),
    ("docs/JSON.md", "## trace", ""),
    ("docs/JSON.md", "## symbols, audit, keeps, grade", ""),
    ("docs/JSON.md", "## explore", ""),
    ("docs/HARDWARE.md", "## What has to match", ""),
    ("docs/HARDWARE.md", "## What is not modelled", ""),
    ("docs/HARDWARE.md", "## The order of retiring is the schedule", ""),
    ("hardware/README.md", "## What is proved of it", ""),
    ("docs/CONFORMANCE.md", "## Testing a machine with the suite", ""),
    ("docs/STRENGTH.md", "## The bugs", ""),
    ("docs/STRENGTH.md", "## Bugs in how files are read", ""),
    ("docs/STRENGTH.md", "## Bugs in the pipelined core", ""),
]
COMMENT = re.compile(r"(?:^|(?<=\s))(?:--|//)[/!]?\s.*$", re.M)


class NotThere(Exception):
    """Something that a page names and that is not there."""


@functools.lru_cache(None)
def text_of(path):
    try:
        with open(path, encoding="utf-8") as file:
            return file.read()
    except OSError:
        raise NotThere(f"there is no {path}") from None


def flat(text):
    """A text on one line, without the marks of quoted lines."""
    return " ".join(re.sub(r"^> ?", "", text, flags=re.M).split())


def checksum(said, spoken_of):
    """A checksum of what a page says, and of the code of which it speaks, without its comments."""
    return hashlib.sha256(f"{flat(said)}\n{flat(COMMENT.sub('', spoken_of))}".encode()).hexdigest()[:12]


# 1. By hand.


def by_hand():
    """Each sentence with its page and with the places of which it speaks: a path and words."""
    found = []
    for line in text_of(PLACE).split(MARK)[0].split("\n"):
        path, _, words = line.strip().partition(": ")
        if line.startswith("  "):
            found[-1][2].append((path, words))
        elif line.strip() and not line.startswith("#"):
            found.append((path, words, []))
    return found


def has(path, words):
    return bool(words) and os.path.isfile(path) and flat(words) in flat(text_of(path))


def of_sentences():
    """What is wrong with the sentences that were written by hand."""
    for page, sentence, places in by_hand():
        if not has(page, sentence):
            yield f"{page}: it does not say `{sentence}`"
        if not places:
            yield f"{page}: `{sentence}` speaks of nothing"
        for path, words in places:
            if not has(path, words):
                yield f"{page}: `{sentence}`: {path} does not have `{words}`"


# 2. What pages have beside what.


def section_of(page, heading):
    """The text of a section, with the sections below it."""
    text, level = text_of(page), len(heading.split(" ")[0])
    if f"\n{heading}\n" not in text:
        raise NotThere(f"{page} has no section `{heading}`")
    return re.split(rf"^#{{1,{level}}} ", text.split(f"\n{heading}\n", 1)[1], maxsplit=1, flags=re.M)[0]


@functools.lru_cache(None)
def specs_of(crate):
    return "\n\n".join(map(text_of, sorted(glob.glob(f"crates/{crate}/specs/**/*.antt", recursive=True))))


def definition(crate, name):
    """The definition of a name in a crate's specs, from its first line to the next empty one; empty if it has none."""
    found = re.search(rf"^(?:(?:abbrev|unfoldable|effect|pub|record|data) )+{name}\b.*(?:\n.+)*", specs_of(crate), re.M)
    return found[0] if found else ""


@functools.lru_cache(None)
def contracts(path):
    """What each function of a file says before its body, by its name."""
    found, name = {}, None
    for line in text_of(path).split("\n"):
        begins = re.match(r" *(?:pub(?:\(crate\))? )?(?:const )?fn (\w+)", line)
        name = begins[1] if begins else None if line.lstrip().startswith("{") else name
        if name:
            found[name] = found.get(name, "") + line + "\n"
            if line.endswith("{"):
                name = None
    return found


def law(name, files):
    """The contract of a law's function, and the statements of its crate that this names."""
    *way, name = name.split("::")
    for path in [f"crates/{way[0]}/src/{'/'.join(way[1:])}.rt"] if way else files:
        said = contracts(path).get(name)
        if said:
            crate = path.split("/")[1]
            return said + "\n".join(definition(crate, it) for it in sorted(set(re.findall(r"\b[A-Z]\w+", said))))
    raise NotThere(f"{THEOREMS}: there is no law {name}")


def names_in(functions):
    """The functions that the last column of a law names."""
    first, _, modules = re.sub(r" \([^)]*\)", "", functions).partition(" of ")
    names, modules = (re.findall(r"`([\w:]+)`", it) for it in (first, modules))
    return [f"{it}::{names[0]}" for it in modules] or names


def laws():
    for part in re.split(r"^## ", text_of(THEOREMS).split("\n## The laws\n")[1], flags=re.M):
        files = re.findall(r"`(crates/\w+/src/\w+\.rt)`", part)
        for row, functions in re.findall(r"^\| (.*) \| (`[^|]*) \|$", part, re.M):
            names = names_in(functions)
            yield "law " + ",".join(names), f"{row} {functions}", "\n".join(law(it, files) for it in names)


def linked(place):
    """The line of a definition to which a link leads, with those that go on with it."""
    path, _, line = place.partition("#L")
    first, *more = text_of(path).split("\n")[int(line) - 1 :]
    ends = next((at for at, it in enumerate(more) if not it.startswith(" ")), len(more))
    return "\n".join([first, *more[:ends]])


def operations():
    places = dict(re.findall(r"^\[([^\]]+)\]: \.\./(\S+#L\d+)$", text_of(INSTRUCTIONS), re.M))
    for row in re.finditer(r"^\| \[([0-9A-F]{2})\] \| \[(\w+)\] \|.*$", text_of(INSTRUCTIONS), re.M):
        labels = [it for it in (row[1], row[2], f"{row[2]} tests") if it in places]
        yield f"operation {row[2]}", row[0], "\n".join(linked(places[it]) for it in labels)


def crates():
    for row in re.findall(r"^\| `mm\w*`.*\|$", section_of(PROVED, "## Crate by crate"), re.M):
        first, _, last = (it.strip() for it in row[1:-1].split("|"))
        names = re.findall(r"`(mm\w*)`", first)
        functions = sorted(set(re.findall(r"\w+", " ".join(re.findall(r"`([^`]*)`", last)))) - {"laws"})
        files = [path for it in names for path in sorted(glob.glob(f"crates/{it}/src/**/*.rt", recursive=True))]
        yield "crate " + ",".join(names), row, "\n".join(contracts(path).get(it, "") for it in functions for path in files)


@functools.lru_cache(None)
def named_of(crate):
    """What a crate has by a name: definitions, contracts of functions, and those that have a clause of that name."""
    found = {}
    for it in re.finditer(r"^(?:(?:abbrev|unfoldable|effect|pub|record|data) )+(\w+)\b.*(?:\n.+)*", specs_of(crate), re.M):
        found.setdefault(it[1], []).append(it[0])
    for path in sorted(glob.glob(f"crates/{crate}/src/**/*.rt", recursive=True)):
        for function, said in contracts(path).items():
            for name in {function, *re.findall(r"\bensures (\w+) ", said)}:
                found.setdefault(name, []).append(said)
    return found


def named():
    held, every = {it[:2] for it in SECTIONS} | {(PROVED, "## Crate by crate")}, sorted(map(os.path.basename, glob.glob("crates/*")))
    for page in (MODEL, PROVED, THEOREMS):
        parts = re.split(r"^(#{2,3} .*)$", text_of(page), flags=re.M)
        for heading, said in zip(parts[1::2], parts[2::2]):
            if (page, heading) not in held:
                names = sorted({it for words in re.findall(r"`([^`]*)`", said) for it in re.findall(r"\w+", words)})
                theirs = re.findall(r"`(mm_\w+)`", heading) or every
                texts = (text for it in names for crate in theirs for text in named_of(crate).get(it, []))
                yield f"names {page} {heading}", said, "\n".join(texts)


def sections():
    for page, heading, files in SECTIONS:
        yield f"section {page} {heading}", section_of(page, heading), "\n".join(text_of(f"crates/{it}") for it in files.split())


def lines():
    """The lines that are written: what each holds, and its checksum."""
    found = {}
    for kind in (laws, operations, crates, sections, named):
        for key, said, spoken_of in kind():
            again = sum(it == key or it.startswith(f"{key} again") for it in found)
            found[key + f" again {again}" * bool(again)] = checksum(said, spoken_of)
    return found


def of_lines():
    """What is otherwise than it was written."""
    now, old = lines(), {}
    for line in text_of(PLACE).partition(MARK)[2].splitlines():
        key, _, number = line.rpartition(" ")
        old[key] = number
    for key in sorted({*now, *old}):
        if now.get(key) != old.get(key):
            why = "it is gone" if key not in now else "it is new" if key not in old else "this or what it speaks of has changed"
            yield f"{key}: {why}: read both, then `.ci/claims --write`"


def complaints():
    try:
        yield from of_sentences()
        yield from of_lines()
    except NotThere as error:
        yield str(error)


def write():
    kept = text_of(PLACE).split(MARK)[0]
    with open(PLACE, "w", encoding="utf-8") as file:
        file.write(kept + MARK + "".join(f"{key} {number}\n" for key, number in sorted(lines().items())))
