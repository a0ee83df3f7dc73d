"""The facts of audit, why, check-why, explore, symbols and debug."""

from __future__ import annotations

import re
from typing import Any, Iterator, Optional

from mm.tests.support import mm
from mm.tests.truth.names import PLACE
from mm.tests.truth.runs import Case
from mm.tests.truth.told import Report, State, address_in

UNITS = {"byte": 0, "bytes": 0, "KiB": 10, "MiB": 20, "GiB": 30, "TiB": 40, "PiB": 50}


def audit_form(case: Case, form: Any, text: str) -> None:
    """An audit of --json."""
    groups: list[Any] = []
    aparts: list[Any] = []
    for words in map(str.split, text.splitlines()):
        if words[0] == "group":
            groups.append((int(words[1]), words[2] == "privileged", [], []))
        elif words[0] in ("touch", "write"):
            groups[-1][2 if words[0] == "touch" else 3].append((int(words[1], 16), int(words[2])))
        else:
            found = dict(zip(words[2::2], words[3::2]))
            word = int(found["word"], 16) if "word" in found else None
            who = [int(found[name]) if name in found else None for name in ("writer", "handler")]
            aparts.append(([int(group) for group in words[1].split(",")], words[2] == "yes", who[0], word, who[1]))

    def spans(each: Any) -> list[tuple[int, int]]:
        return [(int(span["address"], 16), span["log"]) for span in each]

    told = [(each["group"], each["privileged"], spans(each["touch"]), spans(each["write"])) for each in form["groups"]]
    case.check("audit groups", told == groups, (told, groups))
    said = [
        (each["groups"], each["apart"], each["writer"], int(each["word"]["address"], 16) if each["word"] else None, each["handler"])
        for each in form["apart"]
    ]
    case.check("audit apart", said == aparts, (said, aparts))
    for each in form["groups"]:
        for span in (*each["touch"], *each["write"]):
            case.address("audit span", span, int(span["address"], 16))


def audit_text(case: Case, out: str, text: str) -> None:
    """An audit in words."""
    wanted: dict[int, set[tuple[str, int, int]]] = {}
    found: dict[int, set[tuple[str, int, int]]] = {}
    group = 0
    for words in map(str.split, text.splitlines()):
        if words[0] == "group":
            group = int(words[1])
            wanted[group] = set()
        elif words[0] in ("touch", "write"):
            wanted[group].add((words[0], int(words[1], 16), int(words[2])))
    for line in out.splitlines():
        head = re.match(r"group (\d+) \(slots? ([\d, ]+)\)(.*)$", line)
        row = re.match(r"  (read and write|read|write) +(.*\S) +(\d+) (\w+)  0x([0-9a-f]+)$", line)
        if head:
            group = int(head[1])
            found[group] = {("touch", 0, 54), ("write", 0, 54)} if "privileged" in head[3] else set()
            slots = [number for number, slot in case.image.slots.items() if slot["group"] == group]
            case.check("audit slots", list(map(int, head[2].split(","))) == slots, (line, slots))
        elif row:
            log, base = (int(row[3]) << UNITS[row[4]]).bit_length() - 1, int(row[5], 16)
            case.check("audit name", case.names.address(row[2].split(" (with")[0]) == base, line)
            found[group] |= {(kind, base, log) for kind, verb in (("touch", "read"), ("write", "write")) if verb in row[1]}
    case.check("audit text", found == wanted, (found, wanted))
    for words in map(str.split, [line for line in text.splitlines() if line.startswith("apart ")]):
        who = words[1].replace(",", ", ")
        said = re.search(rf"^ *groups? {who} (stands?|do(?:es)? not stand) apart(.*)$", out, re.M)
        case.check("audit stands", said and said[1].startswith("stand") == (words[2] == "yes"), (words, out))
        if said and words[2] == "writer":
            writer = re.search(rf"group (\d+) can write {PLACE}, which", said[2])
            right = writer and (int(writer[1]), case.names.address(writer[2])) == (int(words[3]), int(words[5], 16))
            case.check("audit writer", right, (words, said[2]))
        if said and words[2] == "handler":
            case.check("audit handler", f"slot {words[3]} and its handler" in said[2], (words, said[2]))


NUMBER = re.compile(r"[0-9a-f]{14}|\d+")
# In what order the numbers of some rules of a derivation are told.
ORDERS = {"register": (1, 0), "passed": (1, 0, 2, 3), "served": (1, 0)}


def why_text(case: Case, out: str, text: str, group: int, address: int, kind: str) -> None:
    """A derivation in words: its first line, and of each line the number, the group, the pointer and the numbers of the rule."""
    lines = out.splitlines()
    head = re.match(rf"group (\d+) (can|cannot) (read|write) {PLACE}$", lines[0])
    verb = {"touch": "read", "write": "write"}[kind]
    right = head and (int(head[1]), head[2] == "can", head[3]) == (group, text != "no\n", verb)
    case.check("why answer", right and case.names.address(head[4]) == address, (lines[0], text))
    rows = [] if text == "no\n" else text.splitlines()
    case.check("why lines", len(lines) - 1 == len(rows), (out, text))
    for line, row in zip(lines[1:], rows):
        words = row.split()
        said = re.match(r" +(\d+)  group (\d+) +((?:ro|rw|xu|xp|eu|ep|key) 2\^\d+ \S+) +(.*)$", line)
        right = said and (said[1], said[2]) == (words[0], words[2]) and case.names.is_word(said[3], words[3])
        case.check("why line", right, (line, row))
        case.check("why rule", said and numbers_in(case, said[4]) == numbers_of(words, rows), (line, row))


def numbers_of(words: list[str], rows: list[str]) -> list[int]:
    """The numbers of a rule in the order in which it is told, after the group of the line that gives."""
    numbers = [int(each, 16) if len(each) == 14 else int(each) for each in words[5:] if NUMBER.fullmatch(each)]
    giver = [int(rows[numbers[1] - 1].split()[2])] if words[4] in ("passed", "served") else []
    return giver + [numbers[at] for at in ORDERS.get(words[4], range(len(numbers)))]


def numbers_in(case: Case, text: str) -> list[int]:
    """The numbers, registers and places of a text."""
    found = [case.names.address(each) if not re.fullmatch(r"r?\d+", each) else int(each.lstrip("r"))
             for each in re.findall(r"\w+(?:\+\d+)?", text)]
    return [each for each in found if each is not None]


def explore_text(case: Case, out: str, text: str) -> None:
    """What `explore` found, in words."""
    lines = out.splitlines()
    said: list[tuple[Any, ...]] = []
    outcomes = outcomes_of(text)
    wanted: list[tuple[Any, ...]] = []
    first = text.split("\n", 1)[0].split()
    head = re.match(r"(\d+) configurations?, (these are all|there are more)", lines[0])
    case.check("explore count", head and (head[1], head[2] == "these are all") == (first[1], first[2] == "all"), (lines[0], first))
    for words in map(str.split, text.splitlines()[1:]):
        if words[0] in ("touched", "wrote"):
            wanted.append((words[0], int(words[1], 16), int(words[2])))
        elif words[0] == "fault":
            wanted.append(tuple(words))
        elif words[0] == "outcome":
            wanted.append(next(outcomes))
        elif words[0] == "by":
            wanted.append(("by", " ".join(words[1:])))
        elif words[0] == "slot":
            wanted.append((*words[:2], " ".join(words[2:])))
        elif words[0] == "group" and ["output"] == words[2:3]:
            wanted.append(("o", words[1], ""))
        elif words[0] == "o":
            wanted[-1] = (*wanted[-1][:2], wanted[-1][2] + words[1])
    wanted = [each for each in wanted if each[0] != "o" or each[2]]
    for line in lines[1:]:
        said += explored(case, line)
    same = len(said) == len(wanted) and all(map(is_outcome, said, wanted))
    case.check("explore findings", same, lambda: ([pair for pair in zip(said, wanted) if not is_outcome(*pair)], len(said), len(wanted), out))
    nobody = first[2] == "all" and not re.search(r"^slot \d+ (running|waiting|taken)$", text, re.M)
    case.check("explore verdict", ("no outcome leaves a thread waiting" in lines) == nobody, out)


KINDS = {"ends": "ended", "is stuck": "stuck", "goes on for ever": "endless"}


def outcomes_of(text: str) -> Iterator[tuple[Any, ...]]:
    """Of each outcome its kind and, if it goes on for ever, the slots that are busy and those that wait."""
    for block in re.split(r"^outcome \d+ ", text, flags=re.M)[1:]:
        kind = block.split("\n", 1)[0]
        slots = [tuple(re.findall(rf"^slot (\d+) {state}$", block, re.M)) for state in ("busy", "running")]
        yield ("outcome", kind, *(slots if kind == "endless" else ((), ())))


def slots_in(text: Optional[str], does: str) -> tuple[str, ...]:
    """The slots of which a sentence says that they do something."""
    found = re.search(rf"slots? ((?:\d+|, | and )+) {does}(?:, |$)", text or "")
    return tuple(re.findall(r"\d+", found[1])) if found else ()


def explored(case: Case, line: str) -> list[tuple[Any, ...]]:
    """What a line of `mm explore` says, as the program has it."""
    span = re.match(r"  (touches|writes) +(\S+)(?: and the (\d+) words? after it)?$", line)
    fault = re.match(r"slot (\d+) can be stopped .*?by fault (\d+)", line)
    outcome = re.match(r"outcome (\d+): it (ends|is stuck|goes on for ever)(?:: (.*))?$", line)
    if span:
        return [({"touches": "touched", "writes": "wrote"}[span[1]], case.names.address(span[2]), int(span[3] or 0) + 1)]
    if fault:
        return [("fault", fault[1], fault[2])]
    if outcome:
        return [("outcome", KINDS[outcome[2]], *(slots_in(outcome[3], does) for does in (r"(?:is|are) busy", r"waits?")))]
    if line.startswith("  under the schedule "):
        return [("by", line[21:].replace("without turns", ""))]
    slot, output = re.match(r"  slot (\d+) (.*)$", line), re.match(r'  group (\d+) prints "(.*)"$', line)
    if output:
        return [("o", output[1], output[2].encode().decode("unicode_escape").encode("latin-1").hex())]
    return [("slot", slot[1], slot[2])] if slot else []


# What is said of a slot that its handler has to serve.
FAULTED = {"waiting": "and its handler has not looked yet", "taken": "and its handler has it"}


def is_outcome(said: tuple[Any, ...], wanted: tuple[Any, ...]) -> bool:
    """Whether a finding is the program's. A slot that runs where nothing comes of its turns may be said to wait."""
    if said == wanted:
        return True
    if said[:2] == wanted[:2] and said[0] == "slot" and wanted[2] in FAULTED:
        return bool(re.fullmatch(rf"has faulted at {PLACE}(, past the end of its segment)?, {FAULTED[wanted[2]]}", str(said[2])))
    waits = r"(waiting|running) at .*, for ever"
    return said[:2] == wanted[:2] and said[0] == "slot" and wanted[2] == "running" and bool(re.fullmatch(waits, str(said[2])))


def symbols(case: Case, form: Any, out: str) -> None:
    """The names of a source with their places and lines."""
    names = case.names
    wanted = [(base, name, "segment", line) for name, (base, _, line) in names.segments.items()]
    wanted += [(address, name, "label", line) for name, (address, line) in names.labels.items() if names.has(address)]
    told = [(int(each["address"], 16), each["name"], each["kind"], each["source"]["line"]) for each in form["symbols"]]
    case.check("symbols", sorted(told) == sorted(wanted), (told, wanted))
    lengths = {each["name"]: each["length"] for each in form["symbols"]}
    case.check("symbols lengths", lengths == {name: names.lengths[name] for _, name, _, _ in wanted}, (lengths, names.lengths))
    rows = [line.split() for line in out.splitlines()[1:]]
    shown = sorted((int(row[0], 16), row[3]) for row in rows)
    case.check("symbols text", shown == sorted((address, name) for address, name, _, _ in wanted), (out, wanted))


def debug(case: Case, words: list[str], cycle: int, slot: int, addresses: list[int], report: Report, state: State) -> None:
    """A session that goes to a cycle, and looks at slots, registers, memory and outputs there."""
    asked = ["delete", f"goto {cycle}", "info slots", f"slot {slot}", "regs", "output"]
    asked += [line for address in addresses for line in (f"x/2 0x{address:x}", f"x/1i 0x{address:x}")]
    ended = mm("--program", case.asking.program, "debug", *words, lines="\n".join([*asked, "quit", ""]))
    case.check("mm debug", ended.status == 0, ended.err)
    blocks = [block.split("\n", 1) for block in re.split(r"^\(mm\) ", ended.out, flags=re.M)[1:]]
    case.check("debug answers", [head for head, *_ in blocks] == [*asked, "quit"], ended.out)
    said = {head: rest[0] if rest else "" for head, *rest in blocks}
    at = re.search(r"^cycle (\d+)", said.get(f"goto {cycle}", ""), re.M)
    case.check("debug cycle", at and int(at[1]) == cycle, said.get(f"goto {cycle}"))
    debug_slots(case, said, slot, report)
    for group, data in report.outputs.items():
        shown = re.search(rf'^group {group}  "(.*?)"(?: \.\. \d+ more bytes)?$', said.get("output", ""), re.M)
        text = shown[1].encode().decode("unicode_escape").encode("latin-1").hex() if shown else None
        case.check("debug output", text is not None and data.startswith(text), (text, data))
    for address in addresses:
        debug_memory(case, said, address, state)


def debug_slots(case: Case, said: dict[str, str], slot: int, report: Report) -> None:
    rows = re.findall(r"^[* ] slot (\d+) .*  \(group (\d+), (\d+) turns?\)$", said.get("info slots", ""), re.M)
    wanted = [(number, each["group"], each["turns"]) for number, each in report.slots.items()]
    case.check("debug slots", [tuple(map(int, row)) for row in rows] == wanted, (said.get("info slots"), wanted))
    shown, there = said.get("regs", ""), report.slots[slot]
    words = {int(number): text for number, text in re.findall(r"^  r(\d+) +(.*)$", shown, re.M)}
    case.check("debug registers", set(words) == set(there["words"]), (shown, there))
    for number, word in there["words"].items():
        text = words.get(number, "")
        right = text.startswith("empty") if word is None else case.names.is_word(text, word)
        case.check("debug register", right, (text, word))
    ip = re.search(rf"^  ip +((?:xu|xp) 2\^\d+ {PLACE})(, past)?$", shown, re.M)
    case.check("debug ip", ip and case.names.is_word(ip[1], there["ip"]) and bool(ip[3]) == there["past"], (shown, there))
    case.check("debug ip address", ip and case.names.address(ip[2]) == address_in(there["ip"]), (shown, there))


def debug_memory(case: Case, said: dict[str, str], address: int, state: State) -> None:
    rows = said.get(f"x/2 0x{address:x}", "").splitlines()
    case.check("debug rows", len(rows) == 2, rows)
    for place, row in enumerate(rows):
        shown, cell = re.match(r"  (\S+) +(.*?)( \(empty\))?$", row), state.cell(address + 8 * place)
        right = shown and case.names.address(shown[1]) == address + 8 * place
        if cell is None:
            case.check("debug no page", right and shown[2] == "on no page", (row, cell))
        else:
            case.check("debug cell", right and case.names.is_word(shown[2], cell[0]) and bool(shown[3]) != cell[1], (row, cell))
    shown = re.match(r"  \S+ +(.*)$", said.get(f"x/1i 0x{address:x}", "").split("\n")[0])
    case.check("debug instruction", shown and case.names.is_there(shown[1], state.cell(address), case.said, address), (shown and shown[1], state.cell(address)))
