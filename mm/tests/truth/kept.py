"""The facts of keeps, and of audits with the doors shut."""

from __future__ import annotations

import re
from typing import Any, Collection, Iterator, Optional

from mm.tests.truth import others
from mm.tests.truth.names import PERMISSIONS
from mm.tests.truth.runs import Case
from mm.tests.truth.told import address_in

SHORTS = {code: short for short, code in PERMISSIONS.items()}
EVERY, HOLD = "any word that a caller may hold", "pointer that a caller may hold"
HEADS = {"yes": r"yes: the kernel keeps (.*)$", "no": r"no: the kernel can give away what it keeps \((.*)\), at (\d+) places?$",
         "more": r"not known: the kernel has more than (\d+) threads", "privileged": r"not known: privileged code can make"}
NAMES_SHOWN = 6


class Told:
    """The lines of the program: doors and slots with their words, code, cells, leaks, and groups."""

    def __init__(self, text: str) -> None:
        first, *lines = text.splitlines()
        self.answer = first.split()[1]
        self.parties: list[tuple[str, set[int], set[int]]] = []
        self.code: list[tuple[int, int]] = []
        self.cells: list[tuple[int, list[str]]] = []
        self.leaks: list[list[str]] = []
        self.groups: list[list[list[str]]] = []
        for words in map(str.split, lines):
            if words[0] == "group":
                self.groups.append([words])
            elif self.groups:
                self.groups[-1].append(words)
            elif words[0] in ("door", "slot"):
                self.parties.append((words[1], set(), set()))
            elif words[0] in ("reads", "writes"):
                self.parties[-1][1 if words[0] == "reads" else 2].update(run_of(words))
            elif words[0] == "code":
                self.code.append((int(words[1], 16), int(words[2])))
            elif words[0] == "cell":
                self.cells.append((int(words[1], 16), words[2:]))
            else:
                self.leaks.append(words[1:])

    @property
    def places(self) -> dict[tuple[str, ...], list[list[str]]]:
        """The leaks by their places: those of registers at one instruction, and of its instruction pointer, are at one."""
        found: dict[tuple[str, ...], list[list[str]]] = {}
        for words in self.leaks:
            of_registers = words[0] in ("jump", "enter", "store", "give", "fault")
            found.setdefault(tuple(words[:2] if of_registers else words), []).append(words)
        return found

    def groups_with(self, door: str) -> list[int]:
        return [int(lines[0][1]) for lines in self.groups if ["door", door] in lines]


def run_of(words: list[str]) -> Iterator[int]:
    return (int(words[1], 16) + 8 * at for at in range(int(words[2])))


def keeps_form(case: Case, form: Any, text: str, kept: list[tuple[int, int]], threads: int) -> None:
    """An answer of --json."""
    told = Told(text)
    case.check("keeps answer", (form["answer"], form["threads"]) == (told.answer, threads), (form["answer"], text[:40]))
    spans = [(int(span["address"], 16), span["log"]) for span in form["kept"]]
    case.check("keeps segments", spans == kept, (spans, kept))
    parties = [*(bits(door["door"]) for door in form["doors"]), *(str(slot["slot"]) for slot in form["slots"])]
    case.check("keeps parties", parties == [name for name, _, _ in told.parties], (parties, told.parties))
    for party, (name, reads, writes) in zip((*form["doors"], *form["slots"]), told.parties):
        case.check("keeps reads", words_in(party["reads"]) == reads, (name, party["reads"]))
        case.check("keeps writes", words_in(party["writes"]) == writes, (name, party["writes"]))
        if "door" in party:
            case.check("keeps groups", party["groups"] == (told.groups_with(name) if told.groups else None), (party, text))
    code = [(int(run["address"], 16), run["words"]) for run in form["code"]]
    case.check("keeps code", code == told.code, (code, told.code))
    cells = [(int(cell["address"], 16), form_words(cell)) for cell in form["cells"]]
    case.check("keeps cells", cells == told.cells, (cells, told.cells))
    leaks = [leak_words(leak) for leak in form["leaks"]]
    case.check("keeps leaks", leaks == told.leaks, (leaks, told.leaks))
    for leak in form["leaks"]:
        if leak["address"]:
            case.address("keeps leak", leak, int(leak["address"], 16))


def bits(word: Any) -> str:
    return f"{'p' if word['tagged'] else 'i'}{word['bits'][2:]}"


def words_in(runs: Any) -> set[int]:
    return {int(run["address"], 16) + 8 * at for run in runs for at in range(run["words"])}


def form_words(form: Any) -> list[str]:
    """A form as the program writes it."""
    if form["kind"] == "word":
        return [bits(form["word"])]
    code = [str(PERMISSIONS[form["permission"]])] if "permission" in form else []
    segment = form.get("segment")
    return [form["kind"], *code, *([f"{int(segment['address'], 16):014x}", str(segment["log"])] if segment else [])]


def leak_words(leak: Any) -> list[str]:
    """A leak as the program writes it."""
    place = [f"{int(leak['address'], 16):014x}"] if leak["address"] else []
    register = [leak["register"][1:]] if leak["register"] else ["ip"] if leak["leak"] == "fault" else []
    slot = [str(leak["slot"])] if leak["slot"] is not None else []
    return [leak["leak"], *slot, *place, *register, *(form_words(leak["form"]) if leak["form"] else [])]


# In words


def keeps_text(case: Case, out: str, text: str, kept: list[tuple[int, int]], changed: Collection[int] = ()) -> None:
    """An answer in words. `changed` are the addresses of words that are not as the source has them: no line made these."""
    told, lines = Told(text), out.splitlines()
    head = re.match(HEADS[told.answer], lines[0])
    case.check("keeps head", head, (lines[0], text[:40]))
    if not head or told.answer not in ("yes", "no"):
        return
    names = re.split(r", | and ", head[1])
    wanted = [segment_name(case, *segment) for segment in kept]
    few = len(wanted) < NAMES_SHOWN + 2
    case.check("keeps names", names == wanted if few else names[:NAMES_SHOWN] == wanted[:NAMES_SHOWN], (lines[0], kept))
    own = re.search(r"its own code, (\d+) instructions?,", out)
    if told.answer == "yes":
        case.check("keeps instructions", own and int(own[1]) == sum(count for _, count in told.code), (out, told.code))
    else:
        case.check("keeps places", int(head[2]) == len(told.places), (lines[0], told.places))
        leaks_text(case, out, told, changed)
    blocks = out.split("\n\n")
    party_rows(case, told, next((block for block in blocks if re.match(r"(door|slot) +who has it +reads +writes$", block.split("\n")[0])), ""))
    word_rows(case, told, next((block for block in blocks if re.match(r"word +what can be there$", block.split("\n")[0])), ""))
    if told.groups:
        audit = "\n".join(" ".join(words) + " user" * (words[0] == "group") for group in told.groups for words in group
                          if words[0] in ("group", "touch", "write", "apart"))
        others.audit_text(case, "\n".join(block for block in blocks if block.startswith("group ")), audit)


def segment_name(case: Case, base: int, log: int) -> str:
    name = next((name for name, (at, length, _) in case.names.segments.items() if (at, length) == (base, log)), None)
    return name or f"{place_name(case, base)}/{log}"


def place_name(case: Case, address: int) -> str:
    """A place as `mm` names it: the label there or the last one before it in its segment, else the segment."""
    inside = next(((name, base) for name, (base, log, _) in case.names.segments.items() if base <= address < base + (1 << log)), None)
    if inside is None:
        return f"0x{address:x}"
    labels = [(at, line, name) for name, (at, line) in case.names.labels.items() if inside[1] < at <= address]
    at, _, name = max(labels, default=(inside[1], 0, inside[0]))
    return name if at == address else f"{name}+{address - at}"


def columns(block: str, heads: tuple[str, ...]) -> list[list[str]]:
    """The rows of a table below its heads; a row without a first cell goes on with the one before."""
    head, *lines = block.split("\n") if block else ("",)
    at = [head.index(title) for title in heads] if head else []
    rows: list[list[str]] = []
    for line in lines:
        cells = [line[begin:end].strip() for begin, end in zip(at, [*at[1:], None])]
        if cells[0]:
            rows.append(cells)
        else:
            rows[-1] = [f"{old} {new}".strip() for old, new in zip(rows[-1], cells)]
    return rows


def words_of(case: Case, text: str) -> set[int]:
    """The words that names with commas between mean."""
    found: set[int] = set()
    for name, count in re.findall(r"([\w+]+)(?: \((\d+) words?\))?(?:, |$)", text if text != "nothing" else ""):
        address, segment = case.names.address(name), case.names.segments.get(name)
        whole = (1 << segment[1]) // 8 if segment else 1
        found |= {(address or 0) + 8 * at for at in range(int(count) if count else whole)}
    return found


def party_rows(case: Case, told: Told, block: str) -> None:
    """The table of doors and slots."""
    rows = columns(block, (block.split(" ")[0], "who has it", "reads", "writes"))
    case.check("keeps rows", len(rows) == len(told.parties), (block, told.parties))
    for (name, who, *used), (party, *wanted) in zip(rows, told.parties):
        door = party[0] == "p"
        right = case.names.address(name) == address_in(party) if door else name == f"slot {party}"
        case.check("keeps row", right, (name, party))
        case.check("keeps used", [words_of(case, text) for text in used] == wanted, (used, wanted))
        if door and told.groups:
            case.check("keeps who", re.findall(r"\d+", who) == list(map(str, told.groups_with(party))), (who, party))
        elif door:
            case.check("keeps holders", set(who.split(", ")) == (holders(case, party) or {"whoever the kernel gives it"}), (who, party))


def holders(case: Case, word: str) -> set[str]:
    """Where a word is in the image."""
    found = {f"r{at} of slot {number}" for number, slot in case.image.slots.items() if not slot["halted"]
             for at, held in enumerate(slot["words"]) if held == word}
    return found | {place_name(case, address) for address, (held, _) in case.image.cells.items() if held == word}


def word_rows(case: Case, told: Told, block: str) -> None:
    """The table of the kept words that the kernel writes."""
    forms: dict[int, list[list[str]]] = {address: [] for _, _, writes in told.parties for address in writes}
    for address, words in told.cells:
        forms.setdefault(address, []).append(words)
    rows = [row for row in columns(block, ("word", "what can be there")) if not row[0].startswith("..")]
    found = [(words_of(case, name), text) for name, text in rows]
    if len(rows) < 64:
        case.check("keeps words", {address for words, _ in found for address in words} == set(forms), (block, forms))
    for words, text in found:
        for address in words & set(forms):
            first = case.image.cells[address][0]
            for form in [[first] if first[0] == "p" else ["int"], *forms[address]]:
                case.check("keeps can be", says(case, text, form), (text, form))


def says(case: Case, text: str, form: list[str]) -> bool:
    """Whether a text about a word has a form in it."""
    if form[0] == "any" or form[0] == "int":
        return EVERY in text or form[0] == "int" and "an integer" in text
    if form[0] == "ptr":
        return EVERY in text or HOLD in text and SHORTS[int(form[1])] in text.split(HOLD)[0]
    if form[0] == "in":
        name = segment_name(case, int(form[2], 16), int(form[3]))
        return f"any {SHORTS[int(form[1])]} pointer into {name}" in text
    number = form[0][0] == "i" and ("an integer" in text or EVERY in text)
    return number or any(case.names.is_word(part, form[0]) for part in re.split(r", | or ", text))


def leaks_text(case: Case, out: str, told: Told, changed: Collection[int]) -> None:
    """Each place with its line, and what each register holds."""
    blocks = out.split("\n\n")[1 : 1 + len(told.places)]
    case.check("keeps leaks told", len(blocks) == len(told.places), (out, told.places))
    for block, leaks in zip(blocks, told.places.values()):
        kind, address = leaks[0][0], int(leaks[0][1], 16) if len(leaks[0][1]) == 14 else None
        if address is not None and kind != "cell":
            case.check("keeps line", block.startswith(line_of(case, address, changed)), (block, hex(address)))
        rows = re.findall(r"^    (ip|r\d+) +(.*)$", block, re.M)
        wanted: dict[str, list[list[str]]] = {}
        for words in leaks:
            if kind in ("jump", "enter", "store", "give", "fault"):
                wanted.setdefault("ip" if words[2] == "ip" else f"r{words[2]}", []).append(words[3:])
        case.check("keeps registers", {name for name, _ in rows} == set(wanted), (block, leaks))
        for name, text in rows:
            for form in wanted.get(name, []) if name != "ip" else []:
                case.check("keeps holds", says(case, text, form), (text, form))
        if kind == "loose":
            case.check("keeps loose", block.startswith(f"slot {leaks[0][1]} serves others"), block)


def line_of(case: Case, address: int, changed: Collection[int]) -> str:
    """How the line about a word of code begins."""
    line: Optional[int] = case.names.lines.get(address) if address not in changed else None
    return f"{case.source}:{line}: " if line else f"0x{address:x}: "


# Doors that are shut


def shut(data: bytes) -> bytes:
    """The bytes of an image in which each enter pointer is a key."""
    found, slots = bytearray(data), int.from_bytes(data[6:8], "big")
    for at in range(16, 16 + 142 * slots, 142):
        tags = int.from_bytes(data[at + 12 : at + 14], "big")
        for register in range(16):
            close(found, at + 14 + 8 * register, tags >> register & 1)
    for at in range(16 + 142 * slots, len(data), 4232):
        for place in range(512):
            close(found, at + 136 + 8 * place, data[at + 8 + place // 8] >> place % 8 & 1)
    return bytes(found)


def close(data: bytearray, at: int, tag: int) -> None:
    if tag and data[at] >> 4 in (5, 6):
        data[at] = 7 << 4 | data[at] & 15
