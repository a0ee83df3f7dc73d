"""What a kernel keeps, for people: the answer, its doors, the words that it changes, its leaks, and what each group can reach."""

from __future__ import annotations

from typing import Iterator, Sequence

from mm.formats.image import Image
from mm.machine.words import Permission, Pointer
from mm.names.kept import Segment
from mm.names.numbers import counted
from mm.names.symbols import Symbols
from mm.outputs.keeps import Confined, Form, Kept, Party, Run
from mm.views.audit import AuditView
from mm.views.keptwords import KeptWords, holders, listed, shortly
from mm.views.leaks import LeakView, places_of
from mm.views.style import Style

MOST_THREADS = 1_000_000
# So wide a column of a table is at most, and so many words are told of one by one.
WIDEST, MOST_CELLS = 34, 64
PRIVILEGED = (Permission.XP, Permission.EP)


def packed(names: Sequence[str]) -> list[str]:
    """Names with commas between, in lines that are not too long."""
    lines: list[str] = []
    for at, name in enumerate(names):
        text = name + ("," if at + 1 < len(names) else "")
        if lines and len(lines[-1]) + 1 + len(text) <= WIDEST:
            lines[-1] += f" {text}"
        else:
            lines.append(text)
    return lines


class KeepsView:
    """Writes an answer of `keeps` as lines."""

    def __init__(self, image: Image, symbols: Symbols, kept: Sequence[Segment], style: Style) -> None:
        self.image, self.symbols, self.kept, self.style = image, symbols, kept, style
        self.words = KeptWords(symbols)

    @property
    def names(self) -> str:
        """The kept segments."""
        return shortly([self.words.segment(*segment) for segment in self.kept])

    def lines(self, found: Kept, threads: int) -> Iterator[str]:
        if found.verdict == "more":
            yield from self.more(threads)
        elif found.verdict == "privileged":
            yield from self.privileged()
        else:
            yield from self.verdict(found)
            yield from self.leaks(found)
            yield from self.doors(found)
            yield from self.changes(found)
            yield from self.groups(found)

    # The answer

    def verdict(self, found: Kept) -> Iterator[str]:
        if found.verdict == "yes":
            own = counted(sum(count for _, count in found.code), "instruction")
            yield f"{self.style.good('yes')}: the kernel keeps {self.names}"
            yield f"  whatever code its callers run, and in whatever order: only its own code, {own}, uses these words,"
            yield "  and nobody else gets a pointer into them but to its doors (or a key, which does nothing)"
            yield from self.strangers(found)
            return
        count = len(places_of(found.leaks))
        yield f"{self.style.bad('no')}: the kernel can give away what it keeps ({self.names}), at {counted(count, 'place')}"
        yield "  each register is looked at by itself, so perhaps no program gets there: a leak says where to look"

    def strangers(self, found: Kept) -> Iterator[str]:
        """The slots that are the kernel's by a word in a register alone: their code is not kept."""
        for party in found.parties:
            if party.door is not None:
                continue
            slot = next(slot for slot in self.image.slots if slot.number == party.slot)
            if any(self.overlap(slot.ip, segment) for segment in self.kept):
                continue
            for number, word in enumerate(slot.registers):
                held = word.pointer
                if held and self.is_inside(held):
                    code = self.symbols.show(slot.ip.address)
                    yield (f"  {self.style.warn(f'slot {slot.number} counts as the kernel')}: r{number} holds"
                           f" {self.words.speller.pointer(held)}, and its code, {self.style.name(code)}, is not kept")
                    break

    def overlap(self, pointer: Pointer, segment: Segment) -> bool:
        """Whether a pointer's segment and a kept one have an address in common."""
        base, log = segment
        return pointer.base < base + (1 << log) and base < pointer.end

    def is_inside(self, pointer: Pointer) -> bool:
        """Whether a pointer leads into a kept segment, and is neither a key nor a door."""
        if pointer.permission in (Permission.KEY, Permission.EU, Permission.EP):
            return False
        return any(self.overlap(pointer, segment) for segment in self.kept)

    def more(self, threads: int) -> Iterator[str]:
        yield f"{self.style.warn('not known')}: the kernel has more than {threads} threads, and the others were not looked at"
        yield "  a thread is an instruction with what can be in each register; a number below 64 counts, each by itself"
        if threads < MOST_THREADS:
            yield f"  ask for more by --threads, up to {MOST_THREADS}, or clear registers that are not needed any more"

    def privileged(self) -> Iterator[str]:
        yield f"{self.style.warn('not known')}: privileged code can make any pointer, so nothing can be kept from it"
        for name, pointer in holders(self.image, lambda held: held.permission in PRIVILEGED, self.symbols):
            yield f"  {name}  {self.style.name(self.words.speller.pointer(pointer))}"
        yield "  code that maps no pages and makes no pointers does without: `xu` in place of `xp`, `eu` in place of `ep`"

    def leaks(self, found: Kept) -> Iterator[str]:
        view = LeakView(self.image, self.symbols, found, self.style)
        for place in places_of(found.leaks).values():
            yield ""
            yield from view.lines(place)

    # Doors

    def doors(self, found: Kept) -> Iterator[str]:
        if not found.parties:
            return
        yield ""
        heads = ("slot" if not found.doors else "door", "who has it", "reads", "writes")
        rows = [self.party(party, found) for party in found.parties]
        yield from self.table(heads, rows)

    def party(self, party: Party, found: Kept) -> list[list[str]]:
        """A row: the door or the slot, who has it, and what is read and written from there."""
        if party.door is None:
            name, who = f"slot {party.slot}", ["the kernel"]
        else:
            name, who = self.symbols.show(party.door.address), self.who(party.door, found)
        return [[name], who, *(self.words.runs(runs) or ["nothing"] for runs in (party.reads, party.writes))]

    def who(self, door: Pointer, found: Kept) -> list[str]:
        """The groups that can have a door, if the answer tells; else where it is at the beginning."""
        if found.groups:
            return [f"group {group}" for group in found.groups_with(door)] or ["nobody"]
        there = [name for name, _ in holders(self.image, lambda held: held == door, self.symbols)]
        return there or ["whoever the kernel gives it"]

    def table(self, heads: Sequence[str], rows: Sequence[Sequence[Sequence[str]]]) -> Iterator[str]:
        """Rows in columns, none of which is too wide for several names."""
        cells = [[packed(names) for names in row] for row in rows]
        widths = [max(len(line) for line in (head, *(line for row in cells for line in row[at])))
                  for at, head in enumerate(heads)]
        yield self.style.soft("  ".join(head.ljust(width) for head, width in zip(heads, widths)).rstrip())
        for row in cells:
            for place in range(max(map(len, row))):
                line = [cell[place] if place < len(cell) else "" for cell in row]
                texts = [text.ljust(width) for text, width in zip(line, widths)]
                yield "  ".join([self.style.name(texts[0]) if line[0] else texts[0], *texts[1:]]).rstrip()

    # Words

    def changes(self, found: Kept) -> Iterator[str]:
        """The kept words that the kernel writes, with all that can be there."""
        cells = list(self.written(found))
        if not cells:
            return
        yield ""
        said = [(name, self.words.forms(forms)) for name, forms in self.together(cells)]
        width = max(len(name) for name in ("word", *(name for name, _ in said)))
        yield self.style.soft(f"{'word'.ljust(width)}  what can be there")
        for name, text in said[:MOST_CELLS]:
            yield f"{self.style.name(name.ljust(width))}  {text}"
        if len(said) > MOST_CELLS:
            yield f".. and {len(said) - MOST_CELLS} more (--json lists all)"

    def written(self, found: Kept) -> Iterator[tuple[int, list[Form]]]:
        """Each kept word that is written, with its forms: the one that it begins with first."""
        told: dict[int, list[Form]] = {}
        for address, form in found.cells:
            told.setdefault(address, []).append(form)
        places = {first + 8 * at for party in found.parties for first, count in party.writes for at in range(count)}
        for address in sorted(places | set(told)):
            yield address, [*self.beginning(address), *told.get(address, [])]

    def beginning(self, address: int) -> list[Form]:
        """What a word that is written can hold without a store: an integer, or the pointer that the image has there."""
        cell = self.image.cell(address)
        if cell is None:
            return []
        return [Form("word", word=cell.word) if cell.word.tagged else Form("int")]

    def together(self, cells: Sequence[tuple[int, list[Form]]]) -> Iterator[tuple[str, list[Form]]]:
        """Words of one segment that follow each other and can hold the same, as one."""
        runs: list[tuple[Run, list[Form]]] = []
        for address, forms in cells:
            (first, count), last = runs[-1] if runs else ((0, 0), [])
            same = set(forms) == set(last) and self.symbols.region(address) is self.symbols.region(first)
            if count and same and address == first + 8 * count:
                runs[-1] = ((first, count + 1), last)
            else:
                runs.append(((address, 1), forms))
        for run, forms in runs:
            yield self.words.runs([run])[0], forms

    # Groups

    def groups(self, found: Kept) -> Iterator[str]:
        """What each group can reach that is not kept, if the answer tells."""
        for group in found.groups:
            yield ""
            yield from self.group(group, self.handled(group.reach.group, found))

    def handled(self, group: int, found: Kept) -> str:
        """Who handles faults across all the same: the kernel, if a slot of the group has its handler there, or serves there."""
        own = {party.slot for party in found.parties if party.door is None}
        slots = {slot.number: slot for slot in self.image.slots}
        pairs = [(slot, slots[slot.handler]) for slot in self.image.slots if slot.handler in slots and slot.handler in own]
        across = any((served.group == group) != (server.group == group) for served, server in pairs)
        return " but by the kernel" if across else ""

    def group(self, group: Confined, handled: str) -> Iterator[str]:
        view = AuditView(self.symbols, self.style)
        slots = [slot.number for slot in self.image.slots if slot.group == group.reach.group]
        yield from view.reach(group.reach, slots)
        doors = [self.symbols.show(door.address) for door in group.doors]
        if doors:
            yield f"  {'enter':<14}  {self.style.name(', '.join(doors))}"
        if group.slots:
            numbers = f"{'slot' if len(group.slots) == 1 else 'slots'} {listed(list(map(str, group.slots)))}"
            yield f"  {'run as':<14}  {self.style.name('the kernel')}, by {numbers}"
        if group.apart:
            yield "  " + view.apart(group.apart, handled)
