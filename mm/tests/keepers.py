"""Random kernels with hostile callers around them, and whether what `keeps` promises holds in their runs.

A kernel is one of examples/ with some of its instructions changed, some slots' handlers changed, and a page of its
callers beside it that any of them may write and run. If the program says `keeps yes`, variants are run: the kernel as
it is, and with callers of random code, random words and the doors that were found. The log of each run is read turn by
turn."""

from __future__ import annotations

from typing import Optional

from mm.formats.image import PAGE_BYTES, PAGE_WORDS, Image, Slot, page_of
from mm.formats.schedule import PORT
from mm.lockstep.code import Coder
from mm.lockstep.dice import Dice
from mm.lockstep.world import CODE, DATA, TABLE, Area, World
from mm.log.changes import CellSet, EventQueued, IpSet, LoadIssued, RegisterSet, StateSet
from mm.log.read import Step
from mm.log.replay import Machine, SlotNow
from mm.machine.isa import decode
from mm.machine.words import Cell, Permission, Pointer, Word
from mm.outputs.trace import Turn
from mm.records import replace
from mm.tests.kept import Answer, Broken, Form, Kernel, Segment, is_fixed

RO, RW, XU = Permission.RO, Permission.RW, Permission.XU
# What a slot's registers, or who sees them, depend on.
OF_SLOTS = (IpSet, StateSet, RegisterSet, LoadIssued)


# 1. Kernels.


def world_of(dice: Dice, page: int, slots: list[int]) -> World:
    """The page of the callers as a place for random code: code, data, and a table of pointers."""
    world = World.__new__(World)
    world.dice, world.pages, world.hole, world.frames = dice, [page], page + 1, 1
    base = page * PAGE_BYTES
    world.areas = [Area(CODE, base, 10), Area(CODE, base + 1024, 10), Area(DATA, base + 2048, 10)]
    world.areas.append(Area(TABLE, base + 3072, 7))
    world.free, world.cells, world.slots = {page: 0}, {}, slots
    return world


def with_cells(image: Image, cells: dict[int, Word]) -> Image:
    """The image with other words in some cells, which are full."""
    pages = dict(image.pages)
    for number in {address // PAGE_BYTES for address in cells}:
        page = pages[number]
        all_cells = {place: page.cell(place) for place in range(PAGE_WORDS)}
        mine = {address % PAGE_BYTES // 8: word for address, word in cells.items() if address // PAGE_BYTES == number}
        pages[number] = page_of(number, {**all_cells, **{place: Cell(word) for place, word in mine.items()}})
    return replace(image, pages=pages)


def changed_code(dice: Dice, kernel: Kernel, coder: Coder) -> dict[int, Word]:
    """Some instructions of the kernel, changed: nothing in their place, another one, or another field."""
    writable = kernel.writable()
    code = [
        address
        for address, cell in kernel.image.cells()
        if kernel.is_kept(address) and not cell.word.tagged and cell.word.bits and decode(cell.word.bits)
        if is_fixed(address, writable)
    ]
    found = {}
    for address in dice.some(code, min(len(code), dice.weighed([(0, 2), (1, 6), (2, 3)]))):
        word = kernel.image.cell(address)
        assert word is not None
        other = Word(word.word.bits ^ 1 << dice.between(32, 63))
        found[address] = dice.weighed([(coder.spell("nop"), 4), (coder.instruction(), 2), (other, 3)])
    return found


def prepared(dice: Dice, image: Image, kept: tuple[Segment, ...]) -> Kernel:
    """A kernel of an example: its callers get a page that they can write and run, its code and handlers are changed."""
    page = max(image.pages) + 1
    pages = {**image.pages, page: page_of(page, {})}
    image = replace(image, pages=pages, frames=max(image.frames, len(pages)))
    kernel = Kernel(image, kept)
    numbers = [slot.number for slot in image.slots]
    write, run = (Pointer(permission, 12, page * PAGE_BYTES) for permission in (RW, XU))

    def caller(slot: Slot) -> Slot:
        if slot.halted or kernel.is_kernel(slot):
            return slot
        registers = list(slot.registers)
        registers[14], registers[15] = Word(write.bits, True), Word(run.bits, True)
        others: list[Optional[int]] = [number for number in numbers if number != slot.number]
        handler = dice.weighed([(slot.handler, 4), (None, 2), (dice.one(others or [None]), 3)])
        return replace(slot, registers=tuple(registers), handler=handler)

    kernel = Kernel(replace(image, slots=tuple(map(caller, image.slots))), kept)
    coder = Coder(world_of(dice, page, numbers))
    return Kernel(with_cells(kernel.image, changed_code(dice, kernel, coder)), kept)


# 2. Variants: any callers.


class Callers:
    """Callers of a kernel that may hold any open word, and the doors that were found."""

    def __init__(self, dice: Dice, kernel: Kernel, doors: list[Word]) -> None:
        self.dice, self.kernel, self.doors = dice, kernel, doors
        self.page = max(kernel.image.pages)
        self.coder = Coder(world_of(dice, self.page, [slot.number for slot in kernel.image.slots]))
        self.run = [Pointer(XU, 12, self.page * PAGE_BYTES + 8 * place) for place in (0, 3, 9, 64, 70, 128, 128)]

    def allowed(self, word: Word) -> Word:
        """The word, or another one in its place if no caller may hold it or it writes what must not change."""
        pointer = word.pointer
        own = pointer is None or pointer.permission is not RW or pointer.base // PAGE_BYTES == self.page
        if own and (pointer is None or pointer.log <= 12 or pointer.permission is not RW):
            if self.kernel.is_open(word) and (not self.kernel.is_door(word) or word in self.doors):
                return word
        return Word(Pointer(RW, 12, self.page * PAGE_BYTES + 2048).bits, True)

    def any_word(self) -> Word:
        """A word that a caller may hold: often a door."""
        if self.doors and self.dice.chance(35):
            return self.dice.one(self.doors)
        return self.allowed(self.coder.world.word())

    def registers(self) -> tuple[Word, ...]:
        found = [self.any_word() for _ in range(16)]
        if self.doors and self.dice.chance(80):
            found[5] = self.dice.one(self.doors)
        if self.dice.chance(80):
            found[12] = Word(self.dice.one(self.coder.world.slots))
            found[14] = Word(Pointer(RO, 7, self.page * PAGE_BYTES + 3072).bits, True)
            found[15] = Word(Pointer(RW, 12, self.page * PAGE_BYTES + 2048).bits, True)
        return tuple(found)

    def caller(self, slot: Slot) -> Slot:
        if slot.halted or self.kernel.is_kernel(slot):
            return slot
        return replace(slot, ip=self.dice.one(self.run), registers=self.registers())

    def calls(self, words: int) -> list[Word]:
        """A loop that calls a door again and again, each time with other words in the registers."""
        code: list[Word] = []
        while len(code) < words - 1:
            code += self.coder.lines(self.dice.below(3)) + [self.coder.spell("jal", 6, 5)]
        return code[: words - 1] + [self.coder.spell("br", 1 - words)]

    def words(self) -> list[Word]:
        """The page of the callers: code that calls, any code, code that serves faults, data, and a table of doors."""
        code = self.calls(64) + self.coder.worker(64) + self.coder.kernel(128, False)
        data = [self.any_word() for _ in range(PAGE_WORDS - len(code))]
        return [self.allowed(word) for word in code] + data

    def variant(self) -> Image:
        image = self.kernel.image
        base = self.page * PAGE_BYTES
        cells = {base + 8 * place: word for place, word in enumerate(self.words())}
        image = with_cells(image, cells)
        return replace(image, slots=tuple(map(self.caller, image.slots)))

    def items(self, count: int) -> list[int]:
        """The items of a schedule: slots, and in a split machine their ports."""
        numbers = [slot.number for slot in self.kernel.image.slots]
        ports = [PORT + number for number in numbers] if self.kernel.image.split else []
        return [self.dice.one(ports if ports and self.dice.chance(30) else numbers) for _ in range(count)]


# 3. Runs.


class Confined:
    """Whether each access of a run is one that the text of its own image allows to the group of its slot."""

    def __init__(self, kernel: Kernel, answer: Answer) -> None:
        self.kernel, self.answer = kernel, answer
        self.groups = {slot.number: slot.group for slot in kernel.image.slots}

    def used(self, turn: Turn, access: str, address: int) -> None:
        kept = self.kernel.is_kept(address)
        if kept and self.kernel.image.cell(address) is None:
            return
        if not self.answer.confines(self.groups[turn.slot], access, address, kept):
            what = "a kept" if kept else "another"
            raise Broken(f"slot {turn.slot} of group {self.groups[turn.slot]} makes a {access} on {what} word {address:014x}")

    def step(self, step: Step) -> None:
        turn = step.turn
        if turn.fetch is not None:
            self.used(turn, "fetch", turn.fetch)
        if turn.access is not None and turn.address is not None:
            self.used(turn, turn.access, turn.address)


class Watch:
    """A run of a variant, turn by turn, beside what was promised."""

    def __init__(self, kernel: Kernel, answer: Answer, variant: Image) -> None:
        self.kernel, self.answer = kernel, answer
        self.machine = Machine(variant)
        self.kernel_slots = {slot.number for slot in kernel.image.slots if kernel.is_kernel(slot)}
        self.doors = set(answer.doors)
        self.writable = kernel.writable()
        if sorted(self.kernel_slots) != answer.slots:
            raise Broken(f"slots {answer.slots} are said to be the kernel's, and not {sorted(self.kernel_slots)}")
        for slot in self.machine.slots.values():
            self.look_at(slot)

    def shared(self, word: Optional[Word], what: str) -> None:
        """A word that callers can see must be one that they may hold."""
        if word is None:
            return
        if not self.kernel.is_open(word):
            raise Broken(f"{what} holds {word}, which is not open")
        if self.kernel.is_door(word) and word not in self.doors:
            raise Broken(f"{what} holds {word}, a door that is not told")

    def is_shown(self, slot: SlotNow) -> bool:
        """Whether callers can see the registers of a slot. A slot of the kernel whose next fetch fails runs no code word."""
        if slot.state == "running":
            ip = slot.ip.pointer
            fails = ip is not None and (ip.log < 3 or ip.address % 8) and self.kernel.meets(ip)
            return ip is not None and ip.address not in self.answer.code and not fails
        return slot.state in ("waiting", "taken") and slot.handler not in self.kernel_slots

    def look_at(self, slot: SlotNow) -> None:
        if self.is_shown(slot):
            for number, word in enumerate(slot.registers):
                self.shared(word, f"slot {slot.number} register {number}")
            for number, word in slot.pending:
                self.shared(word, f"slot {slot.number} pending register {number}")

    def stands(self, address: int, word: Word) -> bool:
        """Whether a form of a kept word stands for a word."""
        cell = self.kernel.image.cell(address)
        assert cell is not None
        first = Form(("int",) if not cell.word.tagged and not is_fixed(address, self.writable) else (str(cell.word),))
        return any(form.stands_for(word, self.kernel) for form in [first, *self.answer.forms.get(address, [])])

    def cell(self, change: CellSet) -> None:
        address, word = change.address, change.cell.word
        before = self.machine.cell(address)
        where = f"the word at {address:014x}"
        if self.kernel.is_kept(address):
            if not self.stands(address, word):
                raise Broken(f"{where} is kept and holds {word}, for which no form stands")
        else:
            self.shared(word, where)
        if is_fixed(address, self.writable) and (before is None or before.word != word):
            raise Broken(f"{where} is fixed, and changes to {word}")

    def used(self, turn: Turn, access: str, address: int) -> None:
        """A use of a word. If the word is kept, the turn fetched a code word, and the use is told."""
        if not self.kernel.is_kept(address) or self.kernel.image.cell(address) is None:
            return
        if turn.fetch not in self.answer.code:
            raise Broken(f"slot {turn.slot} uses the kept word {address:014x}, and fetched no code word")
        read, written = access != "store", access in ("store", "loadset")
        if read and address not in self.answer.reads or written and address not in self.answer.writes:
            raise Broken(f"slot {turn.slot} uses the kept word {address:014x}, and no line tells this {access}")

    def step(self, step: Step) -> None:
        turn = step.turn
        if turn.fetch is not None:
            self.used(turn, "fetch", turn.fetch)
        if turn.access is not None and turn.address is not None:
            self.used(turn, turn.access, turn.address)
        for change in step.changes:
            if isinstance(change, CellSet):
                self.cell(change)
            elif isinstance(change, EventQueued) and change.handler not in self.kernel_slots:
                for word in (change.ip, change.address, change.data):
                    self.shared(word, f"an event of slot {change.handler}")
        self.machine.carry_out(step)
        for number in sorted({change.slot for change in step.changes if isinstance(change, OF_SLOTS)}):
            self.look_at(self.machine.slots[number])
