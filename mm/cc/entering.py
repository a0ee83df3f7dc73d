"""How a program enters the doors of others. Who is behind a door gets the arguments, and nothing else of the caller.

The way out keeps the registers of the caller and its way back on the caller's stack, and where they are in a word that the
door and this slot have for themselves; clears all registers but for the arguments; and goes in with an enter pointer to
the way back in. That one takes the stack pointer out of the word of the slot that comes, so it is good for one return of
this door, in the slot of the call. A slot that has no such call halts, which is no fault."""

from __future__ import annotations

from typing import TYPE_CHECKING, Iterator, Optional

from mm.cc.code import FIRST_KEPT, LAST_KEPT, LINK, SCRATCH, SECOND, STACK, VARIADIC
from mm.cc.text import Line, TextBlock, plain_line
from mm.cc.untranslated import Untranslated

if TYPE_CHECKING:
    from mm.cc.program import Program

# A door's segment: where it is entered.
DOOR_ENTRY = 16
# The registers that a function keeps, which stand in the frame of a call first; then the way back; then what the word of
# the slot held before.
KEPT = range(FIRST_KEPT, LAST_KEPT + 1)
BACK, BEFORE, FRAME = 8 * len(KEPT), 8 * len(KEPT) + 8, 8 * len(KEPT) + 16
# A row of pointers: to the door, to the way back in, and to the words of the slots.
ROW_BACK, ROW_WORDS = 8, 16
SLOTS_LOG, WORD_LOG = 4, 3
# Where a pointer has its permission and the length of its segment; and the permissions with which one can jump to it.
PERMISSION, LENGTH, EXECUTE, JUMPED_TO = 60, 54, 3, 4
PLAIN = "any, keep"
# The trap of a call that cannot leave the program.
STAYS = 9


def line(op: str, *operands: object, target: Optional[str] = None) -> Line:
    return Line(op, ", ".join(map(str, operands)), target, None)


def load(register: int, base: int, at: int) -> Line:
    return line("ld", f"r{register}", f"r{base}", at, PLAIN)


def store(base: int, register: int, at: int) -> Line:
    return line("st", f"r{base}", f"r{register}", at, PLAIN)


def number(register: int, what: int) -> Line:
    return line("ldi", f"r{register}", what)


def move_to_slot(words: int, free: int, other: int) -> list[Line]:
    """Moves a pointer to the words of the slots to that of this slot, with two registers that are free."""
    return [line("self", f"r{free}"), number(other, WORD_LOG), line("shl", f"r{free}", f"r{free}", f"r{other}"),
            line("lea", f"r{words}", f"r{words}", f"r{free}")]


class Entering:
    """The doors of others that a program enters, and its calls through pointers, which may lead to such a door."""

    def __init__(self, program: Program) -> None:
        self.program = program
        self.labels: dict[tuple[str, int], str] = {}
        self.clearing: dict[int, str] = {}
        self.blocks: list[TextBlock] = []
        self.rows: list[TextBlock] = []
        # The row of what is called through a pointer, the label of the way back in, and the segment with the words of the slots.
        self.pointers = self.back = self.words = ""

    def door(self, name: str, arguments: int) -> str:
        """The label by which a door is entered with so many arguments."""
        key = name, arguments
        if key not in self.labels:
            block = self.begin(key, f"to_{name}")
            row = self.row(name, f".ptr eu door_{name}+{DOOR_ENTRY}")
            block.lines = [line("lip", f"r{SECOND}", target=row), load(SCRATCH, SECOND, 0),
                           line("br", target=self.clear_from(arguments))]
        return self.labels[key]

    def pointer(self, arguments: int, variadic: bool, stays: bool) -> str:
        """The label by which a call with so many arguments goes through a pointer: to a function of the program, which has its
        segment and its permission, or out. What stays has something for the callee on the caller's stack, where no door is to
        reach: a structure, variable arguments, or more of them than there are registers. It is stopped instead."""
        spare = arguments if variadic else VARIADIC
        if variadic and spare == VARIADIC:
            raise Untranslated("a call through a pointer with six arguments and variable ones, in a program with doors")
        key = "", 16 * (16 * stays + arguments) + spare
        if key not in self.labels:
            block = self.begin(key, "call_pointer")
            other, wrong, out = (TextBlock(self.program.fresh()) for _ in range(3))
            block.lines = [
                line("lip", f"r{SCRATCH}", 0), number(spare, LENGTH), line("shr", f"r{spare}", f"r{SCRATCH}", f"r{spare}"),
                line("xor", f"r{SCRATCH}", f"r{SCRATCH}", f"r{SECOND}"), line("shr", f"r{SCRATCH}", f"r{SCRATCH}", f"r{spare}"),
                line("bnz", f"r{SCRATCH}", target=other.label), line("jmp", f"r{SECOND}"),
            ]
            other.lines = [
                line("isptr", f"r{SCRATCH}", f"r{SECOND}"), line("bz", f"r{SCRATCH}", target=wrong.label),
                number(SCRATCH, PERMISSION), line("shr", f"r{SCRATCH}", f"r{SECOND}", f"r{SCRATCH}"),
                line("addi", f"r{SCRATCH}", f"r{SCRATCH}", -EXECUTE), number(spare, JUMPED_TO),
                line("ltu", f"r{SCRATCH}", f"r{SCRATCH}", f"r{spare}"), line("bnz", f"r{SCRATCH}", target=out.label),
            ]
            # What is no pointer to jump to is a fault at this call.
            wrong.lines = [line("jmp", f"r{SECOND}")]
            out.lines = [line("trap", STAYS)] if stays else [
                line("mov", f"r{SCRATCH}", f"r{SECOND}"), line("lip", f"r{SECOND}", target=self.row_of_pointers()),
                line("br", target=self.clear_from(arguments))]
            self.blocks += [other, wrong, out]
        return self.labels[key]

    def row_of_pointers(self) -> str:
        """The row of all that is called through a pointer."""
        if not self.pointers:
            self.pointers = self.row("pointer", ".int 0")
        return self.pointers

    def begin(self, key: tuple[str, int], name: str) -> TextBlock:
        """A block that is called, with the caller's stack pointer as it is."""
        self.labels[key] = self.program.mangled(name)
        block = TextBlock(self.labels[key])
        block.notes = ["frame back - caller by 0"]
        self.blocks.append(block)
        return block

    def row(self, name: str, door: str) -> str:
        """A row of pointers for a door, with the way back in from it."""
        label, back = self.program.fresh(), TextBlock(self.program.mangled(f"from_{name}"))
        if not self.back:
            self.back, self.words = self.program.fresh(), self.program.mangled("calls")
        back.lines = [line("lip", f"r{SECOND}", target=label), line("br", target=self.back)]
        self.blocks.append(back)
        row = TextBlock(label)
        at = len(self.rows) << SLOTS_LOG + WORD_LOG
        row.lines = [plain_line(door), plain_line(f".ptr eu {back.label}"), plain_line(f".ptr rw {self.words}+{at}")]
        self.rows.append(row)
        return label

    def clear_from(self, arguments: int) -> str:
        """The label from which on the registers after the arguments are cleared."""
        return self.clearing.setdefault(arguments, self.program.fresh())

    def text(self) -> Iterator[list[TextBlock]]:
        """All of it, if it is used."""
        if self.blocks:
            yield self.blocks
        if self.back:
            yield [*self.way_out(), *self.way_back(self.back)]
            yield self.rows

    def way_out(self) -> list[TextBlock]:
        """Clears registers, keeps what is the caller's, and goes in by the pointer in the scratch register; the second one
        leads to the row."""
        first = TextBlock(self.program.mangled("leave"))
        first.notes = [f"frame back {BACK} caller by {FRAME}"]
        blocks = [first]
        for register in range(min(self.clearing), VARIADIC + 1):
            if register in self.clearing:
                blocks.append(TextBlock(self.clearing[register]))
            blocks[-1].lines.append(number(register, 0))
        words, free, other = KEPT[:3]
        blocks[-1].lines += [
            line("leai", f"r{STACK}", f"r{STACK}", -FRAME),
            *[store(STACK, register, 8 * at) for at, register in enumerate(KEPT)], store(STACK, LINK, BACK),
            load(words, SECOND, ROW_WORDS), *move_to_slot(words, free, other),
            load(free, words, 0), store(STACK, free, BEFORE), store(words, STACK, 0), load(LINK, SECOND, ROW_BACK),
            *[number(register, 0) for register in (*KEPT, SECOND, STACK)],
            line("jmp", f"r{SCRATCH}"),
        ]
        return blocks

    def way_back(self, label: str) -> list[TextBlock]:
        """Takes the stack pointer of this slot's call, and what stands there; the second register leads to the row. All other
        registers are as who comes has them."""
        block, gone = TextBlock(label), TextBlock(self.program.fresh())
        wiped = range(0, FRAME, 8) if self.program.wipes else ()
        block.lines = [
            load(SECOND, SECOND, ROW_WORDS), *move_to_slot(SECOND, SCRATCH, LINK), load(STACK, SECOND, 0),
            line("isptr", f"r{SCRATCH}", f"r{STACK}"), line("bz", f"r{SCRATCH}", target=gone.label),
            load(SCRATCH, STACK, BEFORE), store(SECOND, SCRATCH, 0),
            *[load(register, STACK, 8 * at) for at, register in enumerate(KEPT)], load(LINK, STACK, BACK),
            *([number(SCRATCH, 0)] if wiped else []), *[store(STACK, SCRATCH, at) for at in wiped],
            line("leai", f"r{STACK}", f"r{STACK}", FRAME), line("jmp", f"r{LINK}"),
        ]
        gone.lines = [line("halt")]
        return [block, gone]

    def segment(self) -> list[str]:
        """The words of the slots, as many for each row."""
        log = SLOTS_LOG + WORD_LOG + max(len(self.rows) - 1, 0).bit_length()
        return [f".segment {self.words} {log}"] if self.back else []
