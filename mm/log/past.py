"""What came before a fault, found backwards in the log of a run: where a pointer became a number, and when a segment
was cut out of another one."""

from __future__ import annotations

from dataclasses import dataclass
from typing import Callable, Optional, Sequence

from mm.formats.image import Image
from mm.machine.isa import Instruction
from mm.machine.memory import Memory
from mm.machine.program import Program
from mm.machine.words import Pointer, Word
from mm.outputs.report import SlotState, read_report
from mm.outputs.trace import Turn, read_turn

# So much of the end of a log is looked at, and so many turns of it that only hand the word on.
MOST_BYTES = 1 << 24
MOST_TURNS = 1000
# What makes a number of the words of two registers, or of one.
ARITHMETIC = ("add", "sub", "mul", "divu", "remu", "and", "or", "xor", "shl", "shr", "sar", "addi")

Code = Callable[[int], Optional[Instruction]]


@dataclass(frozen=True)
class Lost:
    """The place of the instruction that made the number, the pointer of which it did (none if it put the number
    together from pieces), and the bits of the number, which may have been computed with since."""

    place: int
    pointer: Optional[Pointer]
    bits: int


def lines_of(log: bytes) -> list[str]:
    """The lines of the turns at the end of a log, without the report after them, and without a first one that is cut."""
    end = log.rfind(b"\ncycles ")
    return log[: max(end, 0)].decode("latin-1").splitlines()[1:]


class _Back:
    """The lines of a log, from one of them backwards."""

    def __init__(self, lines: Sequence[str], code: Code) -> None:
        self.lines, self.code = lines, code

    def find(self, start: str, before: int) -> Optional[int]:
        """The last line before a line that begins so."""
        return next((at for at in range(before - 1, -1, -1) if self.lines[at].startswith(start)), None)

    def word(self, start: str, before: int) -> Optional[Word]:
        """The word that the last of these lines tells."""
        at = self.find(start, before)
        said = self.lines[at].split()[-1 if start.startswith("r ") else 2] if at is not None else "empty"
        return Word.parse(said) if said != "empty" else None

    def turn(self, at: int) -> tuple[int, Optional[Turn], Optional[Instruction]]:
        """The turn that a line is of, with its own line, and its instruction."""
        while at > 0 and self.lines[at][:2] not in ("t ", "m "):
            at -= 1
        turn = read_turn(self.lines[at])
        return at, turn, self.code(turn.fetch) if turn is not None and turn.fetch is not None else None


def lost(log: bytes, code: Code, slot: int, register: int) -> Optional[Lost]:
    """Where the number in a register of a slot was made, at the end of a log; none if that is not in it."""
    back = _Back(lines_of(log), code)
    here = len(back.lines)
    wanted = back.word(f"r {slot} {register} ", here)
    start = f"r {slot} {register} "
    for _ in range(MOST_TURNS):
        found = back.find(start, here)
        if found is None or wanted is None or back.word(start, here) != wanted:
            return None
        here, turn, made = back.turn(found)
        if turn is None or made is None:
            return None
        slot = turn.slot
        if made.name == "ld":
            # It gives a register the word of a cell, or changes the bit of one, and not the word.
            start = f"cell {turn.address or 0:014x} "
        elif made.name in ("mov", "st"):
            start = f"r {slot} {made.value('rb' if made.name == 'st' else 'ra')} "
        elif made.name not in ARITHMETIC:
            return None
        else:
            operands = [f"r {slot} {made.value(field)} " for field in ("ra", "rb") if made.has(field)]
            words = [(each, back.word(each, here)) for each in operands]
            known = [(each, word) for each, word in words if word is not None]
            pointer = next((word.pointer for _, word in known if word.tagged), None)
            older = next((each for each in known if _is_of(each[1], wanted)), None)
            if pointer is not None or older is None:
                return Lost(turn.fetch or 0, pointer, wanted.bits) if known else None
            start, wanted = older
    return None


def cut_out(log: bytes, code: Code, pointer: Pointer) -> Optional[tuple[int, int]]:
    """The slot that cut the segment of a pointer out of another one, and how many turns there were after that, at the
    end of a log; none if that is not in it."""
    back, ago = _Back(lines_of(log), code), 0
    for at in range(len(back.lines) - 1, -1, -1):
        line = back.lines[at]
        ago += line.startswith(("t ", "m "))
        found = Word.parse(line.split()[3]).pointer if line.startswith("r ") and " p" in line else None
        if found is None or (found.log, found.base) != (pointer.log, pointer.base):
            continue
        _, turn, made = back.turn(at)
        if turn is not None and made is not None and made.name == "subseg":
            return turn.slot, ago
    return None


class Past:
    """A run up to the fault of a slot: its log is asked for once that is needed."""

    def __init__(self, program: Program, words: Sequence[str], image: Image, slot: int) -> None:
        """`words` are the path of the image, the cycles and, if there is one, the path of the schedule."""
        self.program, self.words, self.image, self.slot = program, words, image, slot
        self.code = Memory(image).instruction
        self._log: Optional[bytes] = None
        # What was found already.
        self._lost: dict[int, Optional[Lost]] = {}
        self._cut_out: dict[Pointer, Optional[tuple[SlotState, Memory]]] = {}

    @property
    def log(self) -> bytes:
        if self._log is None:
            self._log = self.program.tail(["log", *self.words], MOST_BYTES)
        return self._log

    def lost(self, register: int) -> Optional[Lost]:
        """Where the number in a register was made."""
        if register not in self._lost:
            self._lost[register] = lost(self.log, self.code, self.slot, register)
        return self._lost[register]

    def when_cut_out(self, pointer: Pointer) -> Optional[tuple[SlotState, Memory]]:
        """The slot and the memory right after the segment of a pointer was cut out. In a run with a schedule the cycle
        of that is not looked for."""
        if pointer not in self._cut_out:
            self._cut_out[pointer] = self._find_cut_out(pointer)
        return self._cut_out[pointer]

    def _find_cut_out(self, pointer: Pointer) -> Optional[tuple[SlotState, Memory]]:
        path, cycles, *schedule = self.words
        found = cut_out(self.log, self.code, pointer) if not schedule else None
        if found is None:
            return None
        slot, ago = found
        report = read_report(self.program.run(["run", path, str(int(cycles) - ago)]).text.splitlines())
        there = report.slot(slot)
        return (there, Memory.after(self.image, report)) if there is not None else None


def _is_of(word: Word, wanted: Word) -> bool:
    """Whether a number has the bits of a pointer with the permission and the length of another one."""
    one, other = Pointer.of_bits(word.bits), Pointer.of_bits(wanted.bits)
    return one is not None and other is not None and (one.permission, one.log) == (other.permission, other.log)
