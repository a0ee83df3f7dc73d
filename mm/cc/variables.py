"""Variables of C, for the debugger: what LLVM's text says of them, and where each is at each operation."""

from __future__ import annotations

import re
from dataclasses import dataclass
from typing import Iterable, Optional, Protocol

from mm.cc.allocation import NEVER, Allocation
from mm.cc.code import Code, CodeBlock, Fixed, Variable, Where
from mm.cc.frame import Frame
from mm.cc.ir import Expression, Global, Instruction, IntType, Local, Number, Value, Zero
from mm.cc.lowering import Lowering, signed
from mm.cc.pointers import Pointer
from mm.cc.reading import Reader
from mm.cc.untranslated import Untranslated
from mm.records import replace

# `call void @llvm.dbg.value(metadata i32 %i, metadata !44, metadata !DIExpression()), !dbg !51`, or since LLVM 19
# `#dbg_value(i32 %i, !44, !DIExpression(), !51)`.
SAID = re.compile(r"(?:@llvm\.dbg\.|#dbg_)(value|declare)\((?:metadata )?(.*), (?:metadata )?(!\d+), "
                  r"(?:metadata )?!DIExpression\(([^()]*)\)(?:\).*!dbg (!\d+)|, (!\d+)\))")
FURTHER = re.compile(r"DW_OP_plus_uconst, (\d+), DW_OP_stack_value")

State = dict[Variable, Where]


@dataclass(frozen=True)
class Event:
    """A variable that is somewhere from here on, or nowhere."""

    variable: Variable
    where: Optional[Where]


def event_of(made: Instruction, lowering: Lowering) -> Optional[Event]:
    """What an instruction for debuggers says. A variable that is an object of the frame all the time gives the object
    its name."""
    match = SAID.search(made.condition)
    if match is None:
        return None
    variable = Variable(match[3], match[5] or match[6])
    try:
        value = None if match[2].startswith("!") else Reader(match[2]).typed()
    except Untranslated:
        value = None
    if match[1] == "declare" and isinstance(value, Local) and value.name in lowering.promoted:
        return Event(variable, place_of(value, lowering))
    found = place_of(value, lowering) if value is not None else None
    if match[1] == "declare" and isinstance(value, Global):
        lowering.names.declare(value.name, variable)
        return None
    if match[1] == "declare":
        return _declared(variable, found, lowering)
    if match[4] == "DW_OP_deref" and found is not None:
        return Event(variable, replace(found, memory=True))
    further = FURTHER.fullmatch(match[4])
    if further and found is not None:
        return Event(variable, replace(found, number=found.number + int(further[1])))
    return Event(variable, None if match[4] else found)


def _declared(variable: Variable, found: Optional[Where], lowering: Lowering) -> Optional[Event]:
    """A variable that is in memory all the time."""
    if found is None:
        return None
    fixed = lowering.code.fixed.get(found.parts[0][0]) if len(found.parts) == 1 and not found.global_ else None
    if fixed is not None and fixed.kind == "local" and not found.number:
        lowering.code.objects[fixed.number].variable = variable
        return None
    return Event(variable, replace(found, memory=True))


def place_of(value: Value, lowering: Lowering) -> Optional[Where]:
    """Where a value is. No operation is made for it."""
    if isinstance(value, Number) and isinstance(value.type, IntType):
        return Where((), signed(value.number, value.type.bits))
    if isinstance(value, (Global, Expression)):
        return _constant_place(value, lowering)
    if not isinstance(value, Local):
        return None
    if value.name in lowering.numbers:
        return Where((tuple(dict.fromkeys(lowering.numbers[value.name].values())),))
    pointer = lowering.pointers.get(value.name)
    if pointer is None:
        return None
    parts = [(pointer.base,)] if pointer.offset is None else [(pointer.base,), (pointer.offset,)]
    return Where(tuple(parts), pointer.constant)


def _constant_place(value: Value, lowering: Lowering) -> Optional[Where]:
    """The place of a global, or in one."""
    if isinstance(value, Global):
        return None if lowering.names.is_function(value.name) else Where(global_=value.name)
    if not isinstance(value, Expression) or value.op not in ("bitcast", "getelementptr"):
        return None
    start = _constant_place(value.parts[0], lowering)
    if start is None or not all(isinstance(index, (Number, Zero)) for index in value.parts[1:]):
        return None
    by = lowering.moved(Pointer(0), value.source, value.parts[1:]).constant if value.op == "getelementptr" else 0
    return Where(number=start.number + by, global_=start.global_)


def states(code: Code) -> dict[str, State]:
    """Where variables are at the beginning of each block, as far as all ways to it agree."""
    leads: dict[str, list[str]] = {block.label: [] for block in code.blocks}
    for block in code.blocks:
        for label in block.next:
            leads[label].append(block.label)
    blocks = {block.label: block for block in code.blocks}
    before: dict[str, State] = {code.blocks[0].label: {}}
    after: dict[str, State] = {}
    work = [code.blocks[0].label]
    while work:
        label = work.pop()
        known = [after[lead] for lead in leads[label] if lead in after]
        if label != code.blocks[0].label:
            before[label] = _common(known)
        new = _after(blocks[label], before[label])
        if after.get(label) != new:
            after[label] = new
            work += [following for following in blocks[label].next if following not in work]
    return before


def _common(known: list[State]) -> State:
    first, *others = known
    return {variable: where for variable, where in first.items()
            if all(other.get(variable) == where for other in others)}


def change(state: State, event: Event) -> None:
    if event.where is None:
        state.pop(event.variable, None)
    else:
        state[event.variable] = event.where


def _after(block: CodeBlock, state: State) -> State:
    state = dict(state)
    for _, event in block.events:
        change(state, event)
    return state


class Naming(Protocol):
    """How variables and globals are called in the source."""

    def variable(self, variable: Variable) -> tuple[str, str]:
        """The name and the type of a variable, and of which function it is if that was put into this one."""

    def segment(self, name: str) -> Optional[str]:
        """The segment of a global; none if the program has none for it."""


class Places:
    """Where the variables of a function are at each of its operations. A variable is looked at again where something is
    said of it, and where a register that holds it ends to do so."""

    def __init__(self, code: Code, allocation: Allocation, frame: Frame, naming: Naming) -> None:
        self.code, self.allocation, self.frame, self.naming = code, allocation, frame, naming
        there = any(block.events for block in code.blocks)
        self.before = states(code) if there else {}
        self.state: State = {}
        self.waiting: list[tuple[int, Event]] = []
        # What is said of each variable that has a place, until which place that holds, and the first of these places.
        self.said: dict[Variable, str] = {}
        self.until: dict[Variable, int] = {}
        self.next = NEVER
        self.now: tuple[str, ...] = ()

    def begin(self, block: CodeBlock, place: int) -> None:
        self.state = dict(self.before.get(block.label, {}))
        self.waiting = block.events[::-1]
        self.said, self.until = {}, {}
        self.look(list(self.state), place)

    def at(self, number: int, place: int) -> tuple[str, ...]:
        """What is said of variables at operation `number` of a block, which is `place` in the function."""
        due: list[Variable] = []
        while self.waiting and self.waiting[-1][0] <= number:
            event = self.waiting.pop()[1]
            change(self.state, event)
            due.append(event.variable)
        if place >= self.next:
            due += [variable for variable, until in self.until.items() if until <= place]
        if due:
            self.look(due, place)
        return self.now

    def look(self, variables: Iterable[Variable], place: int) -> None:
        for variable in variables:
            self.said.pop(variable, None)
            self.until.pop(variable, None)
            where = self.state.get(variable)
            if where is None:
                continue
            text, self.until[variable] = self.text(where, place)
            if text is not None:
                name, frame = self.naming.variable(variable)
                self.said[variable] = f"{name} {text}{frame}"
        self.next = min(self.until.values(), default=NEVER)
        self.now = tuple(self.said.values())

    def text(self, where: Where, place: int) -> tuple[Optional[str], int]:
        """`r7`, `s24+8`, `@table+16`, `f160:5`; with `*` where that is the address of the variable. And until where it
        is so."""
        found = [self.term(registers, place) for registers in where.parts]
        if where.global_:
            found.append((self.naming.segment(where.global_), NEVER))
        until = min((end for _, end in found), default=NEVER)
        terms = [term for term, _ in found if term is not None]
        if len(terms) < len(found):
            return None, until
        if where.number or not terms:
            terms.append(str(where.number))
        return ("*" if where.memory else "") + "+".join(terms), until

    def term(self, registers: Iterable[int], place: int) -> tuple[Optional[str], int]:
        later = NEVER
        for register in registers:
            fixed = self.code.fixed.get(register)
            if fixed is not None:
                return self.fixed(fixed), NEVER
            start, end = self.allocation.range_at(register, place)
            if start > place:
                later = min(later, start)
                continue
            home = self.allocation.of(register)
            if home is not None:
                return f"r{home}", end
            if self.allocation.has_slot(register) and not self.code.dynamic:
                return f"s{self.frame.slots + 8 * self.allocation.slot_of(register)}", end
            later = min(later, end)
        return None, later

    def fixed(self, fixed: Fixed) -> Optional[str]:
        if fixed.kind == "int":
            return str(fixed.number)
        if fixed.kind == "local":
            made = self.code.objects[fixed.number]
            return None if self.code.dynamic else f"f{made.at + made.place}:{made.log}"
        return f"@{fixed.name}"
