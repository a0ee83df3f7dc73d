"""A value change dump of a window of turns: one unit of time is one cycle, and a value is that after the cycle."""

from __future__ import annotations

from dataclasses import dataclass
from itertools import chain
from typing import Iterable, Iterator, Optional

from mm.log.changes import ByteOut, EventQueued, EventTaken
from mm.log.read import Step
from mm.log.replay import Machine, SlotNow
from mm.machine.words import Permission, Pointer

FIRST, LAST = 33, 126
STATES = ("running", "waiting", "taken", "halted", "faulted")
OUTCOMES = ("did", "blocked", "faulted", "delivered")
SAID = (
    "One unit of time is one cycle of mmachine; a value is that after the cycle. "
    f"state: {', '.join(f'{at} {name}' for at, name in enumerate(STATES))}. "
    f"outcome: {', '.join(f'{at} {name}' for at, name in enumerate(OUTCOMES))}. "
    "A register is a pointer while its tag is 1, and x while its load has not arrived."
)


@dataclass(frozen=True)
class Signal:
    """A variable of the dump: the modules that it is in, its name, how many bits it has, and its short name in the file."""

    scope: str
    name: str
    width: int
    short: str

    @property
    def declared(self) -> str:
        bits = "" if self.width == 1 else f" [{self.width - 1}:0]"
        return f"$var wire {self.width} {self.short} {self.name}{bits} $end"

    def value(self, value: Optional[int]) -> str:
        """A change of value; none is unknown."""
        digits = "x" if value is None else f"{value:b}"
        return f"{digits}{self.short}" if self.width == 1 else f"b{digits} {self.short}"


def short_name(number: int) -> str:
    """The short names, from `!` on."""
    letters = ""
    while True:
        number, at = divmod(number, LAST - FIRST + 1)
        letters += chr(FIRST + at)
        if not number:
            return letters
        number -= 1


def slot_values(slot: SlotNow) -> Iterator[tuple[str, int, Optional[int]]]:
    """What is told of a slot: names, widths and values."""
    ip = slot.ip.pointer or Pointer.of_bits(1 << 60)
    yield "ip", 54, ip.address if ip else 0
    yield "privileged", 1, int(ip is not None and ip.permission is Permission.XP)
    yield "past", 1, int(slot.past)
    yield "state", 3, STATES.index(slot.state)
    yield "fault", 4, slot.fault or 0
    yield "queue", 7, len(slot.queue)
    yield "pending", 5, len(slot.pending)
    for number, word in enumerate(slot.registers):
        yield f"r{number}", 64, word.bits if word else None
        yield f"r{number}_tag", 1, int(word.tagged) if word else None


def group_values(data: bytearray) -> Iterator[tuple[str, int, Optional[int]]]:
    """What is told of a group's output: how many bytes it has, and the last of them."""
    yield "bytes", 17, len(data)
    yield "last", 8, data[-1] if data else None


class Dump:
    """The signals of a machine, and what was last told of each."""

    def __init__(self, machine: Machine) -> None:
        self.machine = machine
        self.signals: dict[tuple[str, str], Signal] = {}
        self.told: dict[Signal, Optional[int]] = {}
        for scope in self.scopes():
            for name, width, _ in self.of(scope):
                self.signals[scope, name] = Signal(scope, name, width, short_name(len(self.signals)))

    def scopes(self) -> list[str]:
        slots = [f"slot{number}" for number in sorted(self.machine.slots)]
        return ["turn", *slots, *(f"group{group}" for group in sorted(self.machine.outputs))]

    def of(self, scope: str, step: Optional[Step] = None) -> Iterator[tuple[str, int, Optional[int]]]:
        """The values of a module at this moment."""
        if scope == "turn":
            yield "slot", 7, step.turn.slot if step else None
            yield "outcome", 2, OUTCOMES.index(step.turn.outcome) if step else None
        elif scope.startswith("slot"):
            yield from slot_values(self.machine.slots[int(scope[4:])])
        else:
            yield from group_values(self.machine.outputs[int(scope[5:])])

    def changes(self, scopes: Iterable[str], step: Optional[Step] = None) -> Iterator[str]:
        """The values of modules that differ from what was last told."""
        for scope in scopes:
            for name, _, value in self.of(scope, step):
                signal = self.signals[scope, name]
                if signal not in self.told or self.told[signal] != value:
                    self.told[signal] = value
                    yield signal.value(value)

    def head(self, title: str) -> Iterator[str]:
        """The declarations."""
        yield f"$comment {title}. {SAID} $end"
        yield "$timescale 1 ns $end"
        yield "$scope module machine $end"
        for scope in self.scopes():
            yield f"$scope module {scope} $end"
            yield from (signal.declared for signal in self.signals.values() if signal.scope == scope)
            yield "$upscope $end"
        yield "$upscope $end"
        yield "$enddefinitions $end"


def touched(step: Step) -> list[str]:
    """The modules in which a turn may have changed a value."""
    scopes = {f"slot{step.turn.slot}"}
    for change in step.changes:
        if isinstance(change, ByteOut):
            scopes.add(f"group{change.group}")
        elif isinstance(change, (EventQueued, EventTaken)):
            scopes.add(f"slot{change.handler}")
        elif hasattr(change, "slot"):
            scopes.add(f"slot{change.slot}")
    return ["turn", *sorted(scopes)]


def dump(machine: Machine, steps: Iterable[tuple[int, Step]], first: int, title: str) -> Iterator[str]:
    """The lines of the dump from a cycle on, as the steps come. Those before it are carried out and not told."""
    made, last = Dump(machine), first - 1
    yield from made.head(title)
    for cycle, step in chain(steps, [(0, None)]):
        if step and cycle < first:
            machine.carry_out(step)
            continue
        if not made.told:
            yield f"#{first - 1}"
            yield "$dumpvars"
            yield from made.changes(made.scopes())
            yield "$end"
        if step:
            machine.carry_out(step)
            yield f"#{cycle}"
            yield from made.changes(touched(step), step)
            last = cycle
    yield f"#{last + 1}"
