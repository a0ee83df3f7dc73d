"""The operations that a case carries out: those of its stored log, whatever came of them."""

from differs import TURNS, fetched, report_at
from mm.formats.image import read_image
from mm.lockstep.code import operations_in
from mm.log.changes import read_change
from mm.log.read import Step
from mm.log.replay import Machine
from mm.outputs.trace import read_turn


def operations_of(case, log):
    """The names of the operations. A turn that fetches no instruction has none."""
    machine, found = Machine(read_image(case.image.data)), set()
    lines = log.splitlines()
    lines = lines[: report_at(lines)]
    starts = [at for at, line in enumerate(lines) if line.startswith(TURNS)] + [len(lines)]
    for start, stop in zip(starts, starts[1:]):
        turn = read_turn(lines[start])
        if turn.delivered is None:
            instruction, _ = fetched(machine, machine.slots[turn.slot])
            if instruction:
                found.add(instruction.name)
        machine.carry_out(Step(turn, tuple(map(read_change, lines[start + 1 : stop]))))
    return found


def with_these_alone(cases, logs, text):
    """Of cases with their themes those that carry out the operations of a text alone: names between commas."""
    names = operations_in(text)
    return [
        (theme, case)
        for theme, case in cases
        if case.name in logs and operations_of(case, logs[case.name][1]) <= names
    ]
