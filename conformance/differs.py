"""Where a log differs from the one that is stored, and what to tell of it."""

from mm.formats.image import read_image
from mm.lockstep.lines import for_people, log_lines
from mm.log.changes import read_change
from mm.log.read import Step
from mm.log.replay import Machine
from mm.machine.isa import decode
from mm.outputs.trace import read_turn

TURNS, NO_MORE = ("t ", "m "), "no more lines"


def first_difference(log, text, counts, skipped=()):
    """The place of the first line that differs and the line that came, or none if nothing does. The report is
    compared if there is one, and its counts only if they are asked for. Lines of a simulator are skipped."""
    wanted, came = log.splitlines(), list(log_lines(text.splitlines(), skipped))
    if not any(line.startswith("cycles ") for line in came):
        wanted = wanted[: report_at(wanted)]
    if not counts:
        wanted, came = ([line for line in lines if not line.startswith("counts ")] for lines in (wanted, came))
    if wanted == came:
        return None
    at = next((at for at, pair in enumerate(zip(wanted, came)) if pair[0] != pair[1]), min(len(wanted), len(came)))
    return at, came[at] if at < len(came) else None


def report_at(lines):
    """The place of the report's first line."""
    return next((at for at, line in enumerate(lines) if line.startswith("cycles ")), len(lines))


def told(case, log, at, came, in_full):
    """The lines that tell of a case what differs at a place of its stored log."""
    if at is None:
        return [f"{case.name}: {came}"]
    lines = log.splitlines()
    head = f"{case.name}: line {at + 1} differs"
    if not in_full:
        return [head]
    return [
        head,
        f"  wanted  {wanted_at(lines, at, came)}",
        f"  came    {NO_MORE if came is None else for_people(came)}",
        *around(case, lines, at, came),
    ]


def keys_of(log, at, came):
    """What JSON has of a difference: its line and turn, counted from 1, and what each side has there."""
    if at is None:
        return {}
    lines = log.splitlines()
    end = report_at(lines)
    place = turn_line(lines, at, came)
    turn = sum(line.startswith(TURNS) for line in lines[: place + 1]) if place < end else None
    return {"line": at + 1, "turn": turn, "wanted": lines[at : at + 1], "came": [] if came is None else [came]}


def wanted_at(lines, at, came):
    """The line of a place of a stored log; at its report, if another line of a turn came, that no more are wanted."""
    if at >= len(lines):
        return NO_MORE
    more = at == report_at(lines) and came is not None and not came.startswith("cycles ")
    return f"{NO_MORE} of turns" if more else for_people(lines[at])


def turn_line(lines, at, came):
    """A place in the turn that a place of a log is in: a change more is in the turn before."""
    is_change = came and not came.startswith((*TURNS, "cycles "))
    return at - 1 if is_change and (at == report_at(lines) or lines[at : at + 1] and lines[at].startswith(TURNS)) else at


def around(case, lines, at, came):
    """The turn that a place of a log is in, its instruction with the registers that it names, and the turn before."""
    end, at = report_at(lines), turn_line(lines, at, came)
    starts = [place for place in range(min(at + 1, end)) if lines[place].startswith(TURNS)]
    if at >= end or not starts:
        return ["  in the report, after all turns are as they should be" if at >= end else "  before any turn"]
    machine = Machine(read_image(case.image.data))
    for start, stop in zip(starts, starts[1:]):
        machine.carry_out(Step(read_turn(lines[start]), tuple(map(read_change, lines[start + 1 : stop]))))
    told = [f"  in      {for_people(lines[starts[-1]])}", *instruction_of(machine, read_turn(lines[starts[-1]]))]
    if len(starts) > 1:
        told.append(f"  after   {for_people(lines[starts[-2]])}")
        told += [f"          {line}" for line in lines[starts[-2] + 1 : starts[-1]]]
    return told


def instruction_of(machine, turn):
    """The instruction of a turn, with the words before it of the registers that it names."""
    slot = machine.slots[turn.slot]
    if turn.delivered is not None:
        return [f"          the port of slot {turn.slot}; pending {pending(slot)}"]
    found, why = fetched(machine, slot)
    if found is None:
        return [f"          {why}; ip {slot.ip}"]
    lines = [f"          {found.text()}    at ip {slot.ip}{waits(slot)}"]
    registers = sorted({value for kind, value in zip(found.operation.operands, found.values) if kind.is_register})
    return lines + [f"          r{register} {text_of(slot.registers[register])}" for register in registers]


def fetched(machine, slot):
    """The instruction that a slot is at, and why it is at none, one of them none."""
    address = slot.ip.pointer.address
    if slot.past:
        return None, "past its segment"
    if not slot.ip.pointer.covers(address, 8):
        return None, "no whole word is in its segment"
    if address % 8:
        return None, "misaligned"
    cell = machine.cell(address)
    if cell is None:
        return None, "no page is there"
    found = None if cell.word.tagged else decode(cell.word.bits)
    return found, None if found else f"{cell.word} is no instruction"


def waits(slot):
    return f"; pending {pending(slot)}" if slot.pending else ""


def pending(slot):
    return ", ".join(f"r{register} {word}" for register, word in slot.pending) or "nothing"


def text_of(word):
    """A word, and a pointer's fields."""
    if word is None:
        return "empty"
    found = word.pointer
    if not found:
        return str(word)
    return f"{word}  {found.permission.short}, 2^{found.log} bytes from {found.base:014x}, at {found.address:014x}"

