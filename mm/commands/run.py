"""`mm run`, `mm solo` and `mm continue`: a run and its report."""

from __future__ import annotations

from functools import lru_cache
from itertools import groupby, takewhile

from mm.build import Built, read_file, refused
from mm.commands.running import Run, Runner
from mm.console import Console, Order
from mm.formats.image import Image, image_bytes
from mm.formats.kinds import FileKind
from mm.named import NamedFile
from mm.outputs.report import Report, read_report
from mm.records import replace
from mm.status import Refused, Status, usage
from mm.table import CYCLES, JSON, PLAIN
from mm.views.report import ReportView
from mm.views.spell import Memory, Speller
from mm.words import MOST_CYCLES, cycles_of, groups_of

REPORTS_KEPT = 64


def show(console: Console, built: Built, run: Run, order: str) -> int:
    """Writes a report, for people or as JSON."""
    memory = Memory.after(built.image, run.report)
    if console.said.has(PLAIN):
        style = console.err_style
        return _plain(console, ReportView(run.report, memory, Speller(built.symbols), style, run.waits, run.faults))
    if console.said.has(JSON):
        from mm.views.data import ReportForm

        console.write_json(ReportForm(run.report, memory, built.symbols, run.waits, run.faults).form())
    else:
        view = ReportView(run.report, memory, Speller(built.symbols), console.style, run.waits, run.faults)
        console.write(view.lines(order))
    return Status.DONE


def _plain(console: Console, view: ReportView) -> int:
    """What the groups have put out, one after the other; why a slot has not halted goes to the standard error."""
    report = view.report
    console.write_bytes(b"".join(report.outputs[group] for group in report.groups))
    for slot in report.slots:
        if slot.state != "halted":
            console.tell(f"mm: slot {slot.number} {view.state(slot)}", *[f"    {line}" for line in view.place(slot)])
    console.tell(*[f"mm: {line}" for line in view.verdict() if line])
    return Status.DONE


def _run(console: Console) -> int:
    built, order = console.build(console.words), console.order()
    run = Runner(console, built, order).run_to_end(cycles_of(console.said.value(CYCLES)))
    console.note_order(built, order)
    return show(console, built, run, str(order))


def _in_turn(console: Console, built: Built, cycles: int) -> Order:
    """The order that round robin takes, as a schedule."""
    from mm.formats.schedule import Schedule
    from mm.outputs.trace import item_of

    with console.program.lines(["trace", built.path, str(cycles)]) as (answer, lines):
        if answer.status:
            raise refused(answer, [built.file])
        turns = takewhile(lambda line: not line.startswith("cycles "), lines)
        text = Schedule(tuple((item, len(list(run))) for item, run in groupby(map(item_of, turns)))).text
    return Order(NamedFile("round robin", text), console.workshop.keep(text, ".schedule"))


def _alone(console: Console, built: Built, groups: str, order: Order, cycles: int) -> Runner:
    """Runs of some groups without the others: the image has their slots alone, and the schedule their items."""
    from mm.formats.schedule import PORT, Schedule

    named = set(map(int, groups.split(",")))
    slots = tuple(slot for slot in built.image.slots if slot.group in named)
    image = replace(built.image, slots=slots)
    numbers = {slot.number for slot in slots}
    schedule = (order.schedule or Schedule(())).first(cycles)
    # Items of ports count in a split machine alone.
    ours = tuple(run for run in schedule.runs if run[0] % PORT in numbers and (run[0] < PORT or image.split))
    text = Schedule(ours).text
    data = image_bytes(image)
    alone = replace(built, path=console.workshop.keep(data, ".img"), data=data, image=image)
    file = NamedFile("their turns", text)
    return Runner(console, alone, Order(file, console.workshop.keep(text, ".schedule")))


def _solo(console: Console) -> int:
    *names, last = console.words
    groups = groups_of(last)
    built, order = console.build(names), console.order()
    cycles = cycles_of(console.said.value(CYCLES))
    if order.path is None:
        wanted = Runner(console, built, order).waits_to_end().report.cycles if cycles is None else cycles
        order = _in_turn(console, built, wanted)
    cycles = MOST_CYCLES if cycles is None else cycles
    answer = console.ask(["solo", built.path, groups, str(cycles), *order.words], [built.file, *order.files])
    run = Run(read_report(answer.text.splitlines()))
    runner = _alone(console, built, groups, order, cycles)
    if console.program.run(runner.words("run", MOST_CYCLES)).out == answer.out:
        run = runner.run(MOST_CYCLES)
    title = f"group{'s' if ',' in groups else ''} {groups} alone"
    return show(console, built, run, f"{title}, with their turns of {order.name}")


def _continue(console: Console) -> int:
    *names, checkpoint = console.words
    data = read_file(checkpoint)
    if FileKind.of(data) is not FileKind.CHECKPOINT and FileKind.of(read_file(names[-1])) is FileKind.CHECKPOINT:
        raise usage("mm: continue: the checkpoint is the last word: mm continue FILE.. CHECKPOINT")
    built, order = console.build(names), console.order()
    path, files = console.workshop.keep(data, ".mms"), [built.file, NamedFile(checkpoint, data), *order.files]

    @lru_cache(maxsize=REPORTS_KEPT)
    def report_at(cycles: int) -> Report:
        words = ["continue", built.path, path, str(cycles), *order.words]
        return read_report(console.ask(words, files).text.splitlines())

    from mm.views.faults import said_by_reports

    _refuse_another(console, built, checkpoint, report_at(0))
    report = report_at(console.cycles(MOST_CYCLES))
    begun = report_at(0).cycles
    run = Run(report, {}, said_by_reports(report, report_at, report.cycles - begun, built.image, Speller(built.symbols)))
    if any(slot.running for slot in report.slots):
        from mm.views.waiting import turns_by_reports, waiting

        turns = turns_by_reports(report_at, report.cycles - begun, built.image, _looked_back(report, built.image))
        run.waits = waiting(turns, report, built.image.split)
    return show(console, built, run, f"the last of them from {checkpoint} on, {order}")


def _refuse_another(console: Console, built: Built, checkpoint: str, begun: Report) -> None:
    """Refuses a checkpoint that no run of the image comes to: its memory differs where no group can write. Privileged groups can write
    everything, and map pages, so that it cannot be told of them."""
    from mm.messages.diagnostic import Diagnostic
    from mm.outputs.audit import read_audit

    reaches = read_audit(console.ask(["grants", built.path], [built.file]).text).reaches
    if any(reach.privileged for reach in reaches):
        return
    spans = [(base, base + (1 << log)) for reach in reaches for base, log in reach.write]
    others = [address for address in begun.cells if not any(base <= address < end for base, end in spans)]
    if others or begun.pages:
        place = built.symbols.show(min(others)) if others else f"page 0x{begun.pages[0][0]:x}"
        said = f"this is not a checkpoint of {built.name}: it differs at {place}, which no run of it can change"
        raise Refused(Status.REFUSED, [Diagnostic(checkpoint, said)])


def _looked_back(report: Report, image: Image) -> int:
    """So many of the last turns tell which slots wait: enough of each."""
    from mm.views.waiting import ENOUGH, ENOUGH_SPLIT

    running = sum(slot.running for slot in report.slots)
    return (ENOUGH_SPLIT + 2 if image.split else ENOUGH + 1) * running + ENOUGH


COMMANDS = {"run": _run, "solo": _solo, "continue": _continue}


def run(console: Console) -> int:
    if console.said.has(PLAIN) and console.said.has(JSON):
        raise usage("mm: --plain and --json exclude each other")
    return COMMANDS[console.name](console)
