"""`tools/lockstep`: cases one after another or some at a time, and what came of them."""

from __future__ import annotations

import argparse
import multiprocessing
import os
import signal
import sys
from dataclasses import dataclass, field
from typing import Any, Callable, Iterator, Optional, Sequence, TypeVar

from mm.formats.hex import write_parts
from mm.formats.image import read_image
from mm.formats.schedule import read_schedule
from mm.lockstep.case import Case, case_of, items_of, schedule_text
from mm.lockstep.code import ALL
from mm.lockstep.compare import Difference, Pair, item_of, turns_of
from mm.lockstep.options import read_options
from mm.lockstep.programs import CYCLES, IMAGE, SCHEDULE, CannotRun, Command, Room, room
from mm.lockstep.results import Result, Results
from mm.lockstep.shrink import Shrinker
from mm.lockstep.tally import Tally, instruction_of
from mm.lockstep.tell import kept, machine_and_items, machine_of, report
from mm.log.read import LogReader, NoLog
from mm.log.replay import Machine
from mm.machine.program import find_program
from mm.names.numbers import counted
from mm.records import replace
from mm.status import Stop

Made = TypeVar("Made")
SAME, DIFFERS, NOT_RUN = 0, 1, 2


@dataclass
class Came:
    """What came of a case: how many turns are the same, and the report of a difference."""

    name: str
    turns: int = 0
    lines: list[str] = field(default_factory=list)
    cannot: str = ""
    more: dict[str, Any] = field(default_factory=dict)


class Work:
    """What is done with each case. It goes to other processes whole."""

    def __init__(self, options: argparse.Namespace) -> None:
        self.options = options
        self.path = os.path.abspath(options.model) if options.model else find_program().path

    @property
    def model(self) -> Command:
        return Command("model", [self.path, "log", IMAGE, CYCLES, SCHEDULE], self.options.seconds)

    def other(self, case: Case) -> Command:
        """The other program, or what stands of the case in a folder of logs."""
        if self.options.logs is None:
            return Command("other", self.options.command, self.options.seconds, self.options.skip_lines)
        log = os.path.join(self.options.logs, f"{case.name}.log")
        return Command("other", ["cat", log], self.options.seconds, self.options.skip_lines)

    def case(self, number: int) -> Case:
        if self.options.image is None:
            names = self.options.operations
            case = case_of(self.options.seed, number, names or ALL, self.options.plain)
            return replace(case, items=self.within(case)) if names else case
        with open(self.options.image, "rb") as file:
            image = file.read()
        name = os.path.splitext(os.path.basename(self.options.image))[0]
        return Case(name, image, self.items()[: self.options.cycles])

    def within(self, case: Case) -> tuple[int, ...]:
        """The items of a case, up to the first turn whose instruction is of an operation that is not asked for."""
        machine = Machine(read_image(case.image))
        items: list[int] = []
        with room() as files:
            image = files.file("case.img", case.image)
            schedule = files.file("case.schedule", schedule_text(case.items).encode("ascii"))
            with self.model.run(image, len(case.items), schedule) as running:
                for step in LogReader(running.lines).steps():
                    instruction = None if step.turn.delivered is not None else instruction_of(machine, step)
                    if instruction and instruction.name not in self.options.operations:
                        return tuple(items)
                    machine.carry_out(step)
                    items.append(step.item)
        return case.items

    def items(self) -> tuple[int, ...]:
        """The schedule of a given image: its own, or what the model does in round robin."""
        if self.options.schedule:
            with open(self.options.schedule, "rb") as file:
                return items_of(read_schedule(file.read()))
        robin = Command("model", [self.path, "log", IMAGE, CYCLES], self.options.seconds)
        with robin.run(self.options.image, self.options.cycles, "") as running:
            found = [item_of(turn) for turn in turns_of(running.lines)]
        return tuple(item for item in found if item is not None)

    def compare(self, number: int) -> Came:
        """Runs both programs on a case, and where they differ looks for a shorter schedule."""
        case = self.case(number)
        pair = Pair(self.model, self.other(case), self.options.follow)
        with room() as files:
            try:
                found = pair.run(case, case.items, files)
                came = Came(case.name, pair.turns)
                if found:
                    came.lines, came.more = self.difference(pair, case, found, files)
            except CannotRun as error:
                return Came(case.name, cannot=str(error))
        return came

    def difference(
        self, pair: Pair, case: Case, found: Difference, files: Room
    ) -> tuple[list[str], dict[str, Any]]:
        """The report of a difference, after it was made small, and what JSON has of it."""
        items, note, of_run = case.items, counted(len(case.items), "item"), found.same + 1
        if not (self.options.follow or self.options.whole):
            case, items, found, note = self.small(pair, case, found, files)
        machine = None if self.options.follow else machine_of(self.model, case, items, found, files)
        image, schedule = names = kept(self.options.keep, case, items)
        more = {"turn": found.same + 1, "turn_of_run": of_run, "wanted": found.model or [], "came": found.other or []}
        lines = report(case, items, found, note, names, machine)
        return lines, {**more, "image": image, "schedule": schedule}

    def small(
        self, pair: Pair, case: Case, found: Difference, files: Room
    ) -> tuple[Case, tuple[int, ...], Difference, str]:
        """A smaller case that differs in the same way: from the model's state just before the turn, if that does, and
        else the same image with fewer items; and then with less in it."""

        def attempt(image: bytes, items: tuple[int, ...]) -> Optional[Difference]:
            tried = Case(case.name, image, items)
            found = pair.run(tried, items, files)
            return None if found and self.options.operations and self.within(tried) is not items else found

        shrinker = Shrinker(attempt, case.image, case.items, found, self.options.tries)
        late = shrinker.from_state(lambda turns: machine_and_items(self.model, case, turns, files))
        shrinker.cut_items()
        more = "no item can be left out" if shrinker.tries > 0 else "it may get shorter yet"
        shrinker.blank()
        where = f", from the model's state before turn {found.same + 2 - late}" if late else ""
        items = shrinker.items
        note = f"{counted(len(items), 'item')} of {len(case.items)}{where}, {more}"
        return Case(case.name, shrinker.image, items), items, shrinker.found, f"{note}; {shrinker.said()}"

    def tally(self, number: int) -> Tally:
        """Counts the outcomes of the model on a case."""
        case, tally = self.case(number), Tally()
        with room() as files:
            image = files.file("case.img", case.image)
            schedule = files.file("case.schedule", schedule_text(case.items).encode("ascii"))
            with self.model.run(image, len(case.items), schedule) as running:
                tally.count(Machine(read_image(case.image)), LogReader(running.lines).steps())
        return tally


def numbers_of(options: argparse.Namespace) -> range:
    return range(1) if options.image else range(options.first, options.first + options.count)


def _stoppable() -> None:
    """In a process of its own: the end comes as an exception, so that programs that run are stopped too."""
    signal.signal(signal.SIGTERM, lambda *_: sys.exit(1))
    signal.signal(signal.SIGINT, signal.SIG_IGN)


def each(options: argparse.Namespace, work: Callable[[int], Made]) -> Iterator[Made]:
    """What comes of each number, in their order."""
    numbers = numbers_of(options)
    if options.jobs == 1 or len(numbers) < 2:
        yield from map(work, numbers)
        return
    with multiprocessing.Pool(options.jobs, _stoppable) as pool:
        yield from pool.imap(work, numbers)


def write_cases(options: argparse.Namespace) -> int:
    """The images and schedules of the cases as files, and a list of them."""
    os.makedirs(options.write, exist_ok=True)
    work = Work(options) if options.operations else None
    lines = []
    for number in numbers_of(options):
        case = work.case(number) if work else case_of(options.seed, number, plain=options.plain)
        lines.append(f"{case.name} {len(case.items)} {case.name}.schedule\n")
        if options.hex:
            write_parts(read_image(case.image), os.path.join(options.write, case.name))
        with open(os.path.join(options.write, f"{case.name}.img"), "wb") as file:
            file.write(case.image)
        with open(os.path.join(options.write, f"{case.name}.schedule"), "w", encoding="ascii") as file:
            file.write(schedule_text(case.items))
    with open(os.path.join(options.write, "cases"), "w", encoding="ascii") as file:
        file.writelines(lines)
    return SAME


def tally_cases(options: argparse.Namespace) -> int:
    whole = Tally()
    for tally in each(options, Work(options).tally):
        whole.add(tally)
    print("\n".join(whole.lines()))
    return SAME


def compare_cases(options: argparse.Namespace) -> int:
    """Compares case by case, up to the first that differs or all of them."""
    turns = 0
    results = Results("lockstep", len(numbers_of(options)), progress=options.progress)
    for came in each(options, Work(options).compare):
        if came.cannot:
            print(f"lockstep: {came.cannot}", file=sys.stderr)
            return NOT_RUN
        turns += came.turns
        results.add(Result("random" if options.image is None else "image", came.name, came.lines, more=came.more))
        if came.lines:
            print("\n".join(came.lines), flush=True)
            if not options.all:
                break
    results.write(options.json, options.junit)
    cases, differ = len(results.rows), [row.case for row in results.rows if row.differs]
    what = f"different: {' '.join(differ)}" if differ else "no difference"
    print(f"lockstep: {counted(cases, 'case')}, {counted(turns, 'turn')}, {what}")
    return DIFFERS if differ else SAME


def main(given: Optional[Sequence[str]] = None) -> int:
    options = read_options(sys.argv[1:] if given is None else given)
    try:
        if options.write is not None:
            return write_cases(options)
        return tally_cases(options) if options.tally else compare_cases(options)
    except KeyboardInterrupt:
        return 128 + signal.SIGINT
    except (OSError, ValueError, NoLog, Stop) as error:
        told = error.lines[0] if isinstance(error, Stop) and error.lines else f"lockstep: {error}"
        print(told, file=sys.stderr)
        return NOT_RUN
