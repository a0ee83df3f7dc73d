"""From files to an image with names: sources are assembled, objects linked, and an image is taken as it is."""

from __future__ import annotations

import errno
import os
import stat
from typing import TYPE_CHECKING, Optional, Sequence

from mm.formats.image import Image, read_image
from mm.formats.kinds import FileKind, looks_binary
from mm.formats.object import MOST_WORDS, Object, object_of_words, read_object
from mm.inputs import note_read
from mm.limits import IMAGE_LIMIT
from mm.machine.program import Answer, Program
from mm.named import NamedFile
from mm.names.layout import Placed, differences, place
from mm.names.symbols import Symbols, fits, symbols_of
from mm.records import dataclass, field
from mm.room import Room
from mm.source.letters import plain
from mm.source.text import SourceText, lines_of, read_source
from mm.status import SIGNALLED, Refused, Status, Stop

# Messages are imported where there is something to tell.
if TYPE_CHECKING:
    from mm.cc.options import Options
    from mm.messages.diagnostic import Diagnostic
    from mm.outputs.refusal import Refusal
    from mm.source.mend import Mender

# So many errors of a source are shown: the first ones, of as many as are looked for. In a long source fewer are looked for.
MOST_ERRORS, MOST_FOUND, LONG_SOURCE = 20, 100, 100_000
LONGEST_FILE = IMAGE_LIMIT
C_SUFFIX = ".c"
UTF_16 = (b"\xff\xfe", b"\xfe\xff")
NET_SUFFIXES = (".links", ".events")
BINARY_SUFFIXES = (".img", ".obj", ".mms")
OUR_SUFFIXES = (".asm", ".obj", ".img", ".mms", ".schedule", *NET_SUFFIXES)


def _diagnostic(path: str, message: str, hints: Sequence[str] = ()) -> Diagnostic:
    """A message about a file."""
    from mm.messages.diagnostic import Diagnostic

    return Diagnostic(path, message, hints=list(hints))


def _first_of(status: int, found: list[Diagnostic], more: bool) -> Refused:
    """The first faults by their lines, and how many there are; none if there are more that were not looked for."""
    ordered = sorted(found, key=lambda one: (one.line or 0, one.column or 0))
    return Refused(status, ordered[:MOST_ERRORS], None if more else len(ordered))


@dataclass
class Unit:
    """A source or an object: its name, its object, and its text if there is one that fits."""

    name: str
    data: bytes
    made: Object
    source: Optional[SourceText] = None
    # Whether it is a text that was read here otherwise than `mmachine` reads it, so that its labels and lines are not used.
    misread: bool = False


@dataclass
class Built:
    """An image, where it is for `mmachine`, its names, and the placed segments that these come from."""

    name: str
    path: str
    data: bytes
    image: Image
    symbols: Symbols = field(default_factory=Symbols)
    units: list[Unit] = field(default_factory=list)
    placed: list[Placed] = field(default_factory=list)
    notes: list[str] = field(default_factory=list)

    @property
    def file(self) -> NamedFile:
        threads = {thread.slot: unit.name for unit in self.units for thread in unit.made.threads}
        parts = tuple(dict.fromkeys(unit.name for unit in self.units)) if len(self.units) > 1 else ()
        return NamedFile(self.name, self.data, parts=parts, threads=threads if parts else {})


def read_file(name: str) -> bytes:
    """The bytes of a file, or a message that names it."""
    try:
        with open(name, "rb") as file:
            if name.endswith(C_SUFFIX) and not stat.S_ISREG(os.fstat(file.fileno()).st_mode):
                raise OSError(errno.EINVAL, "it is not a usual file, and Clang reads it again", name)
            note_read(file.fileno())
            data = file.read(LONGEST_FILE + 1)
    except OSError as error:
        raise Refused(
            Status.READ_FAULT, [_diagnostic(name, f"cannot be read: {error.strerror}", hints=_beside(name, error))]
        ) from None
    if len(data) > LONGEST_FILE:
        said = f"is too long: no file of the machine has more than {LONGEST_FILE} bytes"
        raise Refused(Status.REFUSED, [_diagnostic(name, said)])
    return data


def _beside(name: str, error: OSError) -> list[str]:
    """Files that may have been meant."""
    if isinstance(error, IsADirectoryError):
        return _inside(name)
    if not isinstance(error, FileNotFoundError):
        return []
    if name.isdigit():
        options = f"`--cycles {name}` for the cycles of a run, `--states {name}` for `mm explore`"
        return [f"a number goes with an option: {options}; several groups have commas between, as `--groups 0,{name}`"]
    folder, last = os.path.split(name)
    try:
        there = sorted(os.listdir(folder or "."))
    except OSError:
        return [f"there is no folder {folder}"]
    from mm.names.expressions import nearest

    stem, suffix = os.path.splitext(last)
    near = nearest(stem, [os.path.splitext(one)[0] for one in there if one.endswith((*OUR_SUFFIXES, C_SUFFIX))])
    meant = [begin + end for begin in (stem, near) for end in (suffix, *OUR_SUFFIXES, C_SUFFIX) if begin]
    found = [one for one in meant if one in there]
    if found:
        return [f"there is {os.path.join(folder, found[0])}"]
    if os.path.isabs(name):
        return []
    try:
        return [f"names of files are looked up from the folder {os.getcwd()} on"]
    except OSError:
        return ["the folder from which names of files are looked up is not there any more"]


def _inside(folder: str) -> list[str]:
    """What of a folder may have been meant."""
    try:
        there = sorted(name for name in os.listdir(folder) if name.endswith(".asm"))
    except OSError:
        there = []
    return [f"it is a folder: name a file in it, as {os.path.join(folder, there[0] if there else 'main.asm')}"]


class Workshop:
    """A folder for the files in between, and the program that makes them."""

    def __init__(self, program: Program, options: Optional[Options] = None) -> None:
        self.program, self.options = program, options
        self.room = Room()

    def close(self) -> None:
        self.room.remove()

    def keep(self, data: bytes, suffix: str) -> str:
        """A file with these bytes."""
        return self.room.keep(data, suffix)

    def assemble(self, name: str, data: bytes) -> Unit:
        """The object of a source, or a message for each of its faults."""
        if looks_binary(data):
            raise Refused(
                Status.REFUSED,
                [
                    _diagnostic(
                        name,
                        "this is neither a text nor an image nor an object",
                        hints=[
                            "it is a text in UTF-16: save it as UTF-8"
                            if data.startswith(UTF_16)
                            else "a source is a text; `mm help sources` shows one"
                        ],
                    )
                ],
            )
        answer = self.program.run(["asm", self.keep(plain(data).data, ".asm")])
        if answer.status:
            raise self._source_refused(name, data, answer)
        made, source = read_object(answer.out), read_source(name, data)
        read_alike = fits(source, made)
        return Unit(name, answer.out, made, source if read_alike else None, not read_alike)

    def _source_refused(self, name: str, data: bytes, answer: Answer) -> Refused:
        from mm.outputs.refusal import RefusalKind, read_refusal

        refusal = read_refusal(answer.line)
        if refusal is None or refusal.kind is not RefusalKind.SOURCE:
            return refused(answer, [NamedFile(name, data)])
        return self._all_faults(name, data, refusal, answer.status)

    def _all_faults(self, name: str, data: bytes, refusal: Refusal, status: int) -> Refused:
        """The first fault, and those that show once it is taken out, up to a limit. A label that is missing shows last, however
        early it is wanted: so more are looked for than are shown."""
        from mm.messages.sources import explain
        from mm.source.mend import Mender

        source, given = read_source(name, data), plain(data)
        mender = Mender(lines_of(given.data))
        found: list[Diagnostic] = []
        seen: set[tuple[int, int, int]] = set()
        fault, line, column = refusal["fault"], refusal["line"], refusal["column"]
        most = MOST_FOUND if len(data) <= LONG_SOURCE else MOST_ERRORS
        while len(found) < most and (fault, line, column) not in seen:
            seen.add((fault, line, column))
            told = explain(source, fault, given.line(line), column)
            found += [told] if told.name not in mender.dropped else []
            next_one = self._next_fault(mender, fault, line, column)
            if next_one is None:
                return _first_of(status, found, False)
            fault, line, column = next_one
        return _first_of(status, found, (fault, line, column) not in seen)

    def _next_fault(self, mender: Mender, fault: int, line: int, column: int) -> Optional[tuple[int, int, int]]:
        from mm.outputs.refusal import RefusalKind, read_refusal

        if not mender.mend(fault, line, column):
            return None
        refusal = read_refusal(self.program.run(["asm", self.keep(mender.data(), ".asm")]).line)
        if refusal is None or refusal.kind is not RefusalKind.SOURCE or refusal["line"] < 2:
            return None
        return refusal["fault"], refusal["line"] - 1, refusal["column"]

    def texts(self, words: Sequence[int]) -> list[str]:
        """What `mmachine dis` calls each word: an instruction, or `.int` and its digits."""
        found: list[str] = []
        for at in range(0, len(words), MOST_WORDS):
            answer = self.program.run(["dis", self.keep(object_of_words(list(words[at : at + MOST_WORDS])), ".obj")])
            if answer.status:
                raise refused(answer, [NamedFile("the words of an image", b"")])
            found += [line for line in answer.text.splitlines() if not line.startswith((".spare", ".segment"))]
        return found

    def unit(self, name: str, data: bytes) -> Unit:
        """The object of a file that is a source or an object."""
        if FileKind.of(data) is FileKind.OBJECT:
            answer = self.program.run(["dis", self.keep(data, ".obj")])
            if answer.status:
                raise refused(answer, [NamedFile(name, data)])
            return Unit(name, data, read_object(data))
        if name.endswith(BINARY_SUFFIXES):
            return self._misnamed(name, data)
        return self.assemble(name, data)

    def _misnamed(self, name: str, data: bytes) -> Unit:
        """The object of a source that has the name of an image or an object; if it is no source, it is told that it is neither."""
        try:
            if data.strip():
                return self.assemble(name, data)
        except Refused:
            pass
        said = "the file is empty" if not data else "this is neither an image nor an object nor a source"
        hints = ["an image is what `mm link FILE.. -o IMAGE` writes, an object what `mm asm SOURCE -o OBJECT` writes"]
        raise Refused(Status.REFUSED, [_diagnostic(name, said, hints=hints)])

    def link(self, units: Sequence[Unit]) -> Built:
        """The image of objects, with names that were compared with it."""
        answer = self.program.run(["link", *[self.keep(unit.data, ".obj") for unit in units]])
        if answer.status:
            from mm.messages.links import explain_link
            from mm.outputs.refusal import RefusalKind, read_refusal

            refusal = read_refusal(answer.line)
            if refusal and refusal.kind is RefusalKind.LINK:
                raise Refused(
                    answer.status,
                    explain_link(
                        refusal["fault"], refusal.name, [(unit.name, unit.made, unit.source) for unit in units]
                    ),
                )
            raise refused(answer, [NamedFile(unit.name, unit.data) for unit in units])
        image = read_image(answer.out)
        built = Built(units[0].name, self.keep(answer.out, ".img"), answer.out, image, units=list(units))
        give_names(built, units)
        return built

    def build(self, names: Sequence[str], others: Sequence[str] = ()) -> Built:
        """The image of files: an image as it is, or sources and objects linked. `others` are files that an image's names are taken from."""
        datas = [read_file(name) for name in names]
        refuse_nets(names, datas)
        refuse_schedules(names, datas)
        translated = self._translated(names, datas)
        named = [name + ".asm" if name.endswith(C_SUFFIX) else name for name in names]
        return self.build_of(named, translated, others)

    def build_of(self, names: Sequence[str], datas: Sequence[bytes], others: Sequence[str] = ()) -> Built:
        """The image of files that were read: no file is opened but `others`, and a source beside an image."""
        kinds = [FileKind.of(data) for data in datas]
        if FileKind.IMAGE in kinds:
            if len(names) > 1:
                image = names[kinds.index(FileKind.IMAGE)]
                raise Refused(
                    Status.USAGE,
                    [_diagnostic(image, "an image is already linked: name it alone, or name all sources and objects")],
                )
            return self._image(names[0], datas[0], others)
        if FileKind.CHECKPOINT in kinds:
            raise Refused(
                Status.USAGE,
                [
                    _diagnostic(
                        names[kinds.index(FileKind.CHECKPOINT)],
                        "this is a checkpoint: `mm continue FILE.. CHECKPOINT` goes on from it",
                    )
                ],
            )
        return self.link([self.unit(name, data) for name, data in zip(names, datas)])

    def _translated(self, names: Sequence[str], datas: list[bytes]) -> list[bytes]:
        """The files, those of C as sources: each is a program of its own, in the next slot if it has a `main`."""
        files = [name for name in names if name.endswith(C_SUFFIX)]
        if not files:
            return datas
        from mm.cc.driver import sources_of
        from mm.cc.options import Options

        made = iter(sources_of(files, self.options or Options()))
        return [next(made) if name.endswith(C_SUFFIX) else data for name, data in zip(names, datas)]

    def _image(self, name: str, data: bytes, others: Sequence[str]) -> Built:
        path = self.keep(data, ".img")
        answer = self.program.run(["run", path, "0"])
        if answer.status:
            raise refused(answer, [NamedFile(name, data)])
        built = Built(name, path, data, read_image(data))
        if others:
            give_names(built, [self.unit(other, read_file(other)) for other in others])
        else:
            self._names_beside(built)
        return built

    def _names_beside(self, built: Built) -> None:
        """The names of a source beside an image, if the image is what it links to."""
        source = os.path.splitext(built.name)[0] + ".asm"
        if not os.path.isfile(source):
            return
        try:
            made = self.link([self.unit(source, read_file(source))])
        except Stop:
            return
        if made.data == built.data:
            built.symbols, built.units, built.placed = made.symbols, made.units, made.placed


def refuse_nets(names: Sequence[str], datas: Sequence[bytes]) -> None:
    """Refuses the links and events of a net where one machine is wanted."""
    for name, data in zip(names, datas):
        if name.endswith(NET_SUFFIXES) and FileKind.of(data) is FileKind.TEXT:
            message = "this is a text for a net, but the command wants one machine"
            hints = [
                "`mm net LINKS EVENTS FILE..` runs a net, and tells what comes of each node",
                "pages, traces, waves and the debugger show one machine: give them the file of one node, which then runs without the others",
            ]
            raise Refused(Status.USAGE, [_diagnostic(name, message, hints=hints)])


def refuse_schedules(names: Sequence[str], datas: Sequence[bytes]) -> None:
    """Refuses a schedule where a program is wanted."""
    for name, data in zip(names, datas):
        if name.endswith(".schedule") and FileKind.of(data) is FileKind.TEXT:
            hint = f"give the order of turns by an option: `--schedule {name}`"
            raise Refused(Status.USAGE, [_diagnostic(name, "this is a schedule, not a program", hints=[hint])])


def give_names(built: Built, units: Sequence[Unit]) -> None:
    """Gives an image the names of its units, if it has the cells that their link makes; else says how many it has not."""
    placed = place([unit.made for unit in units])
    wrong = differences(placed, built.image)
    built.notes += [
        f"{unit.name}: its lines and labels are not shown, since they were not read as `mmachine` reads them"
        for unit in units
        if unit.misread
    ]
    built.placed, built.symbols = placed, symbols_of(placed, [unit.source for unit in units], wrong)
    if wrong:
        total = sum(len(item.segment.words) for item in placed)
        built.notes.append(
            f"names come from other files than the image: {len(wrong)} of {total} words differ, the first at {built.symbols.show(wrong[0])}"
        )


def refused(answer: Answer, files: Sequence[NamedFile]) -> Refused:
    """A refusal of `mmachine` in words."""
    from mm.messages.files import explain_files
    from mm.outputs.refusal import read_refusal

    refusal = read_refusal(answer.line)
    if answer.status < 0:
        said = f"it was ended by signal {-answer.status}"
        return Refused(SIGNALLED - answer.status, [_diagnostic("mmachine", said)])
    if refusal is None:
        return Refused(answer.status, [_diagnostic("mmachine", answer.line or f"ended with status {answer.status}")])
    return Refused(answer.status, [explain_files(refusal, files)])
