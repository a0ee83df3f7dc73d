"""Names of addresses, and addresses of names."""

from __future__ import annotations

import bisect
from collections import Counter
from typing import TYPE_CHECKING, Optional, Sequence

from mm.formats.object import Object, Segment
from mm.machine.isa import OPERATIONS
from mm.machine.words import Permission, Pointer
from mm.names.layout import Placed
from mm.names.numbers import hexadecimal
from mm.records import dataclass
from mm.source.text import SourceSegment, SourceText
from mm.source.tokens import readable

if TYPE_CHECKING:
    from mm.names.clines import CFunction, CLine, CNotes, CObject


@dataclass(frozen=True)
class Origin:
    """A line of a source."""

    path: str
    line: int
    text: str

    @property
    def code(self) -> str:
        """The line without its comment."""
        return readable(self.text.split(";")[0].strip())

    def __str__(self) -> str:
        return f"{self.path}:{self.line}"


@dataclass(frozen=True)
class Symbol:
    """A segment or a label: its name, its first address, how many bytes its name covers, and the line where it stands."""

    name: str
    address: int
    length: int
    segment: bool
    origin: Optional[Origin]


@dataclass(frozen=True)
class Region:
    """A placed segment, with its words and the text that it comes from, if there is one. `differ` are the addresses of words that
    the image has otherwise: no line made these."""

    name: str
    base: int
    log: int
    words: int
    source: Optional[SourceText]
    index: int
    differ: frozenset[int] = frozenset()

    @property
    def end(self) -> int:
        return self.base + (1 << self.log)

    def line_of(self, address: int) -> Optional[int]:
        """The line that made the word at an address."""
        if self.source is None or address & ~7 in self.differ:
            return None
        run = self.source.segments[self.index].run_at((address - self.base) // 8)
        return run.line if run else None


def fits(source: SourceText, made: Object) -> bool:
    """Whether what was read of a source is what `mmachine` made of it: the segments, their words, and which of these are pointers."""
    if [(item.name, item.log, item.words) for item in source.segments] != [
        (item.name, item.log, len(item.words)) for item in made.segments
    ]:
        return False
    return all(_same_words(read, segment) for read, segment in zip(source.segments, made.segments))


def _same_words(read: SourceSegment, segment: Segment) -> bool:
    for run in read.runs:
        operation = OPERATIONS.get(run.head)
        if operation and segment.words[run.place] >> 56 != operation.number:
            return False
        if (run.head == ".ptr") != (run.place in segment.relocations):
            return False
    return True


class Symbols:
    """The names of an image. Without names every address is written as a number."""

    def __init__(self, regions: Sequence[Region] = ()) -> None:
        self.regions = sorted(regions, key=lambda region: region.base)
        self.bases = [region.base for region in self.regions]
        self.symbols: list[Symbol] = []
        for region in self.regions:
            self.symbols += _symbols_of(region)
        self.symbols.sort(key=lambda symbol: (symbol.address, not symbol.segment))
        labels = [symbol for symbol in self.symbols if not symbol.segment]
        self.label_places = [symbol.address for symbol in labels]
        self.label_names = self._label_names(labels)

    def _label_names(self, labels: Sequence[Symbol]) -> list[str]:
        """The names of labels, with their segments where several have the same, or a segment has it."""
        counts = Counter([*(label.name for label in labels), *(region.name for region in self.regions)])
        regions = [self.region(label.address) for label in labels]
        return [
            f"{region.name}.{label.name}" if region and counts[label.name] > 1 else label.name
            for label, region in zip(labels, regions)
        ]

    def __bool__(self) -> bool:
        return bool(self.regions)

    def region(self, address: int) -> Optional[Region]:
        """The segment that an address is in."""
        at = bisect.bisect_right(self.bases, address) - 1
        return self.regions[at] if at >= 0 and address < self.regions[at].end else None

    def name(self, address: int) -> Optional[str]:
        """The name of an address: a label that stands there, else the nearest one before it that is not its segment's beginning, or the
        segment, and how many bytes it is on."""
        region = self.region(address)
        if region is None:
            return None
        at = bisect.bisect_right(self.label_places, address) - 1
        labelled = at >= 0 and self.label_places[at] > region.base
        start, name = (self.label_places[at], self.label_names[at]) if labelled else (region.base, region.name)
        return name if start == address else f"{name}+{address - start}"

    def show(self, address: int) -> str:
        """The name of an address, or the number if it has none."""
        return self.name(address) or hexadecimal(address)

    def origin(self, address: int) -> Optional[Origin]:
        """The line that made the word at an address."""
        region = self.region(address)
        line = region.line_of(address) if region else None
        return Origin(region.source.path, line, region.source.line(line)) if region and region.source and line else None

    def c_line(self, address: int) -> Optional[CLine]:
        """The line of C that the word at an address comes from."""
        found = self.c_notes(address)
        return found[0].line_at(found[1]) if found else None

    def c_body(self, address: int) -> Optional[int]:
        """The first address of a function of C that is of one of its lines, after what makes its frame. `address` is
        that of the function."""
        found, region = self.c_notes(address), self.region(address)
        function = found[0].function_at(found[1]) if found else None
        if found is None or region is None or function is None or not function.begins:
            return None
        first = next((at for at in range(address, region.base + 8 * region.words, 8) if self.c_line(at)), None)
        return first if first is not None and self.c_function(first) is function else None

    def c_function(self, address: int) -> Optional[CFunction]:
        """The function of C, or of its library, that an address is in."""
        found = self.c_notes(address)
        return found[0].function_at(found[1]) if found else None

    def c_notes(self, address: int) -> Optional[tuple[CNotes, int]]:
        """The comments of the translator of C in the source that an address is of, and the line there."""
        region = self.region(address)
        line = region.line_of(address) if region else None
        notes = region.source.notes if region and region.source else None
        return (notes, line) if notes is not None and line is not None else None

    def c_global(self, region: Region) -> Optional[CObject]:
        """The global that a segment is."""
        return region.source.notes.globals.get(region.name) if region.source and region.source.notes else None

    def c_named(self, region: Region) -> Optional[CObject]:
        """The global that a segment is, if a program can name it."""
        notes = region.source.notes if region.source else None
        return self.c_global(region) if notes and region.name not in notes.first_values else None

    def c_region(self, name: str, notes: CNotes) -> Optional[Region]:
        """The segment of a global by its name in a source; another source may have one of the same name."""
        named = (region for region in self.regions if region.name == name and region.source)
        return next((region for region in named if region.source and region.source.notes is notes), None)

    def c_pointer(self, name: str, notes: CNotes) -> Optional[Pointer]:
        """The pointer to the object of a segment: of a global, or of one that has no name in C."""
        region, made = self.c_region(name, notes), notes.globals.get(name)
        if region is None:
            return None
        permission = Permission.RO if name in notes.constant else Permission.RW
        return Pointer(permission, region.log, region.base + (made.at if made else notes.unnamed.get(name, 0)))

    def all_notes(self) -> list[CNotes]:
        """The comments of the translator of C in all sources."""
        notes = {id(region.source.notes): region.source.notes for region in self.regions
                 if region.source and region.source.notes}
        return list(notes.values())

    def c_files(self) -> dict[str, CLine]:
        """The files of C that code comes from, each with one of its lines."""
        return {line.path: line for each in self.all_notes() for line in each.lines if line is not None}

    def c_paths(self) -> list[str]:
        return sorted(self.c_files())

    def source_lines(self, path: str) -> tuple[str, list[str]]:
        """The whole name and the lines of a source, or of a file of C, of which the end of the name may be said; no lines
        if it is none, may be several, or cannot be read."""
        sources = {region.source.path: region.source for region in self.regions if region.source}
        of_c = self.c_files()
        known = [*sources, *of_c]
        meant = [path] if path in known else [each for each in known if each.endswith("/" + path)]
        if len(meant) != 1:
            return path, []
        whole = meant[0]
        return whole, of_c[whole].file if whole in of_c else [readable(line) for line in sources[whole].lines]

    def place_of_c_line(self, path: str, line: int) -> Optional[int]:
        """The address of the first word of a line of C, or of the next one that has code."""
        for region in self.regions:
            notes = region.source.notes if region.source else None
            first = notes.first_of(path, line) if notes else None
            if region.source and first is not None:
                found = self.place_of_line(region.source.path, first)
                if found is not None:
                    return found
        return None

    def places_of_inlined(self, name: str) -> list[int]:
        """The addresses where a function of C begins that was put into others."""
        sources = {region.source.path: region.source.notes for region in self.regions if region.source}
        found = [self.place_of_line(path, line) for path, notes in sources.items() if notes
                 for line in notes.inlined_at(name)]
        return sorted(place for place in found if place is not None)

    def named(self, name: str) -> list[Symbol]:
        """All that has a name. `SEGMENT.NAME` says which of several labels is meant."""
        outer, dot, inner = name.partition(".")
        if dot:
            region = next((region for region in self.regions if region.name == outer), None)
            return [symbol for symbol in self.named(inner) if region and region.base <= symbol.address < region.end]
        found = [symbol for symbol in self.symbols if symbol.name == name]
        return found or [symbol for symbol in self.symbols if symbol.name in self._labels_of_c(name)]

    def _labels_of_c(self, name: str) -> set[str]:
        """The labels of functions, and the segments of globals, that have a name in C alone."""
        notes = self.all_notes()
        labels = {made.label for each in notes for made in each.functions if made.name == name and made.begins}
        return labels | {segment for each in notes for segment, made in each.globals.items()
                         if made.name == name and segment not in each.first_values}

    def place_of_line(self, path: str, line: int) -> Optional[int]:
        """The address of the first word that a line of a source makes, or the next line that makes one."""
        found = []
        for region in self.regions:
            if region.source and region.source.path == path:
                runs = [run for run in region.source.segments[region.index].runs if run.line >= line]
                found += [(run.line, region.base + 8 * run.place) for run in runs[:1]]
        return min(found)[1] if found else None


def _symbols_of(region: Region) -> list[Symbol]:
    """A segment and its labels, each as long as up to the next."""
    source = region.source
    origin = None
    if source:
        line = source.segments[region.index].line
        origin = Origin(source.path, line, source.line(line))
    found = [Symbol(region.name, region.base, 1 << region.log, True, origin)]
    if source is None:
        return found
    labels = sorted(
        (label.place, label.line, label) for label in source.labels.values() if label.segment == region.index
    )
    ends = [place for place, _, _ in labels[1:]] + [max(region.words, labels[-1][0] + 1 if labels else 0)]
    for (place, line, label), end in zip(labels, ends):
        address = region.base + 8 * place
        if address < region.end:
            found.append(
                Symbol(
                    label.name, address, max(8, 8 * (end - place)), False, Origin(source.path, line, source.line(line))
                )
            )
    return found


def symbols_of(
    placed: Sequence[Placed], sources: Sequence[Optional[SourceText]], differ: Sequence[int] = ()
) -> Symbols:
    """The names of placed segments; of each unit its source, if there is one that fits, and where the image differs from it."""
    wrong = frozenset(differ)
    return Symbols([_region(item, sources[item.unit], wrong) for item in placed])


def _region(item: Placed, source: Optional[SourceText], differ: frozenset[int]) -> Region:
    segment = item.segment
    return Region(segment.name, item.base, segment.log, len(segment.words), source, item.index, differ)
