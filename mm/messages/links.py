"""Link faults in words, with the lines of the sources that have them."""

from __future__ import annotations

from typing import Callable, Iterator, Optional, Sequence

from mm.formats.object import Object
from mm.messages.diagnostic import Diagnostic
from mm.names.expressions import nearest
from mm.source.text import SourceText, Use

Unit = tuple[str, Object, Optional[SourceText]]
TWICE, UNDEFINED, OFFSET, SLOT_TWICE, NO_THREAD, HANDLER, TOO_LARGE = range(1, 8)


class Link:
    """The objects of a link, with their names and, where they have some, their sources."""

    def __init__(self, units: Sequence[Unit]) -> None:
        self.units = units

    @property
    def sources(self) -> list[SourceText]:
        return [source for _, _, source in self.units if source]

    def uses(self, name: str) -> Iterator[tuple[SourceText, Use]]:
        """Where sources use a name that is none of their own."""
        for source in self.sources:
            if name not in source.names:
                yield from ((source, use) for use in source.uses if use.name == name)

    def at(self, source: Optional[SourceText], line: int, column: int, message: str, hints: list[str]) -> Diagnostic:
        return (
            Diagnostic(source.path, message, line, column, source.line(line), hints)
            if source
            else self.whole(message, hints)
        )

    def whole(self, message: str, hints: list[str]) -> Diagnostic:
        return Diagnostic(self.units[0][0] if len(self.units) == 1 else "link", message, hints=hints)


def _twice(link: Link, name: str) -> list[Diagnostic]:
    places = [(source, segment) for source in link.sources for segment in source.segments if segment.name == name]
    message = f"two segments have the name `{name}`"
    if len(places) > 1:
        source, segment = places[1]
        if source.path == places[0][0].path:
            hint = "give each file once; for a second thread write a second `.thread`"
            return [link.whole(f"{source.path} is given twice", [hint])]
        first = f"the other is in {places[0][0].path}, line {places[0][1].line}"
        return [link.at(source, segment.line, segment.column, message, [first + "; rename one of them"])]
    owners = [unit for unit, made, _ in link.units if any(segment.name == name for segment in made.segments)]
    return [link.whole(message, [f"they are in {' and '.join(owners)}; rename one of them, or give each file once"])]


def _undefined_hint(link: Link, name: str) -> str:
    for source in link.sources:
        label = source.labels.get(name)
        if label:
            segment = source.segments[label.segment].name
            offset = f" + {8 * label.place}" if label.place else ""
            return f"`{name}` is a label of {source.path}, and labels are known only in their own source: write `{segment}{offset}`"
    near = nearest(name, [known for source in link.sources for known in source.names])
    return (
        f"do you mean `{near}`?"
        if near
        else f"write a `.segment {name} L` or a label `{name}:`, or give the source that has the segment"
    )


def _undefined(link: Link, name: str) -> list[Diagnostic]:
    """Each undefined name, in the order of the files and of their lines."""
    known = {segment.name for _, made, _ in link.units for segment in made.segments}
    names = [name] + [
        other for _, made, _ in link.units for other in made.externals if other not in known and other != name
    ]
    found = []
    for missing in dict.fromkeys(names):
        message, hint = f"`{missing}` is neither a label here nor a segment of any file", _undefined_hint(link, missing)
        places = [link.at(source, use.line, use.column, message, [hint]) for source, use in link.uses(missing)]
        found += places[:1] or [link.whole(message, [hint])]
    paths = [source.path for source in link.sources]
    return sorted(found, key=lambda one: (paths.index(one.path) if one.line else len(paths), one.line or 0))


def _offset(link: Link, name: str) -> list[Diagnostic]:
    log = next(segment.log for _, made, _ in link.units for segment in made.segments if segment.name == name)
    message = f"this leads to the end of the segment `{name}` or past it"
    hints = [f"`{name}` has 2^{log} bytes, so an offset is below {1 << log}"]
    places = [
        link.at(source, use.line, use.column, message, hints)
        for source, use in link.uses(name)
        if use.addend >= 1 << log
    ]
    return places or [link.whole(f"a pointer to `{name}` leads to its end or past it", hints)]


def _slot_twice(link: Link, name: str) -> list[Diagnostic]:
    places = [(source, thread) for source in link.sources for thread in source.threads if thread.slot == int(name)]
    message, hints = f"two threads have slot {name}", ["a slot has one thread: give this one another slot"]
    return [
        link.at(places[-1][0], places[-1][1].line, places[-1][1].column, message, hints)
        if places
        else link.whole(message, hints)
    ]


def _no_thread(link: Link, _: str) -> list[Diagnostic]:
    first = next((segment.name for _, made, _ in link.units for segment in made.segments), None)
    if first is None:
        hint = "begin with a segment and a thread: `mm help sources` shows a whole source"
        return [link.whole("there is nothing in it that could run", [hint])]
    return [
        link.whole(
            "there is no thread, so nothing would run",
            [f"say where one begins: `.thread 0 0 none xu {first}` (slot, group, handler, permission, name)"],
        )
    ]


def _handler(link: Link, name: str) -> list[Diagnostic]:
    places = [(source, thread) for source in link.sources for thread in source.threads if thread.slot == int(name)]
    waits = places[0][1].handler if places else None
    message = (
        f"the thread in slot {name} has a handler in slot {waits}, and no thread is there"
        if waits is not None
        else f"the handler of slot {name} is not a thread"
    )
    hints = ["write a thread for that slot, or `none` for no handler"]
    return [
        link.at(places[0][0], places[0][1].line, places[0][1].column, message, hints)
        if places
        else link.whole(message, hints)
    ]


def _too_large(link: Link, _: str) -> list[Diagnostic]:
    used = sum(1 << segment.log for _, made, _ in link.units for segment in made.segments)
    spare = sum(made.spare for _, made, _ in link.units)
    hints = [
        f"segments take {(used + 4095) // 4096} pages of 4096 bytes by their lengths, and {spare} frames are spare: make long segments shorter"
    ]
    return [link.whole("the segments and spare frames are more than the 256 frames of a machine", hints)]


FAULTS: dict[int, Callable[[Link, str], list[Diagnostic]]] = {
    TWICE: _twice,
    UNDEFINED: _undefined,
    OFFSET: _offset,
    SLOT_TWICE: _slot_twice,
    NO_THREAD: _no_thread,
    HANDLER: _handler,
    TOO_LARGE: _too_large,
}


def explain_link(fault: int, name: str, units: Sequence[Unit]) -> list[Diagnostic]:
    """A link fault in words, at each place that has it."""
    link = Link(units)
    return FAULTS[fault](link, name) if fault in FAULTS else [link.whole(f"link fault {fault} {name}", [])]
