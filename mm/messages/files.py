"""Refusals of files and groups in words: images, objects, checkpoints, schedules, links and events."""

from __future__ import annotations

from typing import Callable, Optional, Sequence

from mm.formats.kinds import FileKind
from mm.formats.schedule import words_of
from mm.limits import IMAGE_LIMIT, INPUT_LIMIT, LINKS_LIMIT, OBJECT_LIMIT, TEXT_LIMIT
from mm.messages.diagnostic import Diagnostic
from mm.named import NamedFile
from mm.names.numbers import counted
from mm.outputs.refusal import Refusal, RefusalKind
from mm.source.tokens import readable

IMAGE_FAULTS = {
    1: ("the file ends within a field", "it was cut, or has not been written to its end: make it again"),
    2: ("this is not an image", "an image is what `mm link` writes; sources and objects can be given to `mm` as they are"),
    3: ("the version is neither 1 nor 2", "the image is of another program, or spoiled"),
    4: (
        "the number of slots or the mode is out of range",
        "version 1 has 1 to 16 slots and mode 0, version 2 has 1 to 64 slots and mode 0 or 1",
    ),
    5: (
        "a slot's number is out of range or not above the one before",
        "slots ascend, each number once, up to 15 (version 2: 63)",
    ),
    6: ("a group is out of range", "groups are 0 to 15 (version 2: 63)"),
    7: ("a handler is not another slot of the image", "a handler is 255 for none, or the number of another slot"),
    8: ("a slot's state is neither running (0) nor halted (1)", ""),
    9: (
        "a word is marked as a pointer and spells none",
        "its permission is not 1 to 7, or the logarithm of its length is above 54",
    ),
    10: ("an instruction pointer does not execute", "it is execute-user or execute-privileged"),
    11: (
        "a page's number is out of range or not above the one before",
        "a page's number is its address divided by 4096",
    ),
    12: (
        "the number of frames is out of range, or there are more pages than frames",
        "version 1 has 1 to 256 frames, version 2 up to 4096",
    ),
    13: ("the file goes on after the last page", ""),
}
OBJECT_FAULTS = {
    1: ("the file ends within a field", "it was cut, or has not been written to its end: make it again"),
    2: ("this is not an object", "an object is what `mm asm` writes"),
    3: ("the version is not 1", "the object is of another program, or spoiled"),
    4: ("a number of the header is out of its range", ""),
    5: ("a name is bad, repeated, out of its order or unused", ""),
    6: ("a segment's length or its words are not as they must be", ""),
    7: ("a word that is to become a pointer is not as it must be", ""),
    8: ("a thread is not as it must be", ""),
    9: ("the file goes on after the last thread", ""),
}
SCHEDULE_HINT = "an item is a slot's number, 0 to 255, or `N*K` for K of them, without a sign, a leading zero or a blank inside; `#` begins a comment; at most 1000000 items"
LINKS_HINT = "an item is `A.X>B.Y`: from the word X of node A to the word Y of node B; nodes are 0 to 7, X and Y addresses or names; no word is the end of two links; at most 64 links"
EVENTS_HINT = (
    "an item is `N:S` or `N:S*K` (turns of slot S of node N), `+L` (link L takes) or `L@K` (link L carries packet K)"
)


def _image(file: NamedFile, refusal: Refusal) -> Diagnostic:
    said, hint = IMAGE_FAULTS.get(refusal["fault"], (f"image fault {refusal['fault']}", ""))
    return _binary(file, refusal, said, hint, FileKind.IMAGE)


def _object(file: NamedFile, refusal: Refusal) -> Diagnostic:
    said, hint = OBJECT_FAULTS.get(refusal["fault"], (f"object fault {refusal['fault']}", ""))
    return _binary(file, refusal, said, hint, FileKind.OBJECT)


def _checkpoint(file: NamedFile, refusal: Refusal) -> Diagnostic:
    said = "this is not a checkpoint of the image"
    return _binary(
        file,
        refusal,
        said,
        "give the image of which it was saved: slots, groups, handlers, version and frames come from there",
        FileKind.CHECKPOINT,
    )


def _binary(file: NamedFile, refusal: Refusal, said: str, hint: str, wanted: FileKind) -> Diagnostic:
    kind = FileKind.of(file.data)
    hints = [hint] if hint else []
    if kind is not wanted:
        hints.insert(0, f"it is {kind.title if file.data else 'an empty file'}, but the command wants {wanted.title}")
    return Diagnostic(file.name, f"{said} (at byte {refusal['offset']} of {len(file.data)})", hints=hints)


def _place(data: bytes, offset: int) -> tuple[int, int, str]:
    """The line, the column and the text of the line at an offset."""
    begin = data.rfind(b"\n", 0, offset) + 1
    end = data.find(b"\n", offset)
    return (
        data.count(b"\n", 0, offset) + 1,
        offset - begin + 1,
        data[begin : end if end >= 0 else len(data)].decode("latin-1"),
    )


def _text(file: NamedFile, refusal: Refusal, what: str, hint: str) -> Diagnostic:
    offset = file.moved.get(refusal["offset"], refusal["offset"])
    line, column, text = _place(file.data, offset)
    word = next((word for at, word in words_of(file.data) if at == offset), b"").decode("latin-1")
    return Diagnostic(
        file.name,
        f"`{readable(word)[:40]}` is not an item of {what}, or one too many",
        line,
        column,
        text,
        [_better_item(word) or hint],
    )


def _better_item(word: str) -> Optional[str]:
    """What may have been meant by an item of a schedule."""
    if "," in word:
        return "items have blanks between, and no commas"
    if word.lstrip("0").isdigit() and word.startswith("0"):
        return f"numbers have no leading zero: {word.lstrip('0') or '0'}"
    if word.lower().startswith(("s", "t")) and word[1:].isdigit():
        return f"write only the number of a slot: {word[1:]}"
    return "after `*` stands how many turns: 1 or more" if word.endswith("*0") else None


def _schedule(file: NamedFile, refusal: Refusal) -> Diagnostic:
    return (
        _text(file, refusal, "events", EVENTS_HINT)
        if file.events
        else _text(file, refusal, "a schedule", SCHEDULE_HINT)
    )


def _links(file: NamedFile, refusal: Refusal) -> Diagnostic:
    return _text(file, refusal, "links", LINKS_HINT)


def _too_long(file: NamedFile, _: Refusal) -> Diagnostic:
    kind = FileKind.of(file.data)
    limits = f"images and checkpoints have at most {IMAGE_LIMIT} bytes, objects {OBJECT_LIMIT}, sources, schedules and events {TEXT_LIMIT}, links {LINKS_LIMIT}, the lines of `debug` {INPUT_LIMIT}"
    return Diagnostic(file.name, f"{kind.title} of {counted(len(file.data), 'byte')} is too long", hints=[limits])


OF_FILES: dict[RefusalKind, Callable[[NamedFile, Refusal], Diagnostic]] = {
    RefusalKind.IMAGE: _image,
    RefusalKind.OBJECT: _object,
    RefusalKind.CHECKPOINT: _checkpoint,
    RefusalKind.SCHEDULE: _schedule,
    RefusalKind.LINKS: _links,
    RefusalKind.TOO_LONG: _too_long,
}


def _of_command(refusal: Refusal, file: Optional[NamedFile]) -> Diagnostic:
    kind, subject = refusal.kind, file.of_slot(refusal.numbers.get("slot")) if file else "mmachine"
    if kind is RefusalKind.NO_GROUP:
        return Diagnostic(subject, "no slot is of one of these groups", hints=["`mm audit` lists the groups"])
    if kind is RefusalKind.CROSSES:
        slot = refusal["slot"]
        return Diagnostic(
            subject,
            f"slot {slot} has its handler in a group that was not named",
            hints=["a slot cannot run without its handler: name the handler's group too"],
        )
    if kind is RefusalKind.HELD:
        return Diagnostic(
            subject,
            f"slot {refusal['slot']} runs by a pointer into the range, and an instruction pointer cannot be cleared",
            hints=["extract the other groups, or let the slot run elsewhere"],
        )
    if kind is RefusalKind.PRIVILEGED:
        said = f"group {refusal['group']} is privileged, and could make again what is swept"
        return Diagnostic(
            subject, said, hints=["make the image without execute-privileged and enter-privileged pointers"]
        )
    if kind is RefusalKind.NO_NODE:
        return Diagnostic(
            subject,
            f"link {refusal['link']} names a node that is not there",
            hints=["give as many images as there are nodes; nodes are numbered from 0"],
        )
    return Diagnostic(subject, _REST.get(kind, kind.name.lower()))


_REST = {
    RefusalKind.USAGE: "a number or a word of the command is out of its range",
    RefusalKind.READ_FAULT: "a file could not be read",
    RefusalKind.WRITE_FAULT: "the output could not be written",
    RefusalKind.NO_MEMORY: "memory ran out",
}


def explain_files(refusal: Refusal, files: Sequence[NamedFile]) -> Diagnostic:
    """A refusal of a file, of groups or of a range, in words. Files are numbered from 1."""
    told = OF_FILES.get(refusal.kind)
    number = refusal.numbers.get("file", 1)
    if told and 0 < number <= len(files):
        return told(files[number - 1], refusal)
    return _of_command(refusal, files[0] if files else None)
