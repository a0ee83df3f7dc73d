"""The files of an answer, read once and safely, and the answers of a folder of students."""

from __future__ import annotations

import errno
import os
import stat
from collections import Counter
from dataclasses import dataclass, field
from typing import Sequence

from mm.formats.kinds import FileKind
from mm.grading.sheet import Sheet
from mm.status import Status, Stop

MOST_BYTES = 4 << 20
SUFFIXES = {"asm": ".asm", "c": ".c", "object": ".obj", "image": ".img"}
TITLES = {"asm": "a source in assembly language", "c": "a source in C", "object": "an object", "image": "an image"}


class Refusal(Exception):
    """An answer that is not looked at, with the reason, and the status of a command that had asked about it alone."""

    def __init__(self, why: str, status: int = Status.REFUSED) -> None:
        super().__init__(why)
        self.status = status


@dataclass
class Answer:
    """An answer: whose it is, its files with their bytes, or why it is not looked at."""

    name: str
    files: list[tuple[str, bytes]] = field(default_factory=list)
    refused: str = ""


def read_answer(name: str) -> bytes:
    """The bytes of a file of an answer. A link may lead anywhere, and to read a pipe or a device might never end."""
    flags = os.O_RDONLY | os.O_NOFOLLOW | os.O_NONBLOCK | os.O_CLOEXEC
    try:
        handle = os.open(name, flags)
    except OSError as error:
        if error.errno == errno.ELOOP:
            raise Refusal("this is a link: an answer is a file itself") from None
        if error.errno == errno.ENXIO:
            raise Refusal("this is a pipe or a device, not a file") from None
        raise Refusal(f"cannot be read: {error.strerror}", Status.READ_FAULT) from None
    with os.fdopen(handle, "rb") as file:
        mode = os.fstat(handle).st_mode
        if stat.S_ISDIR(mode):
            raise Refusal("cannot be read: Is a directory", Status.READ_FAULT)
        if not stat.S_ISREG(mode):
            raise Refusal("this is a pipe or a device, not a file")
        data = file.read(MOST_BYTES + 1)
    if len(data) > MOST_BYTES:
        raise Refusal(f"this is too long: an answer has at most {MOST_BYTES} bytes")
    return data


def kind_of(name: str, data: bytes) -> str:
    """What a file of an answer is, as a sheet calls it."""
    kind = FileKind.of(data)
    if kind is FileKind.TEXT:
        return "c" if name.endswith(".c") else "asm"
    return {FileKind.OBJECT: "object", FileKind.IMAGE: "image"}.get(kind, "a checkpoint")


def refuse_kind(sheet: Sheet, name: str, data: bytes) -> None:
    """Refuses a file that is not of a kind for which the sheet asks."""
    kind = kind_of(name, data)
    if kind not in sheet.takes:
        wanted = " or ".join(TITLES[each] for each in sheet.takes)
        raise Refusal(f"this is {TITLES.get(kind, kind)}, but the exercise asks for {wanted}")


def one_answer(sheet: Sheet, names: Sequence[str]) -> Answer:
    """The answer that files make. The first that is refused is told as a message tells of a file."""
    answer = Answer(names[0])
    for name in names:
        try:
            data = read_answer(name)
            refuse_kind(sheet, name, data)
        except Refusal as why:
            raise Stop(why.status, f"{name}: error: {why}") from None
        answer.files.append((name, data))
    return answer


def answers_in(sheet: Sheet, folder: str) -> list[Answer]:
    """The answers of a folder: one of each folder in it, named for the student, and one of each file."""
    try:
        with os.scandir(folder) as found:
            entries = sorted((entry for entry in found if not entry.name.startswith(".")), key=lambda one: one.name)
    except OSError as error:
        raise Stop(Status.READ_FAULT, f"mm: {folder}: cannot be read: {error.strerror}") from None
    stems = Counter(_stem(entry) for entry in entries)
    answers = [
        _answer_of(sheet, folder, entry, _stem(entry) if stems[_stem(entry)] == 1 else entry.name) for entry in entries
    ]
    if not answers:
        why = f"there is nothing to grade in {folder}: put a folder or a file for each student there"
        raise Stop(Status.USAGE, f"mm: {why}")
    return answers


def _stem(entry: os.DirEntry[str]) -> str:
    """The name of a student by an entry of a folder."""
    return entry.name if entry.is_dir(follow_symlinks=False) else os.path.splitext(entry.name)[0]


def _answer_of(sheet: Sheet, folder: str, entry: os.DirEntry[str], name: str) -> Answer:
    """The answer of an entry of a folder. Its files are named without the folders that lead to them."""
    is_folder = entry.is_dir(follow_symlinks=False)
    answer = Answer(name)
    path = os.path.join(folder, entry.name)
    try:
        if entry.is_symlink():
            raise Refusal("this is a link: an answer is a file or a folder itself")
        place, names = (path, _names_in(sheet, path)) if is_folder else (folder, [entry.name])
        for each in names:
            data = read_answer(os.path.join(place, each))
            refuse_kind(sheet, each, data)
            answer.files.append((each, data))
    except Refusal as why:
        answer.files, answer.refused = [], str(why)
    return answer


def _names_in(sheet: Sheet, folder: str) -> list[str]:
    """The file of a student's folder that is the answer."""
    try:
        there = sorted(name for name in os.listdir(folder) if not name.startswith("."))
    except OSError as error:
        raise Refusal(f"cannot be read: {error.strerror}") from None
    if sheet.file is not None:
        if sheet.file not in there:
            raise Refusal(f"there is no file {sheet.file}")
        return [sheet.file]
    found = [name for name in there if name.endswith(tuple(SUFFIXES[kind] for kind in sheet.takes))]
    if len(found) != 1:
        wanted = " or ".join(SUFFIXES[kind] for kind in sheet.takes)
        if not found:
            raise Refusal(f"there is no file with the suffix {wanted}")
        raise Refusal(f"there are {len(found)} files with the suffix {wanted}: hand in one source")
    return found
