"""Objects: what an assembler makes and a linker takes."""

from __future__ import annotations

from typing import Optional

from mm.formats.bytesreader import BytesReader, bit_of
from mm.machine.words import Permission
from mm.records import dataclass


@dataclass(frozen=True)
class Target:
    """A place that a pointer will lead to: the name of a segment, and how far from its beginning."""

    name: str
    addend: int


@dataclass(frozen=True)
class Relocation:
    """A word that becomes a pointer."""

    permission: Permission
    target: Target


@dataclass(frozen=True)
class Segment:
    """Words that are placed together. Those that are relocated are 0 here."""

    name: str
    log: int
    words: tuple[int, ...]
    full: tuple[bool, ...]
    relocations: dict[int, Relocation]


@dataclass(frozen=True)
class Thread:
    """A thread: its slot and group, the slot of its handler, and where it begins."""

    slot: int
    group: int
    handler: Optional[int]
    permission: Permission
    target: Target


@dataclass(frozen=True)
class Object:
    """Segments, threads, and how many frames are to be left free."""

    segments: tuple[Segment, ...]
    externals: tuple[str, ...]
    threads: tuple[Thread, ...]
    spare: int


def _segment(reader: BytesReader) -> tuple[str, int, tuple[int, ...], tuple[bool, ...]]:
    name, log, count = reader.name(), reader.number(1), reader.number(4)
    bitmap = reader.take((count + 7) // 8)
    words = reader.take(8 * count)
    return (
        name,
        log,
        tuple(int.from_bytes(words[at : at + 8], "big") for at in range(0, len(words), 8)),
        tuple(bit_of(bitmap, at) for at in range(count)),
    )


def _target(reader: BytesReader, names: list[str]) -> Target:
    return Target(names[reader.number(2)], reader.number(4))


def _thread(reader: BytesReader, names: list[str]) -> Thread:
    slot, group, handler, permission = (reader.number(1) for _ in range(4))
    target = _target(reader, names)
    reader.take(2 + 16 * 8)
    return Thread(slot, group, None if handler == 255 else handler, _permission(permission), target)


def _permission(code: int) -> Permission:
    found = Permission.of_code(code)
    if found is None:
        raise ValueError("a permission is not one")
    return found


def read_object(data: bytes) -> Object:
    """The object that bytes spell, which `mmachine` has made or accepted."""
    reader = BytesReader(data)
    if reader.take(4) != b"MMO1":
        raise ValueError("this is not an object")
    _, segments, externals, relocations, threads, spare = (reader.number(2) for _ in range(6))
    raw = [_segment(reader) for _ in range(segments)]
    others = tuple(reader.name() for _ in range(externals))
    names = [segment[0] for segment in raw] + list(others)
    moved: dict[int, dict[int, Relocation]] = {place: {} for place in range(segments)}
    for _ in range(relocations):
        place, index, permission = reader.number(2), reader.number(4), _permission(reader.number(1))
        moved[place][index] = Relocation(permission, _target(reader, names))
    found = tuple(Segment(*segment, moved[place]) for place, segment in enumerate(raw))
    return Object(found, others, tuple(_thread(reader, names) for _ in range(threads)), spare)


MOST_WORDS = 131_072


def object_of_words(words: list[int]) -> bytes:
    """An object of one segment that holds words, at most `MOST_WORDS` of them, so that `mmachine dis` can be asked what they are."""
    count, log = len(words), max(3, (8 * len(words) - 1).bit_length())
    bitmap = bytearray(b"\xff" * (count // 8))
    if count % 8:
        bitmap.append((1 << count % 8) - 1)
    header = b"MMO1" + b"".join(number.to_bytes(2, "big") for number in (1, 1, 0, 0, 0, 0))
    segment = b"\1a" + bytes([log]) + count.to_bytes(4, "big") + bytes(bitmap)
    return header + segment + b"".join(word.to_bytes(8, "big") for word in words)
