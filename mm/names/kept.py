"""The segments that a kernel keeps, as people name them: `gate`, `gate_*`, `0x100100/3`."""

from __future__ import annotations

from fnmatch import fnmatchcase
from typing import Optional, Sequence

from mm.machine.words import LONGEST, bytes_in_words
from mm.names.expressions import NoAddress, address_of, nearest
from mm.names.numbers import number_of
from mm.names.symbols import Region, Symbols
from mm.status import Stop, usage

# The base of a segment, and the logarithm of its length.
Segment = tuple[int, int]
MOST_SEGMENTS, SHORTEST = 64, 3
WILD = "*?["
HOW = "    `mm help keeps` says how segments are named"


def word_of(segments: Sequence[Segment]) -> str:
    """Segments as `mmachine` takes them. If they are too many, halves of one segment are joined."""
    given = segments if len(segments) <= MOST_SEGMENTS else _joined(segments)
    if len(given) > MOST_SEGMENTS:
        raise usage(f"mm: keeps: these are {len(given)} segments, and it takes at most {MOST_SEGMENTS}", HOW)
    return ",".join(f"{base}/{log}" for base, log in given)


def kept_of(words: Sequence[str], symbols: Symbols) -> list[Segment]:
    """The segments that words name, ascending, none of them in another."""
    return _outermost([segment for word in words for item in word.split(",") for segment in _segments(item, symbols)])


def _segments(item: str, symbols: Symbols) -> list[Segment]:
    """The segments that one name stands for."""
    if "/" in item:
        return [_range(item, symbols)]
    if any(letter in item for letter in WILD):
        found = [region for region in symbols.regions if fnmatchcase(region.name, item)]
        if not found:
            raise _unknown(f"no segment has a name such as `{item}`", item.strip("*"), symbols)
        return [(region.base, region.log) for region in found]
    region = _region(item, symbols)
    return [(region.base, region.log)]


def _region(name: str, symbols: Symbols) -> Region:
    """The segment of a name, which may be that of a global of C."""
    named = [region for region in symbols.regions if region.name == name]
    labels = [symbol for symbol in symbols.named(name) if not symbol.segment]
    of_c = [symbols.region(symbol.address) for symbol in symbols.named(name) if symbol.segment]
    found = named or [region for region in of_c if region]
    if len(found) > 1:
        names = " or ".join(region.name for region in found)
        raise usage(f"mm: keeps: there are several `{name}`: say {names}")
    if found:
        return found[0]
    if labels:
        raise _label(name, labels[0].address, symbols)
    if number_of(name) is not None:
        raise usage(f"mm: keeps: `{name}` has no length: write BASE/LOG, as {name}/3 for one word of 2^3 bytes", HOW)
    raise _unknown(f"there is no segment `{name}`", name, symbols)


def _label(name: str, address: int, symbols: Symbols) -> Stop:
    region = symbols.region(address)
    inside = region.name if region else ""
    return usage(
        f"mm: keeps: `{name}` is a label in the segment {inside}, and segments are kept: say {inside}",
        f"    or {name}/{SHORTEST} for its word alone",
    )


def _unknown(what: str, name: str, symbols: Symbols) -> Stop:
    """A name that is none, with one that may have been meant."""
    if not symbols:
        return usage(
            f"mm: keeps: {what}: this image has no names",
            "    give the sources that it was made of, or write BASE/LOG, as 0x100100/3 for one word of 2^3 bytes",
        )
    near = nearest(name, [region.name for region in symbols.regions])
    said = f"; do you mean `{near}`?" if near else "; `mm symbols` lists the names"
    return usage(f"mm: keeps: {what}{said}", *([] if near else [HOW]))


def _range(item: str, symbols: Symbols) -> Segment:
    """A segment that is told by its base and the logarithm of its length."""
    place, _, length = item.rpartition("/")
    try:
        base = address_of(place, symbols)
    except NoAddress as error:
        raise usage(f"mm: keeps: {error}") from None
    log = number_of(length)
    if log is None or not SHORTEST <= log <= LONGEST:
        raise usage(f"mm: keeps: `{length}` is not the logarithm of a length: {SHORTEST} to {LONGEST}, as 3 for one word of 2^3 bytes")
    if base & (1 << log) - 1:
        begin = base >> log << log
        raise usage(
            f"mm: keeps: a segment of {bytes_in_words(log)} begins at a multiple of its length, and {symbols.show(base)} is at 0x{base:x}",
            f"    the one that has this word is 0x{begin:x}/{log}",
        )
    return base, log


def _outermost(segments: Sequence[Segment]) -> list[Segment]:
    """The segments in ascending order, each once, without those that lie in another one."""
    found: list[Segment] = []
    for base, log in sorted(set(segments), key=lambda segment: (segment[0], -segment[1])):
        last: Optional[Segment] = found[-1] if found else None
        if last is None or last[0] + (1 << last[1]) <= base:
            found.append((base, log))
    return found


def _joined(segments: Sequence[Segment]) -> list[Segment]:
    """The same words in fewer segments: two that are the halves of one become that one, again and again."""
    found: list[Segment] = []
    for segment in segments:
        found.append(segment)
        while len(found) > 1 and found[-2][1] == found[-1][1] and found[-2][0] ^ found[-1][0] == 1 << found[-1][1]:
            _, log = found.pop()
            found[-1] = (found[-1][0], log + 1)
    return found
