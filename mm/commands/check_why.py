"""`mm check-why`: whether a derivation that `why` wrote is right, by the bytes of the image alone."""

from __future__ import annotations

import sys

from mm.build import LONGEST_FILE, read_file
from mm.console import Console
from mm.formats.bytesreader import CutShort
from mm.formats.image import Image, read_image
from mm.names.numbers import counted
from mm.status import Status, Stop
from mm.why.ask import asked
from mm.why.check import check
from mm.why.lines import NO, WrongLine, read_lines


def _image(name: str) -> Image:
    try:
        return read_image(read_file(name))
    except CutShort:
        raise Stop(Status.REFUSED, f"mm: {name} is not an image: it is cut short") from None
    except ValueError as error:
        raise Stop(Status.REFUSED, f"mm: {name} is not an image: {error}") from None


def run(console: Console) -> int:
    name, group, word, kind = console.words
    ask = asked(group, word, kind)
    image, text = _image(name), sys.stdin.read(LONGEST_FILE + 1)
    if len(text) > LONGEST_FILE:
        raise Stop(Status.REFUSED, f"mm: the derivation has more than {LONGEST_FILE} letters")
    if text == NO:
        raise Stop(Status.REFUSED, "mm: the text says `no`: there is no derivation to check")
    try:
        lines = read_lines(text)
        check(image, lines, ask.group, ask.address, ask.kind)
    except WrongLine as wrong:
        raise Stop(Status.REFUSED, f"mm: line {wrong.number}: {wrong.why}") from None
    console.write([f"right: {counted(len(lines), 'line')}, and group {ask.group} can {ask.kind} {ask.address:014x}"])
    return Status.DONE
