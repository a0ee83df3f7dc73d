"""Hints at mistakes in directives."""

from __future__ import annotations

import re
from typing import Callable, Optional

from mm.machine.words import BY_SHORT
from mm.messages.scene import Scene
from mm.source.tokens import value_of_digits


def _segment(scene: Scene) -> Optional[str]:
    if scene.head != ".segment":
        return None
    words = scene.rest.split()
    if scene.fault == 2 and len(words) == 2 and words[0].isdigit():
        return f"the name comes first: `.segment {words[1]} {words[0]}`"
    if scene.fault == 2 and not scene.found:
        return "the length is missing, as a power of two of bytes: `.segment main 6` has 2^6 = 64 bytes, room for 8 words"
    if scene.fault == 4 and re.fullmatch(r"\d+|0x[0-9A-Fa-f]+", scene.found):
        length = value_of_digits(scene.found)
        if 8 < length <= 1 << 20:
            return f"the number is the logarithm of the length: for {length} bytes write {max(3, (length - 1).bit_length())}"
        if length < 3:
            return "a segment has 2^L bytes and at least one word, so L is at least 3"
    return None


def _thread(scene: Scene) -> Optional[str]:
    if scene.head != ".thread" or scene.fault not in (2, 3, 4):
        return None
    words = scene.rest.split()
    if len(words) > 2 and words[2] in ("xu", "xp", "ro", "rw", "eu", "ep"):
        return "after slot and group comes the handler, `none` where there is none: `.thread 0 0 none xu main`"
    if scene.fault == 3 and len(words) == 4:
        return f"the permission is missing: `.thread {' '.join(words[:3])} xu {words[3]}`"
    if scene.fault == 3 and len(words) == 5 and words[4] in ("xu", "xp"):
        return f"the permission comes first: `.thread {' '.join(words[:3])} {words[4]} {words[3]}`"
    if scene.fault == 3:
        return "a thread runs code: `xu` as a user, `xp` privileged"
    if scene.fault == 4 and len(words) > 2 and words[0] == words[2]:
        return "a thread cannot handle its own faults: name another slot, or `none`"
    return "write `.thread SLOT GROUP HANDLER PERMISSION NAME`, as `.thread 0 0 none xu main`"


def _reg(scene: Scene) -> Optional[str]:
    if scene.head != ".reg" or scene.fault not in (2, 3):
        return None
    words = scene.rest.replace(",", " ").split()
    if words and re.fullmatch(r"[rR]\d+", words[0]):
        return f"the register is a number here: `.reg {words[0][1:]} {' '.join(words[1:])}`"
    if len(words) == 2 and words[1] in ("int", "ptr"):
        return f"say what it begins with: `.reg {words[0]} int 5`, or `.reg {words[0]} ptr rw NAME`"
    if len(words) == 2 and re.fullmatch(r"-?\d+|0x\w+", words[1]):
        return f"say that it is a number: `.reg {words[0]} int {words[1]}`"
    if len(words) == 2:
        return f"say that it is a pointer and what it may: `.reg {words[0]} ptr rw {words[1]}`"
    if len(words) == 3 and words[1] == "ptr":
        return f"the permission is missing: `.reg {words[0]} ptr rw {words[2]}`"
    return None


def _pointer(scene: Scene) -> Optional[str]:
    words = scene.rest.split()
    if scene.head == ".ptr" and scene.fault in (2, 3) and len(words) == 1:
        return f"say what the pointer may: `.ptr rw {words[0]}`, or ro, xu, eu .."
    if scene.head == ".int" and scene.fault == 2 and re.fullmatch(r"[A-Za-z_]\w*", scene.found):
        return f"`.int` holds a number; a pointer to `{scene.found}` is `.ptr rw {scene.found}`"
    if scene.head == ".int" and scene.fault == 4:
        return "a word has 64 bits: at most 16 digits after `0x`"
    if scene.head in (".ptr", ".reg") and len(words) > 1 and words[-1] in BY_SHORT and scene.found == words[-2]:
        return f"the permission comes first: `{scene.head} {' '.join([*words[:-2], words[-1], words[-2]])}`"
    if scene.fault == 3 and scene.found in ("r", "w", "x", "rx", "rwx", "read", "write", "exec", "wr"):
        return "permissions are ro (read), rw (read and write), xu (execute), eu (enter), xp, ep and key"
    return None


def _empty(scene: Scene) -> Optional[str]:
    match = re.match(r"(?:\s*\w+\s*:)?\s*\.empty\s*(-?\d\w*)?\s*$", scene.code)
    return f"after `.empty` comes the word: `.empty .int {match[1] or 0}`" if match else None


DIRECTIVE_MISTAKES: list[Callable[[Scene], Optional[str]]] = [_segment, _thread, _reg, _pointer, _empty]
