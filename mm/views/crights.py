"""Faults by the permission of a pointer, in the words of C: what was to be stored to, or called."""

from __future__ import annotations

from typing import Optional

from mm.machine.words import Pointer
from mm.names.symbols import Region
from mm.views.spell import bytes_as_text
from mm.views.why import Refusal

MOST_TEXT = 40


def forbidden(at: Refusal) -> Optional[str]:
    """What an access or a call is not allowed to do; none if nothing is known of what the pointer is to."""
    pointer = at.pointer
    region = at.speller.symbols.region(pointer.base) if pointer else None
    if pointer is None or region is None or region.source is None or region.source.notes is None:
        return None
    if at.name in ("jal", "jmp"):
        made = at.speller.symbols.c_global(region)
        return f"a call of {f'`{made.name}`' if made and _is_whole(pointer, region) else 'data'}, which is not a function"
    if at.name != "st":
        return None
    function = at.speller.symbols.c_function(pointer.address) if pointer.permission.executes else None
    if function is not None:
        return f"a store into the code of `{function.name}`"
    return _constant(at, pointer, region) if _is_whole(pointer, region) else None


def _is_whole(pointer: Pointer, region: Region) -> bool:
    return (region.base, region.log) == (pointer.base, pointer.log)


def _constant(at: Refusal, pointer: Pointer, region: Region) -> Optional[str]:
    """A store into an object that is constant: its name, or the text that it is."""
    notes, made = region.source.notes if region.source else None, at.speller.symbols.c_global(region)
    if notes is None or region.name not in notes.constant:
        return None
    if made is not None:
        return f"a store into `{made.name}`, which is constant"
    begin = region.base + notes.unnamed.get(region.name, 0)
    data = b"".join(_word(at, address) for address in range(region.base, region.end, 8))[begin - region.base:]
    text, end, _ = data.partition(b"\0")
    if not text or not end or not all(32 <= byte < 127 or byte in b"\t\n\r" for byte in text):
        return "a store into a constant, which is read-only"
    shown = bytes_as_text(text[:MOST_TEXT]) + (" .." if len(text) > MOST_TEXT else "")
    return f"a store into the string constant {shown}, which is read-only"


def _word(at: Refusal, address: int) -> bytes:
    cell = at.memory.cell(address)
    return (cell.word.bits if cell else 0).to_bytes(8, "little")
