"""`mm cc`: the source of a program in C."""

from __future__ import annotations

from mm.build import C_SUFFIX, read_file
from mm.cc.driver import source_of
from mm.cc.options import options_of
from mm.console import Console
from mm.status import usage


def run(console: Console) -> int:
    for name in console.words:
        if not name.endswith(C_SUFFIX):
            raise usage(f"mm: cc: {name} is not a source in C: its name does not end in `{C_SUFFIX}`")
        read_file(name)  # Clang's message for one that is not there has another form.
    return console.put(source_of(console.words, options_of(console.said)).encode("latin-1", "replace"))
