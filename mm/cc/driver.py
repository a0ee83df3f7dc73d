"""From files of C to sources."""

from __future__ import annotations

import os
import re
import sys
from typing import Sequence

from mm.cc import beside, handed, lent, shared
from mm.cc.clang import library, module_of
from mm.cc.options import Options
from mm.cc.program import Failure, Program
from mm.cc.source import write_source
from mm.records import replace
from mm.shown import shown
from mm.status import Status, Stop


def source_of(paths: Sequence[str], options: Options) -> str:
    """The source of one program in C. What is left out ends with a message."""
    modules = [module_of(path, options.level, options.flags, options.lines) for path in paths]
    flags = [] if options.quarantine is None else [f"-DQUARANTINE={options.quarantine}"]
    program = Program([*modules, library(flags)], options)
    try:
        source = write_source(program, options)
    except Failure as failure:
        raise Stop(Status.REFUSED, *str(failure).splitlines()) from None
    if options.lines:
        warned = [note for part in (handed, lent, beside, shared) for note in part.warnings(program)]
        for note in [*program.contradicted.values(), *warned, *program.notes()]:
            print(*map(shown, note.splitlines()), sep="\n", file=sys.stderr)
    return source


def sources_of(paths: Sequence[str], options: Options) -> list[bytes]:
    """The sources of several programs, a file each. Those with a `main` get slots and groups in their order."""
    if len(paths) == 1:
        return [source_of(paths, options).encode("latin-1", "replace")]
    made, slot = [], options.slot
    for path in paths:
        prefix = re.sub(r"\W", "_", os.path.splitext(os.path.basename(path))[0])
        source = source_of([path], replace(options, slot=slot, prefix=prefix))
        slot += "\n.thread " in source
        made.append(source.encode("latin-1", "replace"))
    return made
