"""`mm debug`: the interactive debugger."""

from __future__ import annotations

from mm.console import Console
from mm.debugger.commands import Debugger
from mm.debugger.session import Halt, Session
from mm.debugger.shell import Shell
from mm.debugger.show import Show
from mm.names.numbers import counted


def run(console: Console) -> int:
    built, order = console.build(console.words), console.order()
    if order.files:
        console.ask(["run", built.path, "0", *order.words], [built.file, *order.files])
    session = Session(console, built, order)
    debugger = Debugger(session, Show(session, console.style))
    names = counted(len(built.symbols.symbols), "name") if built.symbols else "no names"
    console.write(
        [
            f"{', '.join(console.words)}: {counted(len(built.image.slots), 'slot')}, {names}, {order}. `help` lists the commands.",
            *debugger.stop(Halt()),
        ]
    )
    return Shell(console, debugger).loop()
