"""From the words of a command line to a command, and to an exit status."""

from __future__ import annotations

import importlib
import io
import os
import signal
import sys
from types import FrameType
from typing import Any, Optional, Sequence

from mm import inputs
from mm.console import Console, show_stop
from mm.status import SIGNALLED, Status, Stop, usage
from mm.table import HELP, PROGRAM, VERSION
from mm.words import Words, check_count, read_words

TRACEBACK = "MM_TRACEBACK"
SPELLED = "backslashreplace"
# What ends a process from outside: the folder of a command and the program that it runs go before.
ENDING = ("SIGTERM", "SIGHUP")


class Ended(BaseException):
    """A signal that ends the process."""

    def __init__(self, number: int) -> None:
        super().__init__(number)
        self.number = number


def _help(console: Console, said: Words) -> int:
    module = importlib.import_module("mm.commands.help")
    return int(module.run_topic(console, said.command.name if said.command else ""))


def carry_out(console: Console) -> int:
    """Carries out a command that was read."""
    said = console.said
    if said.has(VERSION):
        console.write(importlib.import_module("mm.version").version_lines(said.value(PROGRAM)))
        return Status.DONE
    if said.has(HELP):
        return _help(console, said)
    if said.command is None:
        _help(console, said)
        raise usage("mm: missing command")
    check_count(said)
    return int(importlib.import_module(said.command.home).run(console))


def _end(console: Console, status: int) -> int:
    """Flushes what was written; a reader that has gone is a write fault."""
    try:
        sys.stdout.flush()
    except BrokenPipeError:
        return _gone()
    except OSError as error:
        console.tell(f"mm: the output could not be written: {error.strerror}")
        return _gone()
    return int(status)


def _gone() -> int:
    """Leaves nothing that could be flushed at the end of the process."""
    os.dup2(os.open(os.devnull, os.O_WRONLY), sys.stdout.fileno())
    return Status.WRITE_FAULT


def _open_streams() -> None:
    """Puts something into the place of each standard stream that is closed. A write to an output that is closed fails."""
    if sys.stdin is None:
        sys.stdin = open(os.devnull, encoding="utf-8")
    if sys.stdout is None:
        sys.stdout = open(os.open(os.devnull, os.O_RDONLY), "w", encoding="utf-8")
    if sys.stderr is None:
        sys.stderr = open(os.devnull, "w", encoding="utf-8")
    for stream, errors in ((sys.stdin, "surrogateescape"), (sys.stdout, SPELLED), (sys.stderr, SPELLED)):
        if isinstance(stream, io.TextIOWrapper):
            stream.reconfigure(errors=errors)


def _raise_ended(number: int, _: Optional[FrameType]) -> None:
    """Ends the command. A second signal changes nothing: `timeout` sends it to the process and then to its group."""
    for name in ENDING:
        signal.signal(getattr(signal, name), _already_ending)
    raise Ended(number)


def _already_ending(number: int, _: Optional[FrameType]) -> None:
    """What a signal does after the first: nothing."""


def _catch_signals() -> dict[int, Any]:
    """What the ending signals did before; nothing where this is no place to catch them."""
    try:
        return {number: signal.signal(number, _raise_ended) for number in (getattr(signal, name) for name in ENDING)}
    except ValueError:
        return {}


def own_fault(console: Console, error: BaseException) -> int:
    """Tells of a fault of `mm` itself, or of a program that is no `mmachine`, and what to report."""
    if os.environ.get(TRACEBACK):
        raise error
    trace = error.__traceback__
    while trace is not None and trace.tb_next is not None:
        trace = trace.tb_next
    where = f"{os.path.basename(trace.tb_frame.f_code.co_filename)}:{trace.tb_lineno}" if trace else "?"
    console.tell(
        f"mm: this should not happen: {type(error).__name__} at {where}: {str(error)[:200]}",
        "    Either `mm` has a fault, or what --program or $MMACHINE names is not `mmachine`.",
        f"    To report it, give these lines, the command with its files, and what it says with {TRACEBACK}=1 before it.",
    )
    return Status.OWN_FAULT


def _guarded(console: Console, given: Sequence[str]) -> int:
    """Carries out words, however that ends."""
    try:
        inputs.forget()
        console.said = read_words(given)
        return _end(console, carry_out(console))
    except Stop as stop:
        show_stop(console, stop)
        return _end(console, stop.status)
    except BrokenPipeError:
        return _gone()
    except OSError as error:
        console.tell(f"mm: {error.strerror or error}")
        return _gone()
    except MemoryError:
        console.tell("mm: memory ran out")
        return Status.NO_MEMORY


def main(given: Sequence[str]) -> int:
    """Does what words say. The exit status is that of the `mmachine` that was run, or one of `Status`. A signal may come between any
    two steps, also of the beginning and of the end."""
    _open_streams()
    console = Console(Words())
    try:
        return _to_end(console, given)
    except Ended as ended:
        return SIGNALLED + ended.number
    finally:
        console.close()


def _to_end(console: Console, given: Sequence[str]) -> int:
    """Carries out words; signals that end the process end the command."""
    before = _catch_signals()
    try:
        return _guarded(console, given)
    except KeyboardInterrupt:
        console.tell("")
        return SIGNALLED + signal.SIGINT
    except Exception as error:
        return own_fault(console, error)
    finally:
        for number in before:
            signal.signal(number, signal.SIG_IGN)  # What is left to do is short.
        console.close()
        for number, handler in before.items():
            signal.signal(number, handler)
