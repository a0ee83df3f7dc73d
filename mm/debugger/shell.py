"""Lines at a terminal or from a file: history, completion, and an empty line that repeats."""

from __future__ import annotations

import contextlib
import sys
from typing import Optional

from mm.console import Console, show_stop
from mm.debugger.commands import BY_NAME, ENTRIES, INFO, Debugger, Wrong, carry_out, find
from mm.debugger.session import Halt
from mm.machine.isa import OPERATIONS
from mm.names.expressions import NoAddress
from mm.status import Status, Stop

PROMPT, INNER = "(mm) ", ">"
WRITES = ("echo ", "printf ")
MOST_SAID = 400
# No line of a person is longer, and one without an end is read by nobody.
LONGEST_LINE = 1_000_000
# So many lines of breaks are carried out after a line that was typed: two breaks may lead to each other for ever.
MOST_OF_STOPS = 2000
# What an empty line does not do again.
ONCE = ("break", "tbreak", "watch", "rwatch", "awatch", "delete", "display", "undisplay", "condition", "ignore", "enable", "disable",
    "commands", "run")


def without_comment(line: str) -> str:
    """A line up to its `#`. One that writes a text has no comment but the whole line."""
    return line if line.startswith(WRITES) else line.partition("#")[0]


class Completer:
    """What Tab offers: commands, then what their words may be."""

    def __init__(self, debugger: Debugger) -> None:
        self.debugger = debugger

    def offers(self, line: str) -> list[str]:
        """All that may stand at the end of a line."""
        word, blank, _ = line.lstrip().partition(" ")
        if not blank:
            return [entry.names[0] for entry in ENTRIES]
        entry = BY_NAME.get(word.partition("/")[0])
        kind = entry.completes if entry else ""
        names = [symbol.name for symbol in self.debugger.session.symbols.symbols]
        values = self.debugger.session.values
        variables = [name for name, _ in values.locals()] if values else []
        registers = [f"r{number}" for number in range(16)] + ["ip"]
        offered = {
            "place": names + ["fault", "entry"],
            "value": names + registers + variables,
            "info": list(INFO),
            "help": [*BY_NAME, *OPERATIONS],
        }
        return offered.get(kind, [])

    def __call__(self, text: str, state: int) -> Optional[str]:
        import readline

        found = [offer for offer in self.offers(readline.get_line_buffer()) if offer.startswith(text)]
        return found[state] if state < len(found) else None


def set_up(debugger: Debugger) -> None:
    """History and completion, where the standard library has them."""
    try:
        import readline
    except ImportError:
        return
    readline.set_completer(Completer(debugger))
    readline.set_completer_delims(" \t&*/")
    readline.parse_and_bind("bind ^I rl_complete" if "libedit" in (readline.__doc__ or "") else "tab: complete")


class Shell:
    """Reads lines and writes answers."""

    def __init__(self, console: Console, debugger: Debugger) -> None:
        self.console, self.debugger = console, debugger
        self.terminal = sys.stdin.isatty()
        self.last = ""
        debugger.read_line = self.read_inner

    def read(self, prompt: str = PROMPT) -> Optional[str]:
        """The next line; none at the end. Lines of a file are shown, so that the answers can be told apart."""
        try:
            if self.terminal:
                return input(prompt)
            line = sys.stdin.readline(LONGEST_LINE + 1)
            if len(line) > LONGEST_LINE:
                raise Stop(Status.REFUSED, f"mm: a line of the input has more than {LONGEST_LINE} letters")
        except EOFError:
            if prompt != PROMPT:
                self.console.write([""])
            return None
        if not line:
            return None
        self.console.write([prompt + line.rstrip("\n")])
        return line.rstrip("\n")

    def read_inner(self) -> Optional[str]:
        """The next of the lines that follow `commands`."""
        line = self.read(INNER)
        return None if line is None else without_comment(line.strip())

    def answer_all(self, line: str) -> None:
        """Answers a line, and then the lines of the break or watch at which it stops. Those of the next stop take their place."""
        self.answer(line)
        for _ in range(MOST_OF_STOPS):
            if not self.debugger.todo or self.debugger.over:
                return
            self.answer(self.debugger.todo.pop(0))
        self.debugger.todo.clear()
        self.console.write([self.console.style.warn(f"{MOST_OF_STOPS} lines of breaks were carried out after one line: the rest is left")])

    def answer(self, line: str) -> None:
        """Answers a line. After one that is wrong no others are carried out."""
        try:
            self.console.write(carry_out(self.debugger, line))
            return
        except (Wrong, NoAddress) as error:
            said = str(error)
            self.console.write([self.console.style.warn(said if len(said) <= MOST_SAID else said[:MOST_SAID] + " ..")])
        except Stop as stop:
            show_stop(self.console, stop)
        except RecursionError:
            self.console.write([self.console.style.warn("this is nested too deep")])
        self.debugger.todo.clear()

    def loop(self) -> int:
        """Lines up to the end or `quit`."""
        if self.terminal:
            set_up(self.debugger)
        while not self.debugger.over:
            try:
                line = self.read()
                if line is None:
                    break
                line = without_comment(line.strip()).strip() or ("" if line.strip() else self.last)
                if line:
                    self.last = self.repeated(line)
                    self.answer_all(line)
                self.console.out.flush()
            except KeyboardInterrupt:
                self.debugger.todo.clear()
                with contextlib.suppress(KeyboardInterrupt):
                    self.console.write(["", *self.debugger.stop(Halt())])
        if self.terminal and not self.debugger.over:
            self.console.write([""])
        return Status.DONE

    @staticmethod
    def repeated(line: str) -> str:
        """What an empty line does after this one: the same, but that nothing is set or removed twice."""
        try:
            name = find(line.split()[0].partition("/")[0]).names[0]
        except Wrong:
            return ""
        return "" if name in ONCE else line
