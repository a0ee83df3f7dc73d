"""The requests of a debug adapter."""

from __future__ import annotations

import os
from typing import Any, BinaryIO, Callable, Optional, Sequence

from mm.console import Console
from mm.dap.looking import Looker, source_of
from mm.dap.offered import ACCESSES, CAN, FILTERS, REASONS
from mm.debugger.commands import Debugger, carry_out, over_call
from mm.debugger.conditions import condition_of
from mm.debugger.evaluate import place_of, span
from mm.debugger.of_c import other_line, value_text
from mm.debugger.points import Point, PointKind
from mm.debugger.session import Halt, Session
from mm.debugger.show import Show
from mm.debugger.stops import Wrong
from mm.lsp.frames import NoMessage, read_message, write_message
from mm.names.expressions import NoAddress
from mm.names.numbers import number_of
from mm.shown import visible
from mm.status import Refused, Status, Stop
from mm.views.style import Style
from mm.words import read_words

Json = Any


class NotDone(Exception):
    """A request that cannot be carried out, with the reason."""


class Server:
    """A session with an editor."""

    def __init__(self, console: Console, read: BinaryIO, write: BinaryIO) -> None:
        self.console, self.input, self.output = console, read, write
        self.number = 0
        self.over = False
        self.debugger: Optional[Debugger] = None
        self.looker: Optional[Looker] = None
        self.stop_first = True
        # The points of each source, of functions, and of words.
        self.points: dict[str, list[Point]] = {}
        self.said: dict[int, int] = {}
        self.after: list[Callable[[], None]] = []

    def loop(self) -> int:
        """Answers until the editor says that it is over."""
        while not self.over:
            try:
                message = read_message(self.input)
            except NoMessage:
                return Status.USAGE
            if message is None:
                return Status.USAGE
            if message.get("type") == "request" and isinstance(message.get("command"), str):
                self.take(message)
        return Status.DONE

    def send(self, form: Json) -> None:
        self.number += 1
        write_message(self.output, {"seq": self.number, **form})

    def event(self, name: str, body: Json) -> None:
        self.send({"type": "event", "event": name, "body": body})

    def take(self, message: Json) -> None:
        """Answers a request, and then tells what came of it."""
        command, base = message["command"], {"type": "response", "request_seq": message.get("seq", 0),
            "command": message["command"]}
        try:
            found = REQUESTS.get(command)
            if found is None:
                raise NotDone(f"there is no request {command}")
            self.send({**base, "success": True, "body": found(self, message.get("arguments") or {}) or {}})
        except (NotDone, Wrong, NoAddress) as why:
            self.refuse(base, str(why))
        except Stop as stop:
            self.refuse(base, "\n".join(lines_of(stop)))
        except OSError as error:
            self.refuse(base, f"{error.filename or command}: {error.strerror}")
        except (KeyError, TypeError, ValueError, IndexError, AttributeError, OverflowError, RecursionError):
            self.refuse(base, f"{command}: the arguments are not those of the protocol")
        todo, self.after = self.after, []
        for act in todo:
            act()

    def refuse(self, base: Json, why: str) -> None:
        self.send({**base, "success": False, "message": why, "body": {"error": {"id": 1, "format": why,
            "showUser": True}}})

    @property
    def session(self) -> Session:
        return self.shown.session

    @property
    def shown(self) -> Looker:
        if self.looker is None:
            raise NotDone("there is no program: launch one")
        return self.looker

    @property
    def typed(self) -> Debugger:
        if self.debugger is None:
            raise NotDone("there is no program: launch one")
        return self.debugger

    # The beginning and the end

    def initialize(self, given: Json) -> Json:
        return CAN

    def launch(self, given: Json) -> None:
        """Builds what is to be debugged."""
        named = given.get("files") or given["program"]
        files = [named] if isinstance(named, str) else list(named)
        if given.get("cwd"):
            os.chdir(given["cwd"])
        options = [word for name in ("schedule", "turns", "optimise") if given.get(name) for word in (f"--{name}",
            str(given[name]))]
        self.console.said = read_words(["debug", *options, "--", *files])
        built, order = self.console.build(self.console.words), self.console.order()
        if order.files:
            self.console.ask(["run", built.path, "0", *order.words], [built.file, *order.files])
        session = Session(self.console, built, order)
        self.debugger, self.looker = Debugger(session, Show(session, Style())), Looker(session)
        self.stop_first = bool(given.get("stopOnEntry", True))
        self.after.append(lambda: self.event("initialized", {}))

    def configured(self, given: Json) -> None:
        if self.looker is None:
            raise NotDone("there is no program: launch one")
        if self.stop_first:
            self.after.append(lambda: self.stopped(Halt(), "entry"))
        else:
            self.go(lambda session: session.resume())

    def restart(self, given: Json) -> None:
        self.go(lambda session: session.go(0), "entry")

    def end(self, given: Json) -> None:
        self.over = True

    def terminate(self, given: Json) -> None:
        self.after.append(lambda: self.event("terminated", {}))

    # Points

    def set_breaks(self, given: Json) -> Json:
        """The breaks of a source, in place of those that it had."""
        path = os.path.realpath(given["source"]["path"])
        self._drop(path)
        rows = given.get("breakpoints", [])
        return {"breakpoints": [self._set(path, lambda row: self._at_line(path, row), row) for row in rows]}

    def _drop(self, owner: str) -> None:
        for point in self.points.pop(owner, []):
            if point in self.session.points:
                self.session.points.remove(point)

    def _set(self, owner: str, make: Callable[[Json], tuple[Point, Json]], row: Json) -> Json:
        """A point, or why there is none."""
        try:
            point, more = make(row)
        except (NoAddress, Wrong) as why:
            return {"verified": False, "message": str(why)}
        except RecursionError:
            return {"verified": False, "message": "this is nested too deep"}
        self.points.setdefault(owner, []).append(point)
        return {"id": point.number, "verified": True, **more}

    def _at_line(self, path: str, row: Json) -> tuple[Point, Json]:
        symbols, line = self.session.symbols, int(row["line"])
        known = [each for each in (*symbols.c_paths(), *sorted({r.source.path for r in symbols.regions if r.source}))
                 if os.path.realpath(each) == path]
        for each in known:
            address = symbols.place_of_c_line(each, line)
            address = symbols.place_of_line(each, line) if address is None else address
            if address is not None:
                origin = symbols.c_line(address) if each in symbols.c_paths() else symbols.origin(address)
                point = self._break(f"{each}:{line}", address, 8, row)
                return point, {"line": origin.line if origin else line, "source": source_of(each)}
        raise NoAddress("no word comes from this line or one after it" if known
            else "this source is not of the program")

    def _break(self, text: str, address: int, length: int, row: Json) -> Point:
        said = (row.get("condition") or "").strip()
        condition = condition_of(said, self.session) if said else None
        return self.session.add(PointKind.BREAK, text, address, length, condition=condition)

    def set_functions(self, given: Json) -> Json:
        self._drop("functions")

        def make(row: Json) -> tuple[Point, Json]:
            address, length = place_of(row["name"], self.session)
            return self._break(row["name"], self.session.symbols.c_body(address) or address, length, row), {}

        return {"breakpoints": [self._set("functions", make, row) for row in given["breakpoints"]]}

    def set_faults(self, given: Json) -> None:
        """Whether the run stops at faults, and at entries."""
        wanted = [FILTERS[name] for name in given.get("filters", [])]
        points = self.session.points
        points[:] = [point for point in points if point.kind not in FILTERS.values()]
        for kind in wanted:
            self.session.add(kind, "")

    def word_info(self, given: Json) -> Json:
        name = str(given["name"])
        try:
            span(name, self.session)
        except NoAddress as why:
            return {"dataId": None, "description": str(why)}
        return {"dataId": name, "description": name, "accessTypes": list(ACCESSES)}

    def set_words(self, given: Json) -> Json:
        self._drop("words")

        def make(row: Json) -> tuple[Point, Json]:
            address, length = span(row["dataId"], self.session)
            return self.session.add(ACCESSES[row.get("accessType", "write")], row["dataId"], address & ~7, length), {}

        return {"breakpoints": [self._set("words", make, row) for row in given["breakpoints"]]}

    # Moving

    def go(self, move: Callable[[Session], Halt], reason: str = "step") -> None:
        """Moves the run, and tells where it stops, after the answer."""
        session = self.session

        def act() -> None:
            self.shown.forget()
            self.stopped(move(session), reason)

        self.after.append(act)

    def stopped(self, halt: Halt, reason: str) -> None:
        """Tells that the run has stopped, why, and what was put out until here."""
        self.print()
        told = {"reason": reason, "threadId": self.session.slot + 1, "allThreadsStopped": True}
        if halt.point:
            told["reason"] = REASONS.get(halt.point.kind, "data breakpoint")
            told["hitBreakpointIds"] = [halt.point.number]
        lines = [visible(line) for line in self.typed.show.stop(halt)]
        if halt.ended:
            told["reason"] = "pause"
        told["text"] = told["description"] = lines[0] if lines else ""
        if halt.ended or (halt.turn and halt.turn.fault) or halt.trouble:
            self.event("output", {"category": "console", "output": "\n".join(lines) + "\n"})
        self.event("stopped", told)

    def print(self) -> None:
        """Tells the bytes that came to outputs. Those that were told once are not told again when the run goes back."""
        for group, data in self.session.report.outputs.items():
            begin = self.said.get(group, 0)
            if len(data) > begin:
                self.event("output", {"category": "stdout", "output": data[begin:].decode("latin-1")})
                self.said[group] = len(data)

    def of_slot(self, given: Json) -> Session:
        session = self.session
        if "threadId" in given and session.report.slot(int(given["threadId"]) - 1):
            session.slot = int(given["threadId"]) - 1
        return session

    def resume(self, given: Json) -> Json:
        if self.session.history.end is not None and self.session.total >= self.session.history.end:
            self.terminate(given)
        else:
            self.go(lambda session: session.resume(), "pause")
        return {"allThreadsContinued": True}

    def reverse(self, given: Json) -> None:
        self.go(lambda session: session.reverse(), "entry")

    def back(self, given: Json) -> None:
        self.go(lambda session: session.back(1))

    def _step(self, given: Json, over: bool) -> None:
        """A line of C or an instruction of a slot, into calls or over them."""
        self.of_slot(given)
        values, debugger = self.session.values, self.typed
        by_line = values is not None and values.frames and given.get("granularity") != "instruction"
        if by_line:
            self.go(lambda session: session.follow(other_line(debugger, over)))
        else:
            self.go(lambda session: session.follow(over_call(debugger) if over else lambda turn: True))

    def next(self, given: Json) -> None:
        self._step(given, True)

    def step_in(self, given: Json) -> None:
        self._step(given, False)

    def step_out(self, given: Json) -> None:
        session = self.of_slot(given)
        here = session.current.ip.pointer if session.current else None
        if here is None:
            raise NotDone("the slot stands nowhere")
        pointer = here
        self.go(lambda session: session.follow(lambda turn: turn.fetch is not None and not pointer.covers(turn.fetch)))

    def pause(self, given: Json) -> None:
        self.after.append(lambda: self.stopped(Halt(), "pause"))

    # Looking

    def threads(self, given: Json) -> Json:
        return {"threads": self.shown.threads()}

    def stack(self, given: Json) -> Json:
        slot = self.session.report.slot(int(given["threadId"]) - 1)
        if slot is None:
            raise NotDone("there is no such slot")
        frames = self.shown.frames(slot)
        start, count = int(given.get("startFrame") or 0), int(given.get("levels") or 0) or len(frames)
        return {"stackFrames": frames[start : start + count], "totalFrames": len(frames)}

    def scopes(self, given: Json) -> Json:
        return {"scopes": self.shown.scopes(int(given["frameId"]))}

    def variables(self, given: Json) -> Json:
        rows = self.shown.variables(int(given["variablesReference"]))
        start, count = int(given.get("start") or 0), int(given.get("count") or 0) or len(rows)
        return {"variables": rows[start : start + count]}

    def evaluate(self, given: Json) -> Json:
        """A value; in the console of the editor any line of `mm debug`."""
        text = str(given["expression"]).strip()
        if "frameId" in given:
            self.session.slot = (int(given["frameId"]) - 1) // 1000
        if given.get("context") != "repl":
            return {"result": value_text(text, self.typed), "variablesReference": 0}
        before = self.session.total
        lines = [visible(line) for line in carry_out(self.typed, text)]
        if self.session.total != before:
            self.go(lambda session: Halt(), "goto")
        return {"result": "\n".join(lines), "variablesReference": 0}

    def read(self, given: Json) -> Json:
        return self.shown.read(self._address(given), max(0, int(given["count"])))

    def code(self, given: Json) -> Json:
        first, count = int(given.get("instructionOffset") or 0), int(given["instructionCount"])
        return {"instructions": self.shown.code(self._address(given), first, count)}

    @staticmethod
    def _address(given: Json) -> int:
        number = number_of(str(given["memoryReference"]))
        if number is None:
            raise NotDone("the place in memory is not a number")
        return max(0, number + int(given.get("offset") or 0))


def lines_of(stop: Stop) -> Sequence[str]:
    """What a refusal tells."""
    told = [line for each in stop.diagnostics for line in each.render(Style())] if isinstance(stop, Refused) else []
    return [*told, *stop.lines]


REQUESTS: dict[str, Callable[[Server, Json], Json]] = {
    "initialize": Server.initialize,
    "launch": Server.launch,
    "configurationDone": Server.configured,
    "restart": Server.restart,
    "disconnect": Server.end,
    "terminate": Server.terminate,
    "setBreakpoints": Server.set_breaks,
    "setFunctionBreakpoints": Server.set_functions,
    "setExceptionBreakpoints": Server.set_faults,
    "dataBreakpointInfo": Server.word_info,
    "setDataBreakpoints": Server.set_words,
    "continue": Server.resume,
    "reverseContinue": Server.reverse,
    "stepBack": Server.back,
    "next": Server.next,
    "stepIn": Server.step_in,
    "stepOut": Server.step_out,
    "pause": Server.pause,
    "threads": Server.threads,
    "stackTrace": Server.stack,
    "scopes": Server.scopes,
    "variables": Server.variables,
    "evaluate": Server.evaluate,
    "readMemory": Server.read,
    "disassemble": Server.code,
}
