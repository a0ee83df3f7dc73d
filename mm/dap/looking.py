"""What a debug adapter shows of a moment: threads, frames, variables, memory."""

from __future__ import annotations

import base64
import os
from typing import Any, Callable, Iterator, Optional

from mm.debugger.session import Session
from mm.machine.words import Cell, Word
from mm.names.numbers import hexadecimal
from mm.names.symbols import Region
from mm.outputs.report import SlotState
from mm.views.cvalues import CThing, CValues
from mm.views.spell import bytes_as_text

Json = Any
MOST_DEPTH, MOST_ROWS, MOST_BYTES = 1000, 4096, 65_536
REGISTERS = 16
STATES = {"waiting": "faulted, waits for its handler", "taken": "faulted, its handler has it"}


class Looker:
    """Shows a session. References to what has parts hold until the run moves."""

    def __init__(self, session: Session) -> None:
        self.session = session
        self.parts: list[Callable[[], list[Json]]] = []

    def forget(self) -> None:
        """The run has moved."""
        self.parts.clear()

    def refer(self, parts: Callable[[], list[Json]]) -> int:
        """A reference to parts, which are made when they are asked for."""
        self.parts.append(parts)
        return len(self.parts)

    def variables(self, reference: int) -> list[Json]:
        return self.parts[reference - 1]() if 0 < reference <= len(self.parts) else []

    # Threads and frames

    def threads(self) -> list[Json]:
        """The slots, each with what it does."""
        return [{"id": slot.number + 1, "name": f"slot {slot.number}, group {slot.group}: {self.state(slot)}"}
                for slot in sorted(self.session.report.slots, key=lambda slot: slot.number)]

    @staticmethod
    def state(slot: SlotState) -> str:
        return f"fault {slot.fault}" if slot.fault else STATES.get(slot.state, slot.state)

    def frames(self, slot: SlotState) -> list[Json]:
        """Where a slot stands, and in C the functions that wait."""
        ip = slot.ip.pointer
        address = ip.address if ip else 0
        calls = CValues(slot, self.session.memory, self.session.speller).frames
        first = slot.number * MOST_DEPTH + 1
        if not calls:
            row = {"id": first, "name": self.session.symbols.show(address), "line": 0, "column": 0,
                   "instructionPointerReference": hexadecimal(address)}
            return [{**row, **self.place(address)}]
        made = []
        for depth, call in enumerate(calls[: MOST_DEPTH - 1]):
            row = {"id": first + depth, "name": call.function.name, "line": 0, "column": 0}
            if call.line:
                row.update(line=call.line.line, column=1, source=source_of(call.line.path))
            if depth == 0:
                row["instructionPointerReference"] = hexadecimal(address)
            made.append(row)
        return made

    def place(self, address: int) -> Json:
        """The line of an address, as a frame has it."""
        origin = self.session.symbols.origin(address)
        return {"line": origin.line, "column": 1, "source": source_of(origin.path)} if origin else {}

    # Scopes and variables

    def scopes(self, frame: int) -> list[Json]:
        found = self.session.report.slot((frame - 1) // MOST_DEPTH)
        if found is None:
            return []
        slot = found
        rows = [("Registers", lambda: list(self.registers(slot)), "registers")]
        values = CValues(slot, self.session.memory, self.session.speller)
        if values.frames and (frame - 1) % MOST_DEPTH == 0:
            rows.insert(0, ("Variables", lambda: self.of_c(values), "locals"))
        rows += [("Memory", lambda: list(self.regions()), ""), ("Outputs", lambda: list(self.outputs()), "")]
        return [{"name": name, "variablesReference": self.refer(parts), "expensive": name == "Memory",
                 **({"presentationHint": hint} if hint else {})} for name, parts, hint in rows]

    def row(self, name: str, word: Optional[Word], reference: int = 0) -> Json:
        """A word as a variable, with where it leads if it is a pointer."""
        made = {"name": name, "value": self.session.speller.register(word), "variablesReference": reference}
        pointer = word.pointer if word else None
        return {**made, "memoryReference": hexadecimal(pointer.address)} if pointer else made

    def registers(self, slot: SlotState) -> Iterator[Json]:
        yield self.row("ip", slot.ip)
        for number in range(REGISTERS):
            yield self.row(f"r{number}", slot.register(number))
        for number, word in slot.pending:
            yield self.row(f"r{number}, on its way", word)

    def of_c(self, values: CValues) -> list[Json]:
        return [self.thing(values, name, thing) for name, thing in (*values.locals(), *values.globals())]

    @staticmethod
    def thing(values: CValues, name: str, thing: CThing) -> Json:
        made = {"name": name, "value": values.spell(thing), "type": thing.types.title(thing.type),
            "variablesReference": 0}
        return {**made, "memoryReference": hexadecimal(thing.address)} if thing.address is not None else made

    def regions(self) -> Iterator[Json]:
        """The segments, each with its words."""

        def parts(region: Region) -> Callable[[], list[Json]]:
            return lambda: list(self.words(region))

        for region in self.session.symbols.regions:
            yield {"name": region.name, "value": f"2^{region.log} bytes at {hexadecimal(region.base)}",
                   "variablesReference": self.refer(parts(region)), "memoryReference": hexadecimal(region.base)}

    def words(self, region: Region) -> Iterator[Json]:
        memory, symbols = self.session.memory, self.session.symbols
        for address in range(region.base, min(region.end, region.base + 8 * MOST_ROWS), 8):
            cell = memory.cell(address)
            if cell is None or (cell == Cell() and address >= region.base + 8 * region.words):
                continue
            row = self.row(symbols.show(address), cell.word)
            instruction = memory.instruction(address)
            if instruction and symbols.origin(address) and cell.word.bits:
                row["value"] = self.session.speller.at(memory, address)
            yield row if cell.full else {**row, "value": f"{row['value']}, empty"}

    def outputs(self) -> Iterator[Json]:
        for group, data in self.session.report.outputs.items():
            yield {"name": f"group {group}", "value": bytes_as_text(data), "variablesReference": 0}

    # Memory

    def read(self, address: int, count: int) -> Json:
        """Bytes of memory from an address on, as far as there are pages."""
        memory, data = self.session.memory, bytearray()
        while len(data) < min(count, MOST_BYTES):
            at = address + len(data)
            cell = memory.cell(at)
            if cell is None:
                break
            data += cell.word.bits.to_bytes(8, "little")[at % 8 :]
        data = data[:count]
        return {"address": hexadecimal(address), "data": base64.b64encode(data).decode(),
            "unreadableBytes": count - len(data)}

    def code(self, address: int, first: int, count: int) -> list[Json]:
        """Words as instructions, `first` words from an address on."""
        memory, made = self.session.memory, []
        for place in range(first, first + min(count, MOST_ROWS)):
            at = (address & ~7) + 8 * place
            cell = memory.cell(at) if at >= 0 else None
            row: Json = {"address": hexadecimal(max(0, at)), "instruction": self.session.speller.at(memory, at) if cell
                else "no page"}
            if cell:
                row.update(instructionBytes=f"{cell.word.bits:016x}", symbol=self.session.symbols.show(at))
                origin = self.session.symbols.origin(at)
                row.update({"location": source_of(origin.path), "line": origin.line} if origin else {})
            made.append(row)
        return made


def source_of(path: str) -> Json:
    return {"name": os.path.basename(path), "path": os.path.abspath(path)}
