#!/usr/bin/env python3
"""Carries out the lines of a commit log over an image, and writes the report of the state that they make.

    replay.py IMAGE LOG [TURNS]

LOG is what `mmachine log IMAGE ..` wrote. Its lines are carried out from the image's state on, up to the first line of
the report after them or for so many lines of turns and deliveries. No instruction is read. What is written is the
report of `mmachine run`, without its lines `cycles` and `counts`, which tell what a log does not.
"""

import sys

STATES = ("running", "halted")


class Slot:
    """A slot: its group, handler, registers, instruction pointer, state, turns and pending loads."""

    def __init__(self, number, group, handler, state, ip, registers):
        self.number, self.group, self.handler = number, group, handler
        self.state, self.ip, self.past, self.turns = STATES[state], ip, False, 0
        self.registers = registers
        self.empty = [False] * 16
        self.pending = []


class Machine:
    """What an image means, and what the lines of a log make of it."""

    def __init__(self, image):
        self.slots, self.queues, self.outputs = {}, {}, {}
        self.pages = {}
        count, pages = int.from_bytes(image[6:8], "big"), int.from_bytes(image[10:12], "big")
        at = 16
        for _ in range(count):
            self.read_slot(image[at:at + 142])
            at += 142
        for _ in range(pages):
            self.read_page(image[at:at + 4232])
            at += 4232
        self.image = {page: list(cells) for page, cells in self.pages.items()}

    def read_slot(self, record):
        tags = int.from_bytes(record[12:14], "big")
        words = []
        for k in range(16):
            bits = int.from_bytes(record[14 + 8 * k:22 + 8 * k], "big")
            words.append(("p" if tags >> k & 1 else "i") + f"{bits:016x}")
        ip = "p" + record[4:12].hex()
        handler = None if record[2] == 255 else record[2]
        self.slots[record[0]] = Slot(record[0], record[1], handler, record[3], ip, words)
        self.queues[record[0]] = []
        self.outputs.setdefault(record[1], [])

    def read_page(self, record):
        cells = []
        for k in range(512):
            tag = record[8 + k // 8] >> k % 8 & 1
            full = record[72 + k // 8] >> k % 8 & 1
            bits = record[136 + 8 * k:144 + 8 * k].hex()
            cells.append((("p" if tag else "i") + bits, "full" if full else "empty"))
        self.pages[int.from_bytes(record[0:8], "big")] = cells

    def carry_out(self, line):
        name, *rest = line.split(" ")
        getattr(self, "do_" + name)(*rest)

    def do_t(self, slot, turns, *_):
        self.slots[int(slot)].turns = int(turns)

    def do_m(self, slot, register):
        pass

    def do_ip(self, slot, pointer, past=None):
        self.slots[int(slot)].ip = pointer
        self.slots[int(slot)].past = past is not None

    def do_state(self, slot, *state):
        self.slots[int(slot)].state = " ".join(state)

    def do_r(self, slot, register, word):
        slot, register = self.slots[int(slot)], int(register)
        if word == "empty":
            slot.registers[register], slot.empty[register] = "i" + "0" * 16, True
            return
        if slot.empty[register]:
            first = next(k for k, load in enumerate(slot.pending) if load[0] == register)
            del slot.pending[first]
        slot.registers[register], slot.empty[register] = word, False

    def do_load(self, slot, register, word):
        self.slots[int(slot)].pending.append((int(register), word))

    def do_event(self, handler, *event):
        self.queues[int(handler)].append(event)

    def do_taken(self, handler):
        del self.queues[int(handler)][0]

    def do_out(self, group, byte):
        self.outputs[int(group)].append(byte)

    def do_page(self, page, change):
        if change == "new":
            self.pages[int(page, 16)] = [("i" + "0" * 16, "full")] * 512
        else:
            del self.pages[int(page, 16)]

    def do_cell(self, address, word, bit):
        address = int(address, 16)
        self.pages[address // 4096][address % 4096 // 8] = (word, bit)

    def report(self):
        for group in sorted(self.outputs):
            output = self.outputs[group]
            yield f"group {group} output {len(output)}"
            for at in range(0, len(output), 32):
                yield "o " + "".join(output[at:at + 32])
            for number in sorted(self.slots):
                if self.slots[number].group == group:
                    yield from self.slot_lines(self.slots[number])
        for page in sorted(self.pages.keys() ^ self.image.keys()):
            yield f"page {page:011x} " + ("new" if page in self.pages else "gone")
        zero = [("i" + "0" * 16, "full")] * 512
        for page in sorted(self.pages):
            was = self.image.get(page, zero)
            for k, cell in enumerate(self.pages[page]):
                if cell != was[k]:
                    yield f"cell {page * 4096 + 8 * k:014x} {cell[0]} {cell[1]}"

    @staticmethod
    def slot_lines(slot):
        past = " past" if slot.past else ""
        yield f"slot {slot.number} turns {slot.turns} {slot.state} ip {slot.ip}{past}"
        for register in range(16):
            if slot.empty[register]:
                yield f"r {register} empty"
            elif slot.registers[register] != "i" + "0" * 16:
                yield f"r {register} {slot.registers[register]}"
        for register, word in slot.pending:
            yield f"pending {register} {word}"


def main():
    if len(sys.argv) not in (3, 4):
        sys.exit(__doc__)
    with open(sys.argv[1], "rb") as file:
        machine = Machine(file.read())
    left = int(sys.argv[3]) if len(sys.argv) == 4 else None
    with open(sys.argv[2], encoding="ascii") as file:
        for line in file.read().splitlines():
            if line.startswith("cycles "):
                break
            if line.startswith(("t ", "m ")) and left is not None:
                if left == 0:
                    break
                left -= 1
            machine.carry_out(line)
    for line in machine.report():
        print(line)


if __name__ == "__main__":
    main()
