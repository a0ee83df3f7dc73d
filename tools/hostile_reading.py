"""A reading of the formats of images and checkpoints, for tools/hostile, written from docs/FORMATS.md alone."""

CYCLES_MOST = 1_000_000
OUTPUT_MOST = {1: 4_096, 2: 65_536}
RUNNING, WAITING, TAKEN, HALTED = range(4)
NO_HANDLER, NO_SLOT, LAST_CAUSE = 255, 255, 13


class Fault(Exception):
    """The first fault of an image: its number and its place."""


class Reader:
    """A reading of the format of images, field by field, in the order of docs/FORMATS.md."""

    def __init__(self, contents):
        self.contents, self.at = contents, 0

    def field(self, size):
        """The place of the next field and its bytes."""
        at = self.at
        if at + size > len(self.contents):
            raise Fault(1, len(self.contents))
        self.at = at + size
        return at, self.contents[at : at + size]

    def number(self, size):
        at, field = self.field(size)
        return at, int.from_bytes(field, "big")

    def word(self, tagged):
        at, bits = self.number(8)
        if tagged and not is_pointer(bits):
            raise Fault(9, at)


def is_pointer(bits):
    return 1 <= bits >> 60 <= 7 and (bits >> 54) % 64 <= 54


def refuse_if(wrong, number, at):
    if wrong:
        raise Fault(number, at)


def read_slot(reader, limit, least):
    """The slot's number, and the place and the number of its handler."""
    at, slot = reader.number(1)
    refuse_if(slot >= limit or slot < least, 5, at)
    at, group = reader.number(1)
    refuse_if(group >= limit, 6, at)
    handler = reader.number(1)
    at, state = reader.number(1)
    refuse_if(state > 1, 8, at)
    at, pointer = reader.number(8)
    refuse_if(not is_pointer(pointer) or pointer >> 60 not in (3, 4), 10, at)
    _, tags = reader.number(2)
    for register in range(16):
        reader.word(tags >> register & 1)
    return slot, handler


def read_page(reader, least):
    at, page = reader.number(8)
    refuse_if(page >= 1 << 42 or page < least, 11, at)
    _, tags = reader.field(64)
    reader.field(64)
    for cell in range(512):
        reader.word(tags[cell // 8] >> cell % 8 & 1)
    return page


def read_image(contents):
    """Raises the first fault of an image, if it has one."""
    reader = Reader(contents)
    at, magic = reader.field(4)
    refuse_if(magic != b"MMI1", 2, at)
    at, version = reader.number(2)
    refuse_if(version not in (1, 2), 3, at)
    limit, most = (16, 256) if version == 1 else (64, 4096)
    at, slots = reader.number(2)
    refuse_if(not 1 <= slots <= limit, 4, at)
    at, frames = reader.number(2)
    refuse_if(not 1 <= frames <= most, 12, at)
    at, pages = reader.number(2)
    refuse_if(pages > frames, 12, at)
    at, last = reader.number(4)
    refuse_if(last > version - 1, 4, at)
    numbers, handlers = [], []
    for _ in range(slots):
        slot, handler = read_slot(reader, limit, numbers[-1] + 1 if numbers else 0)
        numbers.append(slot)
        handlers.append(handler)
    for slot, (at, handler) in zip(numbers, handlers):
        refuse_if(handler != 255 and (handler == slot or handler not in numbers), 7, at)
    least = 0
    for _ in range(pages):
        least = read_page(reader, least) + 1
    refuse_if(reader.at < len(contents), 13, reader.at)


def slots_of(image):
    """The slots of an image without a fault, each with its group and its handler, or none."""
    found = []
    for place in range(int.from_bytes(image[6:8], "big")):
        slot, group, handler = image[16 + 142 * place :][:3]
        found.append((slot, group, None if handler == NO_HANDLER else handler))
    return found


def read_operand(reader, waits):
    at, tag = reader.number(1)
    refuse_if(tag > waits, 4, at)
    at, bits = reader.number(8)
    refuse_if(tag and not is_pointer(bits) or not waits and bits != 0, 9, at)


def read_loads(reader, empty):
    """The pending loads of a slot, of which there are as many as empty registers; their number."""
    at, count = reader.number(1)
    refuse_if(count != bin(empty).count("1"), 4, at)
    seen = set()
    for _ in range(count):
        at, register = reader.number(1)
        refuse_if(register > 15 or not empty >> register & 1 or register in seen, 4, at)
        seen.add(register)
        at, tag = reader.number(1)
        refuse_if(tag > 1, 4, at)
        reader.word(tag)
    return count


def read_state(reader, handler):
    """The state of a slot; of a waiting one the place of its event, and where it stands."""
    at, state = reader.number(1)
    refuse_if(state > HALTED or state in (WAITING, TAKEN) and handler is None, 8, at)
    at, cause = reader.number(1)
    least, most = {WAITING: (1, LAST_CAUSE), HALTED: (0, LAST_CAUSE)}.get(state, (0, 0))
    refuse_if(not least <= cause <= most, 4, at)
    at, place = reader.number(1)
    refuse_if(state != WAITING and place != 0, 7, at)
    return state, at, place


def read_core(reader, cycles, split, handler):
    """A slot: the place of its event and where it stands, if it waits, and how many loads are pending."""
    state, at_place, place = read_state(reader, handler)
    at, past = reader.number(1)
    refuse_if(past > 1, 4, at)
    at, turns = reader.number(8)
    refuse_if(turns > cycles, 4, at)
    at, pointer = reader.number(8)
    refuse_if(not is_pointer(pointer) or pointer >> 60 not in (3, 4), 10, at)
    _, tags = reader.number(2)
    at, empty = reader.number(2)
    refuse_if(not split and empty != 0, 4, at)
    for register in range(16):
        tagged, is_empty = tags >> register & 1, empty >> register & 1
        at, bits = reader.number(8)
        refuse_if(tagged and not is_pointer(bits) or is_empty and (tagged or bits != 0), 9, at)
    for _ in ("address", "value"):
        read_operand(reader, state == WAITING)
    return (at_place, place) if state == WAITING else None, read_loads(reader, empty)


def read_checkpoint(contents, image):
    """Raises the first fault of a checkpoint of an image, if it has one; else says how many slots wait, how many loads
    are pending, and how many bytes were put out."""
    reader, slots, version = Reader(contents), slots_of(image), image[5]
    at, magic = reader.field(4)
    refuse_if(magic != b"MMS1", 2, at)
    at, number = reader.number(2)
    refuse_if(number != 1, 3, at)
    at, last = reader.number(1)
    refuse_if(last > 63 and last != NO_SLOT, 4, at)
    at, zero = reader.number(1)
    refuse_if(zero != 0, 4, at)
    at, cycles = reader.number(8)
    refuse_if(cycles > CYCLES_MOST, 4, at)
    at, pages = reader.number(2)
    refuse_if(pages > int.from_bytes(image[8:10], "big"), 12, at)
    queues, pending = {}, 0
    for _, _, handler in slots:
        queued, loads = read_core(reader, cycles, version == 2 and image[15] == 1, handler)
        pending += loads
        if queued:
            queues.setdefault(handler, []).append(queued)
    # after the last slot, in the order of slots
    for at, place, others in sorted((at, place, queue) for queue in queues.values() for at, place in queue):
        refuse_if(place >= len(others) or place in [it for before, it in others if before < at], 7, at)
    outputs = 0
    for _ in sorted({group for _, group, _ in slots}):
        at, length = reader.number(4)
        refuse_if(length > OUTPUT_MOST[version], 4, at)
        reader.field(length)
        outputs += length
    least = 0
    for _ in range(pages):
        least = read_page(reader, least) + 1
    refuse_if(reader.at < len(contents), 13, reader.at)
    return sum(map(len, queues.values())), pending, outputs
