"""What the second machine is made of: configurations as values, and the rules for words and pointers of docs/MACHINE.md.

A configuration is a value: nothing in it changes. It has no counts, of cycles or of turns. A word is its bits, and one bit
more above them if it is a pointer."""

from __future__ import annotations

from typing import Callable, NamedTuple, Optional

from mm.machine.words import WORD_MASK, Permission, Pointer

TAG = 1 << 64
BLANK = (0, True)
NOT_POINTER, PERM, BOUNDS, ALIGN, NO_PAGE, SYNC, ILLEGAL, PRIV, DIV_ZERO, MALFORMED, TRAP, NO_SLOT, OUT_FULL = range(1, 14)
RUNNING, WAITING, TAKEN, HALTED = "running", "waiting", "taken", "halted"
FETCH, LOAD, LOAD_SET, STORE = "fetch", "load", "loadset", "store"
WRITING = (STORE, LOAD_SET)

Cell = tuple[int, bool]


class Fault(Exception):
    """A test of a turn that failed. Its operands are those of the event that it becomes."""

    def __init__(self, cause: int, operands: tuple[int, int] = (0, 0)) -> None:
        super().__init__(cause)
        self.cause, self.operands = cause, operands


class Blocked(Exception):
    """A turn that waits, given the index of the slot of which it delivers a load, if of one."""

    def __init__(self, deliver: Optional[int] = None) -> None:
        super().__init__()
        self.deliver = deliver


class Thread(NamedTuple):
    """What changes of a slot."""

    regs: tuple[int, ...]
    ip: int
    past: bool
    state: str
    empty: frozenset[int]
    pending: tuple[tuple[int, int], ...]


class Event(NamedTuple):
    slot: int
    cause: int
    ip: int
    address: int
    value: int


class Configuration(NamedTuple):
    """A state without its counts. `cells` are those that are not as in the image; of a page that the image does not have, as
    on a blank page."""

    threads: tuple[Thread, ...]
    queues: tuple[tuple[Event, ...], ...]
    outputs: tuple[bytes, ...]
    pages: frozenset[int]
    cells: frozenset[tuple[int, Cell]]


class Step(NamedTuple):
    """What a turn did: the place of its slot among all, the cause of its fault or 0, its accesses, each a kind and a word, and whether
    the instruction was carried out. A delivery of a load is done, and has no access."""

    place: int
    fault: int
    accesses: tuple[tuple[str, int], ...]
    done: bool

    def wrote(self, word: int) -> bool:
        """Whether it wrote a word or set its bit."""
        return self.done and any(at == word and kind in WRITING for kind, at in self.accesses)


def pointer_of(word: int) -> Pointer:
    """The pointer that a word is."""
    found = Pointer.of_bits(word & WORD_MASK) if word & TAG else None
    if found is None:
        raise Fault(NOT_POINTER)
    return found


def word_of(pointer: Pointer) -> int:
    return pointer.bits | TAG


def signed(bits: int, size: int = 64) -> int:
    return bits - (1 << size) if bits >> size - 1 else bits


def moved(pointer: Pointer, address: int) -> int:
    """The pointer at another address of its segment."""
    if not pointer.covers(address):
        raise Fault(BOUNDS)
    return word_of(Pointer(pointer.permission, pointer.log, address))


def walkable(word: int) -> Pointer:
    """The pointer that a word is, if its address may be changed."""
    pointer = pointer_of(word)
    if pointer.permission.enters or pointer.permission is Permission.KEY:
        raise Fault(PERM)
    return pointer


def restricted(word: int, code: int) -> int:
    pointer, to = pointer_of(word), Permission.of_code(code)
    if to is None:
        raise Fault(MALFORMED)
    if to not in pointer.permission.may_become:
        raise Fault(PERM)
    return word_of(Pointer(to, pointer.log, pointer.address))


def shortened(word: int, log: int) -> int:
    pointer = walkable(word)
    if log >= pointer.log:
        raise Fault(BOUNDS)
    return word_of(Pointer(pointer.permission, log, pointer.address))


def entered(word: int) -> int:
    """Where a jump through a word leads."""
    pointer = pointer_of(word)
    to = {Permission.EU: Permission.XU, Permission.EP: Permission.XP}.get(pointer.permission, pointer.permission)
    if not to.executes:
        raise Fault(PERM)
    return word_of(Pointer(to, pointer.log, pointer.address))


def divided(a: int, b: int, of: Callable[[int, int], int]) -> int:
    if b == 0:
        raise Fault(DIV_ZERO)
    return of(a, b)


NUMBERS: dict[str, Callable[[int, int], int]] = {
    "add": lambda a, b: a + b,
    "sub": lambda a, b: a - b,
    "mul": lambda a, b: a * b,
    "divu": lambda a, b: divided(a, b, lambda x, y: x // y),
    "remu": lambda a, b: divided(a, b, lambda x, y: x % y),
    "and": lambda a, b: a & b,
    "or": lambda a, b: a | b,
    "xor": lambda a, b: a ^ b,
    "shl": lambda a, b: a << b % 64,
    "shr": lambda a, b: a >> b % 64,
    "sar": lambda a, b: signed(a) >> b % 64,
    "eq": lambda a, b: int(a == b),
    "ltu": lambda a, b: int(a < b),
    "lts": lambda a, b: int(signed(a) < signed(b)),
}
RIGHTS: dict[str, Callable[[Permission], bool]] = {
    FETCH: lambda p: p.executes,
    LOAD: lambda p: p.loads,
    STORE: lambda p: p.stores,
    LOAD_SET: lambda p: p.loads and p.stores,
}


def checked(word: int, offset: int, kind: str) -> int:
    """The word that an access is to, if its first four tests hold."""
    pointer = pointer_of(word)
    if not RIGHTS[kind](pointer.permission):
        raise Fault(PERM)
    address = pointer.address + offset
    if not pointer.covers(address, 8):
        raise Fault(BOUNDS)
    if address % 8:
        raise Fault(ALIGN)
    return address
