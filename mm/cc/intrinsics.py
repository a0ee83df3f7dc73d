"""LLVM's own functions, but for those on numbers."""

from __future__ import annotations

import re

from mm.cc.forms import RAW, SIGNED, ZEROED
from mm.cc.ir import Argument, Instruction, Number, PointerType, Value, Zero
from mm.cc.operations import Operations
from mm.cc.pointers import Pointer
from mm.cc.untranslated import Untranslated

NOTHING = ("llvm.lifetime", "llvm.dbg", "llvm.assume", "llvm.va_end", "llvm.prefetch", "llvm.experimental.noalias",
           "llvm.invariant", "llvm.donothing", "llvm.var.annotation", "llvm.sideeffect", "llvm.pseudoprobe")
RUNTIME = {"llvm.memcpy": "memcpy", "llvm.memmove": "memmove", "llvm.memset": "memset"}
# Parts of a function's name that say of which type it is, or that stand in none of the methods' names.
OF_TYPE = re.compile(r"[ip]\d+|p\d+i\d+|sat|v\d+\w*|with|overflow")
WORD = 8
MOST_WORDS_INLINE = 16
# The traps of what a sanitizer finds have numbers from here on, by its kind.
SANITIZER = 64


class Intrinsics(Operations):
    """Copies, the stack, variadic arguments, and hints that mean nothing here."""

    def intrinsic(self, made: Instruction, name: str) -> None:
        if name.startswith(NOTHING):
            if made.name is not None and isinstance(made.type, PointerType):
                self.pointers[made.name] = Pointer(self.constant(0))
            return
        parts = [part for part in name.split(".")[1:] if not OF_TYPE.fullmatch(part)]
        handler = getattr(self, "_" + "_".join(parts), None)
        if handler is None:
            raise Untranslated(f"LLVM's function {name}")
        handler(made)

    def value_of(self, made: Instruction, at: int) -> Value:
        return made.arguments[at].value

    def give(self, made: Instruction, register: int, known: str = "") -> None:
        if isinstance(made.type, PointerType) and made.name:
            self.pointers[made.name] = Pointer(register)
        else:
            self.define(made.name, made.type, register, known)

    def _mem(self, made: Instruction, function: str) -> None:
        size = self.value_of(made, 2)
        to = self.pointer(self.value_of(made, 0))
        if isinstance(size, Number) and size.number == 0:
            return
        if isinstance(size, Number) and function != "memset":
            source = self.pointer(self.value_of(made, 1))
            aligned = self.aligned(made.arguments[0], to) and self.aligned(made.arguments[1], source)
            if aligned and size.number <= WORD * MOST_WORDS_INLINE and size.number % WORD == 0:
                words = [self.load_word(self.further(source, at)) for at in range(0, size.number, WORD)]
                for number, word in enumerate(words):
                    self.store_word(self.further(to, number * WORD), word)
                return
        if isinstance(size, Number) and function == "memset" and size.number <= WORD * MOST_WORDS_INLINE:
            byte = self.value_of(made, 1)
            if isinstance(byte, (Number, Zero)) and self.aligned(made.arguments[0], to) and size.number % WORD == 0:
                fill = self.constant((byte.number & 255) * 0x0101010101010101 if isinstance(byte, Number) else 0)
                for at in range(0, size.number, WORD):
                    self.store_word(self.further(to, at), fill)
                return
        second = self.value_of(made, 1)
        middle = self.number(second, ZEROED) if function == "memset" else self.whole(self.pointer(second))
        self.runtime(function, [self.whole(to), middle, self.number(size, ZEROED)])

    def aligned(self, argument: Argument, pointer: Pointer) -> bool:
        known = self.known.get(pointer.base)
        if known is not None and (pointer.offset is None or pointer.step % WORD == 0):
            return (known.place + pointer.constant) % WORD == 0
        return argument.align % WORD == 0

    def _memcpy(self, made: Instruction) -> None:
        self._mem(made, "memcpy")

    _memcpy_inline = _memcpy

    def _memmove(self, made: Instruction) -> None:
        self._mem(made, "memmove")

    def _memset(self, made: Instruction) -> None:
        self._mem(made, "memset")

    _memset_inline = _memset

    def _expect(self, made: Instruction) -> None:
        self.give(made, self.number(self.value_of(made, 0), RAW))

    _expect_with_probability = _expect

    def _objectsize(self, made: Instruction) -> None:
        least = self.value_of(made, 1)
        self.give(made, self.constant(0 if isinstance(least, Number) and least.number else -1))

    def _is_constant(self, made: Instruction) -> None:
        self.give(made, self.constant(0), ZEROED)

    def _trap(self, made: Instruction) -> None:
        self.emit("trap", number=1)

    _debugtrap = _trap

    def _ubsantrap(self, made: Instruction) -> None:
        kind = self.value_of(made, 0)
        self.emit("trap", number=SANITIZER + (kind.number & 255 if isinstance(kind, Number) else 0))

    def _ptrmask(self, made: Instruction) -> None:
        assert made.name is not None
        pointer = self.pointer(self.value_of(made, 0))
        here = self.bits(pointer)
        masked = self.op("and", here, self.number(self.value_of(made, 1), SIGNED))
        self.pointers[made.name] = Pointer(pointer.base, self.op("sub", masked, pointer.base))

    def _launder_invariant_group(self, made: Instruction) -> None:
        assert made.name is not None
        self.pointers[made.name] = self.pointer(self.value_of(made, 0))

    _strip_invariant_group = _launder_invariant_group
    _threadlocal_address = _launder_invariant_group
    _ssa_copy = _launder_invariant_group

    def _returnaddress(self, made: Instruction) -> None:
        self.give(made, self.constant(0))

    def _frameaddress(self, made: Instruction) -> None:
        depth = self.value_of(made, 0)
        if isinstance(depth, Number) and depth.number:
            self.give(made, self.constant(0))
        else:
            self.give(made, self.op("stack_pointer"))

    def _stacksave(self, made: Instruction) -> None:
        self.give(made, self.op("stack_pointer"))

    def _stackrestore(self, made: Instruction) -> None:
        self.code.dynamic = True
        self.emit("set_stack_pointer", None, self.whole(self.pointer(self.value_of(made, 0))))

    def _va_start(self, made: Instruction) -> None:
        assert self.variadic_words is not None
        self.store_word(self.pointer(self.value_of(made, 0)), self.variadic_words)

    def _va_copy(self, made: Instruction) -> None:
        self.store_word(self.pointer(self.value_of(made, 0)), self.load_word(self.pointer(self.value_of(made, 1))))
