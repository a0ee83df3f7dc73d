"""Calls of functions: arguments, results, and the words that variadic functions read."""

from __future__ import annotations


from mm.cc.arithmetic import Arithmetic
from mm.cc.code import ARGUMENTS, Call
from mm.cc.failures import A_STRUCTURE
from mm.cc.forms import RAW, SIGNED, ZEROED, bits_of
from mm.cc.ir import Argument, Expression, Global, Instruction, IntType, Local, PointerType, Type, Value, VoidType
from mm.cc.pointers import Pointer
from mm.cc.untranslated import Untranslated

WORD = 8
MOST_WORDS_INLINE = 16


def strip_casts(value: Value) -> Value:
    while isinstance(value, Expression) and value.op in ("bitcast", "addrspacecast"):
        value = value.parts[0]
    return value


class Calls(Arithmetic):
    """What is called: functions of the program, or operations."""

    def call(self, made: Instruction) -> None:
        callee = made.callee
        if isinstance(callee, tuple):
            self.assembler(made)
            return
        callee = strip_casts(callee)
        if isinstance(callee, Global) and not callee.name.startswith(("llvm.", "__mm_op_")):
            callee = strip_casts(self.names.resolve(callee))
        if isinstance(callee, Global):
            if callee.name.startswith("llvm."):
                self.intrinsic(made, callee.name)
                return
            if callee.name.startswith("__mm_op_"):
                self.machine_operation(made, callee.name[len("__mm_op_"):])
                return
        self.call_function(made, callee)

    # Calls of functions

    def call_function(self, made: Instruction, callee: Value) -> None:
        self.copied = 0
        registers: list[int] = []
        variadic = made.signature is not None and made.signature.variadic
        target = self.names.function(callee.name) if isinstance(callee, Global) else None
        if target is not None and not target.variadic and target.defined:
            variadic = False
        fixed = len(made.signature.parameters) if variadic and made.signature else len(made.arguments)
        words: list[int] = []
        for argument in made.arguments[:fixed]:
            registers += self.argument(argument)
        if variadic:
            words = self.variadic_arguments(made.arguments[fixed:])
        call = Call(arguments=registers[:ARGUMENTS], stacked=registers[ARGUMENTS:], variadic=variadic, words=words,
                    twice=isinstance(callee, Global) and callee.name in ("setjmp", "_setjmp"))
        through = None
        door = self.names.door(callee.name, len(call.arguments)) if isinstance(callee, Global) else None
        in_memory = any(argument.is_in_memory for argument in made.arguments)
        if door is not None:
            if call.stacked or variadic:
                raise Untranslated("a call of a door with more than six arguments, or with variable ones,")
            if in_memory:
                raise Untranslated(f"a call of {A_STRUCTURE}")
            call.label = door
        elif isinstance(callee, Global) and self.names.is_function(callee.name):
            call.label = self.names.label(callee.name)
        else:
            stays = in_memory or variadic or bool(call.stacked)
            call.label = self.names.through_pointer(len(call.arguments), variadic, stays)
            through = self.whole(self.pointer(callee))
        self.emit("call", None, through, extra=call)
        self.from_others = door is not None or through is not None and bool(call.label)
        self.result(made, call)
        self.from_others = False

    def argument(self, argument: Argument) -> list[int]:
        """The registers of an argument; one that is handed over by value is copied into an object of this frame."""
        value, type_ = argument.value, self.layouts.plain(argument.value.type)
        if argument.by_value is not None:
            size, align = self.layouts.size(argument.by_value), self.layouts.align(argument.by_value)
            copy = self.room_for_copy(size, max(WORD, align, argument.align))
            self.copy_object(copy, self.pointer(value), size, align)
            return [self.whole(copy)]
        if isinstance(type_, PointerType):
            return [self.whole(self.pointer(value))]
        if isinstance(type_, IntType) and type_.bits <= 64:
            return [self.number(value, ZEROED if "zeroext" in argument.words or type_.bits == 1 else SIGNED)]
        if isinstance(type_, VoidType):
            return []
        return [register for part in self.group(value) for register in self.argument(Argument(part))]

    def room_for_copy(self, size: int, align: int) -> Pointer:
        """An object of the frame for an argument. Calls share it: nobody needs it after the call."""
        self.copied += 1
        key = size, align, self.copied
        if key not in self.copies:
            self.copies[key] = self.local_object("argument", size, align)
        return self.copies[key]

    def copy_object(self, to: Pointer, source: Pointer, size: int, align: int) -> None:
        if align % WORD == 0 and size % WORD == 0 and size <= WORD * MOST_WORDS_INLINE:
            for at in range(0, size, WORD):
                self.store_word(self.further(to, at), self.load_word(self.further(source, at)))
            return
        self.runtime("memcpy", [self.whole(to), self.whole(source), self.constant(size)])

    def variadic_arguments(self, arguments: list[Argument]) -> list[int]:
        """The words that a variadic function reads: each argument at its alignment, at least four bytes."""
        at = 0
        placed: list[tuple[int, int, Argument]] = []
        for argument in arguments:
            type_ = self.layouts.plain(argument.value.type)
            if not isinstance(type_, (PointerType, IntType)) or bits_of(type_) > 64:
                said = self.left_out(type_)
                raise Untranslated(f"{said} among variable arguments" if isinstance(type_, IntType) else said)
            size = max(4, self.layouts.size(type_))
            at = -(-at // size) * size
            placed.append((at, size, argument))
            at += size
        words: dict[int, int] = {}
        for at, size, argument in placed:
            if size == WORD:
                words[at // WORD] = self.argument(argument)[0]
                continue
            if at % WORD == 0:
                low = self.number(argument.value, ZEROED)
                words[at // WORD] = low
            else:
                high = self.op("shl", self.number(argument.value, RAW), self.constant(32))
                before = words.get(at // WORD)
                words[at // WORD] = high if before is None else self.op("or", high, before)
        return [words.get(number, self.constant(0)) for number in range(max(words, default=-1) + 1)]

    def result(self, made: Instruction, call: Call) -> None:
        type_ = self.layouts.plain(made.type)
        if isinstance(type_, VoidType):
            return
        name = made.name or f"?{self.code.registers}"
        self.receive(name, type_, call.results, "zeroext" in made.words)
        if len(call.results) > ARGUMENTS:
            raise Untranslated("a result of more than six words")

    def receive(self, name: str, type_: Type, registers: list[int], zeroed: bool) -> None:
        """Says where a value is that comes in registers, which are new."""
        type_ = self.layouts.plain(type_)
        if isinstance(type_, PointerType):
            registers.append(self.code.new())
            self.pointers[name] = Pointer(registers[-1])
        elif isinstance(type_, IntType) and type_.bits <= 64:
            registers.append(self.code.new())
            self.later.append((name, type_, registers[-1], ZEROED if zeroed or type_.bits == 1 else SIGNED))
            if not self.collecting:
                self.settle()
        else:
            outer, self.collecting = self.collecting, True
            parts: list[Value] = []
            for number, (_, part) in enumerate(self.parts(type_)):
                parts.append(Local(part, f"{name}?{number}"))
                self.receive(f"{name}?{number}", part, registers, False)
            self.groups[name] = parts
            self.collecting = outer
            if not self.collecting:
                self.settle()

    collecting = False

    def settle(self) -> None:
        """Makes the forms of numbers that have come."""
        waiting, self.later = self.later, []
        for name, type_, register, known in waiting:
            if self.from_others:
                register = self.converted(register, bits_of(type_), known)
            self.define(name, type_, register, known)

    # Whether what comes in registers is from another program, which may have extended a narrow number in any way.
    from_others = False
    later: list[tuple[str, Type, int, str]] = []

    def runtime(self, name: str, arguments: list[int], result: bool = False) -> int:
        """A call of a function of the library."""
        call = Call(self.names.label(name), arguments)
        if result:
            call.results.append(self.code.new())
        self.emit("call", extra=call)
        return call.results[0] if result else 0

    def assembler(self, made: Instruction) -> None:
        raise NotImplementedError

    def intrinsic(self, made: Instruction, name: str) -> None:
        raise NotImplementedError

    def machine_operation(self, made: Instruction, op: str) -> None:
        raise NotImplementedError
