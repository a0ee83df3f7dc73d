"""The names of a program as one of its modules knows them."""

from __future__ import annotations

from dataclasses import dataclass
from typing import TYPE_CHECKING, Optional

from mm.cc.calls import strip_casts
from mm.cc.code import Variable
from mm.cc.data import Constants, Words
from mm.cc.ir import Function, Global, GlobalObject, Module, Value, Zero
from mm.cc.lines import Lines
from mm.cc.lowering import Names
from mm.cc.pointers import Known

if TYPE_CHECKING:
    from mm.cc.program import Program

# What the header mm.h makes of the names of doors, and of words that several programs share.
DOOR, SHARED, EMPTY = "mm_door_", "mm_shared_", "mm_empty_"
# The names that Clang gives the function `main`.
MAINS = ("main", "__main_argc_argv", "__main_void", "__original_main")
# Functions that are written in the machine's own operations.
ASSEMBLER = {
    "setjmp": ["st r0, r7, 0, any, keep", "st r0, r8, 8, any, keep", "st r0, r9, 16, any, keep",
               "st r0, r10, 24, any, keep", "st r0, r11, 32, any, keep", "st r0, r14, 40, any, keep",
               "st r0, r15, 48, any, keep", "ldi r0, 0", "jmp r14"],
    "longjmp": ["ld r7, r0, 0, any, keep", "ld r8, r0, 8, any, keep", "ld r9, r0, 16, any, keep",
                "ld r10, r0, 24, any, keep", "ld r11, r0, 32, any, keep", "ld r14, r0, 40, any, keep",
                "ld r15, r0, 48, any, keep", "mov r0, r1", "bnz r0, 2", "ldi r0, 1", "jmp r14"],
}
# An event of a slot that this one handles goes to four words.
ASSEMBLER["__mm_event"] = ["mov r12, r0", "evt r0", "st r12, r0, 0, any, keep", "st r12, r1, 8, any, keep",
                           "st r12, r2, 16, any, keep", "st r12, r3, 24, any, keep", "jmp r14"]
# The stack from here on, where pointers to blocks of `malloc` are looked for.
ASSEMBLER["__mm_stack"] = ["mov r0, r15", "jmp r14"]
# A jump out of functions that leave nothing in their frames: what it leaves behind is cleared.
WIPING = {"longjmp": [*ASSEMBLER["longjmp"][:6], "ld r13, r0, 48, any, keep", *ASSEMBLER["longjmp"][7:-1],
                      "eq r12, r15, r13", "bnz r12, 5", "st r15, r12, 0, any, keep", "leai r15, r15, 8",
                      "eq r12, r15, r13", "bz r12, -3", "jmp r14"]}
WIPING["_longjmp"] = WIPING["longjmp"]
ASSEMBLER["_setjmp"] = ASSEMBLER["setjmp"]
ASSEMBLER["_longjmp"] = ASSEMBLER["longjmp"]


@dataclass
class Segment:
    """A global: its segment's name and length, its place there, and whether it may be written."""

    name: str
    module: Module
    made: GlobalObject
    size: int
    known: Known
    writable: bool
    words: Optional[Words] = None


class ModuleNames(Names):
    """The names of a program as one of its modules knows them."""

    def __init__(self, program: Program, module: Module) -> None:
        self.program, self.module = program, module
        self.layouts = module.layouts()
        self.constants = Constants(self.layouts, self.resolve)
        self.lines = Lines(module)
        self.declared: dict[str, Variable] = {}

    def fresh(self) -> str:
        return self.program.fresh()

    def label(self, name: str) -> str:
        return self.program.want_function(self.module, name)

    def is_function(self, name: str) -> bool:
        module, there = self.program.found(self.module, name)
        if module is None and name.startswith(DOOR):
            return False
        if module is not None:
            return there in module.functions
        return name in ASSEMBLER or name in self.module.functions

    def function(self, name: str) -> Optional[Function]:
        module, there = self.program.found(self.module, name)
        return (module or self.module).functions.get(there)

    def is_door(self, name: str) -> bool:
        return name.startswith(DOOR)

    def door(self, name: str, arguments: int) -> Optional[str]:
        is_foreign = self.is_door(name) and self.program.found(self.module, name)[0] is None
        return self.program.entering.door(name[len(DOOR):], arguments) if is_foreign else None

    def through_pointer(self, arguments: int, variadic: bool, stays: bool) -> str:
        return "" if self.program.is_alone else self.program.entering.pointer(arguments, variadic, stays)

    def segment(self, name: str) -> tuple[str, Known]:
        found = self.program.want_global(self.module, name)
        return found.name, found.known

    def known_segment(self, name: str) -> Optional[str]:
        """The segment of a global that is part of the program already."""
        home, there = self.program.found(self.module, name)
        found = self.program.segments.get((id(home), there))
        return found.name if found else None

    def resolve(self, value: Value) -> Value:
        while isinstance(value, Global):
            if self.is_absent(value.name):
                return Zero(value.type)
            module = self.program.home(self.module, value.name) or self.module
            if value.name not in module.aliases:
                break
            target = module.aliases[value.name].value
            if module is not self.module and isinstance(strip_casts(target), Global):
                # What it stands for has a name of that module.
                break
            value = target
        return value

    def is_absent(self, name: str) -> bool:
        """Whether nothing defines a name that is weak where it is used: its address is null."""
        function, made = self.module.functions.get(name), self.module.globals.get(name)
        weak = function is not None and "extern_weak" in function.words or made is not None and made.weak and made.value is None
        return weak and self.program.home(self.module, name) is None

    def declare(self, name: str, variable: Variable) -> None:
        self.declared.setdefault(name, variable)

    def told(self, made: GlobalObject) -> tuple[str, int]:
        """The name of a global in C, and the number of its type."""
        debug, types = self.module.debug, self.program.types
        if made.name in self.declared:
            node = self.declared[made.name].node
            return self.lines.name_of(node), types.of_variable(node, debug)
        name, type_ = types.of_global(made.debug, debug)
        return name or made.name.rpartition(".")[2], type_

    def where(self, function: Function, location: Optional[str]) -> tuple[str, Optional[str]]:
        """The file and the function of a place in C, and the place; without a location, where the function begins."""
        inner = self.lines.function_at(location) or self.lines.name_of(function.debug or "")
        place = self.lines.position(location) or self.lines.of_function(function.debug)
        name = inner if inner != "?" else "main" if function.name in MAINS else function.name
        return f"{self.module.name}: {name}", place


def public_name(name: str) -> str:
    """The segment of a door, or of words that are shared: other programs know it by this name."""
    if name.startswith(DOOR):
        return "door_" + name[len(DOOR):]
    return name[len(SHARED if name.startswith(SHARED) else EMPTY):]
