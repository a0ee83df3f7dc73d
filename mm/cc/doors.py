"""Doors: the stubs by which a function of a program is entered from others, and the thread that a program asks for."""

from __future__ import annotations

from typing import Optional

from mm.cc.code import ARGUMENTS
from mm.cc.failures import A_STRUCTURE, INSTEAD_OF
from mm.cc.ir import Function, IntType, Module, Number, Parts, PointerType, VoidType, Zero
from mm.cc.modulenames import public_name
from mm.cc.options import Options
from mm.cc.program import DOOR, DOOR_LOG, Failure, Program

THREAD = "__mm_thread"
NO_HANDLER = -1


def doors_of(program: Program) -> list[tuple[Module, Function]]:
    """The doors that a program has."""
    return [(module, door(module, name)) for name, module in program.public.items() if name.startswith(DOOR)]


def door(module: Module, name: str) -> Function:
    """The function of a door. An alias of one, or a variable, has no code of its own to enter."""
    function = module.functions.get(name)
    if function is None:
        raise Failure(f"{module.name}: {name[len(DOOR):]}", "a door that is no function of its own")
    return function


def check(module: Module, function: Function) -> None:
    """A door takes and gives single words, in registers. A structure would stay in memory of whoever enters."""
    layouts = module.layouts()
    if any(parameter.is_in_memory for parameter in function.parameters):
        raise Failure(f"{module.name}: {function.name}", A_STRUCTURE, None, INSTEAD_OF[A_STRUCTURE])
    types = [layouts.plain(parameter.type) for parameter in function.parameters]
    result = layouts.plain(function.result)
    words = all(isinstance(type_, PointerType) or isinstance(type_, IntType) and type_.bits <= 64 for type_ in types)
    given = isinstance(result, (PointerType, VoidType)) or isinstance(result, IntType) and result.bits <= 64
    if not words or not given or len(types) > ARGUMENTS or function.variadic:
        raise Failure(f"{module.name}: {function.name}",
                      "a door with more than six arguments, or one that is neither a number nor a pointer,")


def stub(function: Function, label: str, turn: str) -> list[str]:
    """The segment of a door. Who enters has an enter pointer alone, and cannot see these words.

    The way back must be a pointer that runs or enters; if not, the thread halts, which is no fault, so that no handler
    gets to see where it was. Then the stub waits until the program's stack is there, which one caller at a time has;
    leaves the way back on it; calls the function; takes all away that it left; puts the stack back; and clears the
    registers but for the result. It keeps nothing else of the caller, who has to know by itself where its stack is."""
    name = public_name(function.name)
    void = isinstance(function.result, VoidType)
    cleared = [register for register in range(0 if void else 1, ARGUMENTS + 1)]
    tail = [
        "  ld r6, r15, 8, any, keep", "  ld r14, r15, 0, any, keep",
        "  ldi r12, 0", "  st r15, r12, 0, any, keep", "  st r15, r12, 8, any, keep",
        "  st r6, r15, 0, empty, full",
        *[f"  ldi r{register}, 0" for register in cleared],
        "  ldi r13, 0", "  ldi r15, 0", "  jmp r14",
    ]
    head = [
        "  lip r12, -10", "  ld r6, r12, 0, any, keep", "  ld r13, r6, 0, full, empty",
        "  st r13, r14, 0, any, keep", "  st r13, r6, 8, any, keep", "  mov r15, r13",
        "  ld r12, r12, 8, any, keep", "  jal r14, r12",
    ]
    test = [
        "  isptr r12, r14", f"  bz r12, {7 + len(head) + len(tail)}", "  ldi r12, 60", "  shr r12, r14, r12",
        "  addi r12, r12, -3", "  bz r12, 3", "  addi r12, r12, -2", f"  bnz r12, {1 + len(head) + len(tail)}",
    ]
    return [f".segment {name} {DOOR_LOG}", f"  .ptr rw {turn}", f"  .ptr xu {label}", *test, *head, *tail, "  halt"]


def thread_of(program: Program, options: Options) -> tuple[int, int, Optional[int]]:
    """The slot, the group and the handler's slot of a program: what it says itself, or what the options say."""
    for module in program.modules:
        made = module.globals.get(THREAD)
        if made is not None and isinstance(made.value, (Parts, Zero)):
            parts = made.value.parts if isinstance(made.value, Parts) else ()
            numbers = [part.number if isinstance(part, Number) else 0 for part in parts] or [0, 0, 0]
            handler = numbers[2]
            return numbers[0], numbers[1], None if handler in (NO_HANDLER, 2**32 - 1) else handler
    return options.slot, options.slot, None
