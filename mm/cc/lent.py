"""Pointers to locals that a program hands to doors of others. Who is behind the door can keep them, and the frame of another
function comes to stand there later, with its ways back: `mm cc` warns of it."""

from __future__ import annotations

from typing import Iterator, Optional

from mm.cc.handed import MOVES, called
from mm.cc.ir import Function, Instruction, Local, Module, Value
from mm.cc.program import DOOR, Program

# What Clang calls an array whose length is known at the run alone.
UNNAMED = "vla"


def local_object(place: Value, made: dict[str, Instruction]) -> Optional[str]:
    """The name of the local object that a pointer leads into, if it does."""
    while isinstance(place, Local) and place.name in made:
        found = made[place.name]
        if found.op == "alloca":
            return place.name
        if found.op not in MOVES:
            return None
        place = found.operands[0]
    return None


def lent(program: Program, module: Module, function: Function) -> Iterator[tuple[Instruction, str, str]]:
    """The calls of doors of others to which a function hands a local, the door, and the local's name in C."""
    made = {each.name: each for block in function.blocks for each in block.body if each.name}
    for block in function.blocks:
        for each in block.body:
            name = called(each)
            if not name.startswith(DOOR) or program.found(module, name)[0] is not None:
                continue
            for argument in each.arguments:
                found = local_object(argument.value, made)
                if found is not None:
                    yield each, name[len(DOOR):], found.partition(".")[0]


def warnings(program: Program) -> Iterator[str]:
    """What is warned of, each place once."""
    told: set[str] = set()
    modules = {id(module): module for module in program.modules}
    for at, name in program.labels:
        module = modules.get(at)
        function = module.functions.get(name) if module is not None else None
        if module is None or function is None:
            continue
        for made, door, local in lent(program, module, function):
            place = program.names[at].lines.position(made.debug) or module.name
            what = f"the local `{local}`" if local.isidentifier() and local != UNNAMED else "a local"
            text = (f"{place}: warning: this hands {what} to the door `{door}`, which can keep the pointer: what the program has "
                    "there later is in its reach")
            if text not in told:
                told.add(text)
                yield f"{text}\n    `static` gives an object a place that nothing else takes"
