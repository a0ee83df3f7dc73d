"""A `main` beside the doors of its program. It goes on while callers are inside, and `malloc` lets only one at a time give
blocks and take them back: `mm cc` warns if both ask for some."""

from __future__ import annotations

from typing import Iterator

from mm.cc.doors import doors_of
from mm.cc.handed import called
from mm.cc.ir import Function, Module
from mm.cc.modulenames import DOOR, MAINS
from mm.cc.program import Program

BLOCKS = ("malloc", "free")


def asks_for_blocks(program: Program, module: Module, function: Function) -> bool:
    """Whether a function asks for blocks, by itself or by others that it calls by their names."""
    work, seen = [(module, function.name)], {(id(module), function.name)}
    while work:
        module, name = work.pop()
        if name in BLOCKS:
            return True
        for block in module.functions[name].blocks if name in module.functions else ():
            for each in block.body:
                home, callee = program.found(module, called(each)) if called(each) else (None, "")
                if home is not None and (id(home), callee) not in seen:
                    seen.add((id(home), callee))
                    work.append((home, callee))
    return False


def warnings(program: Program) -> Iterator[str]:
    """What is warned of: the doors that ask for blocks as `main` does."""
    main = next((name for name in MAINS if name in program.public), None)
    if main is None or not asks_for_blocks(program, program.public[main], program.public[main].functions[main]):
        return
    for module, function in doors_of(program):
        if asks_for_blocks(program, module, function):
            yield (f"{module.name}: warning: `main` and the door `{function.name[len(DOOR):]}` both ask for blocks, and `malloc` "
                   "can give them the same one\n    let only one of them ask, or put the doors into a program without `main`")
