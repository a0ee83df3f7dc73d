"""Stores to a part of a word that several programs share. Such a store loads the word and stores it again, and what another
program has stored beside it meanwhile is lost: `mm cc` warns of it."""

from __future__ import annotations

from typing import Iterator, Optional

from mm.cc.ir import Expression, Function, Global, Instruction, IntType, Local, Module, Value
from mm.cc.modulenames import EMPTY, SHARED, public_name
from mm.cc.program import Program

WORD_BITS = 64
MOVES = ("getelementptr", "bitcast", "addrspacecast")


def shared_object(place: Value, made: dict[str, Instruction]) -> Optional[str]:
    """The name of the shared words that a pointer leads into, if it does."""
    while True:
        if isinstance(place, Global):
            return place.name if place.name.startswith((SHARED, EMPTY)) else None
        if isinstance(place, Expression) and place.op in MOVES:
            place = place.parts[0]
            continue
        moved = made.get(place.name) if isinstance(place, Local) else None
        if moved is None or moved.op not in MOVES:
            return None
        place = moved.operands[0]


def stores(program: Program, module: Module, function: Function) -> Iterator[tuple[str, Instruction]]:
    """The stores of a function to a part of a shared word, unless there is nothing else in these words."""
    made = {each.name: each for block in function.blocks for each in block.body if each.name}
    layouts = program.names[id(module)].layouts
    for block in function.blocks:
        for each in block.body:
            if each.op != "store" or "atomic" in each.words:
                continue
            name, type_ = shared_object(each.operands[1], made), layouts.plain(each.operands[0].type)
            if name is None or not isinstance(type_, IntType) or type_.bits >= WORD_BITS:
                continue
            if layouts.size(module.globals[name].type) > layouts.size(type_):
                yield public_name(name), each


def warnings(program: Program) -> Iterator[str]:
    """What is warned of, each place once."""
    told: set[str] = set()
    modules = {id(module): module for module in program.modules}
    for at, name in program.labels:
        module = modules.get(at)
        function = module.functions.get(name) if module is not None else None
        if module is None or function is None:
            continue
        for shared, made in stores(program, module, function):
            place = program.names[at].lines.position(made.debug) or module.name
            text = (f"{place}: warning: this stores a whole word of `{shared}`, which is shared: what others store beside it "
                    "meanwhile is lost")
            if text not in told:
                told.add(text)
                yield f"{text}\n    with `_Atomic` in its type nothing is lost"
