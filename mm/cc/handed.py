"""Numbers that come through doors. A word that is handed over keeps its tag as long as nobody computes with it: a parameter of the type
`long` may be a pointer with all its rights. Here is found where a program stores such a word as it came."""

from __future__ import annotations

from dataclasses import dataclass
from typing import Iterator, Optional

from mm.cc.calls import strip_casts
from mm.cc.ir import Function, Global, Instruction, IntType, Local, Module, PointerType, Value
from mm.cc.program import DOOR, Program

# What gives a word on as it is. Wider numbers have their sign already; other arithmetic leaves no tag.
ALONG = ("phi", "select", "freeze", "bitcast", "addrspacecast", "sext", "zext", "inttoptr", "ptrtoint")
MOVES = ("getelementptr", "bitcast", "addrspacecast")
STORES = ("st_", "wreg")
INT_BITS, WORD_BITS = 32, 64
Key = tuple[int, str]


@dataclass(frozen=True)
class Came:
    """A word that came through a door: what is said of it, its name, and where it was handed to the library, if it was."""

    what: str
    name: str
    place: Optional[str] = None
    to: str = ""


class Flow:
    """What of a function's values are words as they came."""

    def __init__(self, handed: Handed, module: Module, function: Function) -> None:
        self.handed, self.module, self.function = handed, module, function
        self.made = {made.name: made for block in function.blocks for made in block.body if made.name}
        self.all = [made for block in function.blocks for made in block.body]
        self.tested = {name for made in self.all if called(made) == "__mm_op_isptr" for name in self.chain(made.arguments[0].value)}
        self.came: dict[str, Came] = {}

    def run(self, parameters: dict[int, Came]) -> None:
        """Goes on until nothing more is found."""
        for at, came in parameters.items():
            value = self.function.parameters[at].value
            if isinstance(value, Local):
                self.came.setdefault(value.name, came)
        before = -1
        while before != len(self.came):
            before = len(self.came)
            for made in self.all:
                self.look(made)

    def look(self, made: Instruction) -> None:
        """Adds what an instruction gives on, into a value, into a local object, or to another function."""
        found: Optional[Came] = None
        if made.op in ALONG:
            values = made.operands[1:] if made.op == "select" else made.operands
            found = next((came for came in map(self.of, values) if came), None) if self.keeps(made) else None
        elif made.op == "load":
            root = self.root(made.operands[0])
            found = self.came.get(root) if root and is_whole(made) else None
        elif made.op == "store":
            came, root = self.of(made.operands[0]), self.root(made.operands[1])
            if came and root:
                self.came.setdefault(root, came)
        elif made.op == "call":
            found = self.handed.call(self, made)
        if found and made.name:
            self.came.setdefault(made.name, found)

    @staticmethod
    def keeps(made: Instruction) -> bool:
        """Whether a tag stays: an `int` that is widened without its sign is computed."""
        type_ = made.operands[0].type if made.op == "zext" else None
        return not (isinstance(type_, IntType) and type_.bits >= INT_BITS)

    def of(self, value: Value) -> Optional[Came]:
        """What a value is, if it is a word as it came that nobody has tested."""
        if not isinstance(value, Local) or value.name not in self.came or self.tested & set(self.chain(value)):
            return None
        return self.came[value.name]

    def chain(self, value: Value) -> Iterator[str]:
        """The names under which a value was known before."""
        while isinstance(value, Local):
            yield value.name
            made = self.made.get(value.name)
            if made is None or made.op not in (*ALONG[2:], "load"):
                return
            value = made.operands[0]

    def root(self, place: Value) -> Optional[str]:
        """The local object that a pointer leads into, if it does."""
        while isinstance(place, Local):
            made = self.made.get(place.name)
            if made is None:
                return None
            if made.op == "alloca":
                return place.name
            if made.op not in MOVES:
                return None
            place = made.operands[0]
        return None

    def stored(self) -> Iterator[tuple[Instruction, Came]]:
        """The instructions that store such a word where others may load it."""
        for made in self.all:
            if made.op == "store" and self.root(made.operands[1]) is None:
                came = self.of(made.operands[0])
                if came and is_word(made.operands[0]):
                    yield made, came
            name = called(made)
            if name.startswith("__mm_op_") and name[len("__mm_op_"):].startswith(STORES):
                came = self.of(made.arguments[-1].value)
                if came:
                    yield made, came
            if name.startswith("llvm.mem") and len(made.arguments) > 1:
                source = self.root(made.arguments[1].value)
                if source in self.came and self.root(made.arguments[0].value) is None:
                    yield made, self.came[source]

    def gives(self) -> Optional[Came]:
        """What the function gives back, if it is such a word."""
        return next((came for made in self.all if made.op == "ret" for came in map(self.of, made.operands) if came), None)


def called(made: Instruction) -> str:
    """The name of the function that is called; none for another instruction."""
    callee = strip_casts(made.callee) if made.op == "call" and isinstance(made.callee, Value) else None
    return callee.name if isinstance(callee, Global) else ""


def is_whole(made: Instruction) -> bool:
    return isinstance(made.type, PointerType) or isinstance(made.type, IntType)


def is_word(value: Value) -> bool:
    """Whether a store of a value stores a whole word. Others put their bytes into a word by arithmetic."""
    return isinstance(value.type, PointerType) or isinstance(value.type, IntType) and value.type.bits == WORD_BITS


class Handed:
    """The words of a program that came through doors, from function to function."""

    def __init__(self, program: Program) -> None:
        self.program = program
        modules = {id(module): module for module in program.modules}
        self.functions = {
            (at, name): (modules[at], modules[at].functions[name])
            for at, name in program.labels
            if at in modules and name in modules[at].functions
        }
        self.parameters: dict[Key, dict[int, Came]] = {}
        self.results: dict[Key, Came] = {}
        self.changed = True
        for (at, name), (_, function) in self.functions.items():
            if name.startswith(DOOR):
                self.enters((at, name), function)

    def enters(self, key: Key, function: Function) -> None:
        """The parameters of a door that are numbers."""
        for at, parameter in enumerate(function.parameters):
            if isinstance(parameter.type, IntType) and isinstance(parameter.value, Local):
                name = parameter.value.name
                called_so = name if not name.isdigit() else f"argument {at + 1}"
                what = f"`{called_so}` comes through the door `{function.name[len(DOOR):]}`, and is"
                self.parameters.setdefault(key, {})[at] = Came(what, called_so)

    def call(self, flow: Flow, made: Instruction) -> Optional[Came]:
        """Follows a call into a function of the program; what it gives, if that is a word as it came."""
        name = called(made)
        home, own = self.program.found(flow.module, name) if name else (None, name)
        if home is None or own not in home.functions:
            is_number = isinstance(made.type, IntType)
            return Came(f"what the door `{name[len(DOOR):]}` gives is", "") if name.startswith(DOOR) and is_number else None
        key, name = (id(home), own), own
        if key not in self.functions:
            return None
        there = self.parameters.setdefault(key, {})
        for at, argument in enumerate(made.arguments[: len(home.functions[name].parameters)]):
            came = flow.of(argument.value)
            if came and at not in there:
                there[at], self.changed = self.handed_on(came, flow, made, home, name), True
        return self.results.get(key)

    def handed_on(self, came: Came, flow: Flow, made: Instruction, home: Module, name: str) -> Came:
        """The word as the called function knows it. What the library does with it is told at the call."""
        library = self.program.modules[-1]
        if home is not library or flow.module is library:
            return came
        return Came(came.what, came.name, self.place(flow.module, made), f"handed to `{name}`, which stores it")

    def place(self, module: Module, made: Instruction) -> Optional[str]:
        return self.program.names[id(module)].lines.position(made.debug)

    def flows(self) -> Iterator[Flow]:
        """Each function in which there can be such a word, once all are known."""
        while self.changed:
            self.changed = False
            found = []
            for key, (module, function) in self.functions.items():
                flow = Flow(self, module, function)
                flow.run(self.parameters.get(key, {}))
                given = flow.gives()
                if given and key not in self.results:
                    self.results[key], self.changed = given, True
                found.append(flow)
        yield from found

    def warnings(self) -> Iterator[str]:
        """Where such a word is stored as it came, each place once."""
        told: set[str] = set()
        for flow in self.flows():
            for made, came in flow.stored():
                place = came.place or self.place(flow.module, made)
                said = came.to or "stored as it came"
                text = f"{place or flow.module.name}: warning: {came.what} {said}: it may be a pointer, with all its rights"
                if text not in told:
                    told.add(text)
                    yield f"{text}\n    `mm_number({came.name if came.name.isidentifier() else '..'})` makes a number of it"


def warnings(program: Program) -> Iterator[str]:
    """What is warned of in a program that has doors, or enters those of others."""
    known = any(name.startswith(DOOR) for module in program.modules for name in module.functions)
    return Handed(program).warnings() if known else iter(())
