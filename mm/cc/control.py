"""A whole function: its blocks in order, and what each instruction is translated by."""

from __future__ import annotations

from typing import Optional

from mm.cc.code import Call, Code, CodeBlock
from mm.cc.ends import Ends
from mm.cc.forms import RAW, SIGNED, ZEROED, bits_of
from mm.cc.ir import Block, FloatType, Instruction, IntType, Local, PointerType, Type, Value, VectorType
from mm.cc.modulenames import DOOR
from mm.cc.pointers import Pointer, is_twice, read_unset
from mm.cc.reading import FLOATING, FLOAT_CASTS
from mm.cc.variables import event_of
from mm.cc.untranslated import Untranslated
from mm.cc.vectors import has_floats
from mm.cc.wide import is_plain, is_wide
from mm.cc.wider import is_wider


class Translator(Ends):
    """Translates one function."""

    def translate(self) -> Code:
        function = self.function
        self.refuse_floats()
        self.later = []
        self.moving: dict[str, int] = {}
        self.arriving: dict[str, dict[int, int]] = {}
        self.block_with: dict[str, str] = {}
        self.order = self.reachable()
        self.by_name = {block.name: block for block in self.order}
        self.repeated = self.made_anew()
        self.code.twice = any(is_twice(made) for block in self.order for made in block.body)
        self.code.variadic = function.variadic
        self.promote()
        self.computed = {label for block in self.order if block.body[-1].op == "indirectbr"
                         for label in block.body[-1].labels}
        self.several()
        self.entry()
        self.clear_unset()
        starts: dict[str, CodeBlock] = {}
        first = True
        for block in self.order:
            if not first:
                self.block = CodeBlock(self.labels[block.name])
            first = False
            starts[block.name] = self.block
            self.body(block)
        placed = {block.name for block in self.order}
        self.code.blocks = [starts[block.name] for block in function.blocks if block.name in placed]
        self.block_of = starts
        self.edges()
        return self.code

    def refuse_floats(self) -> None:
        types = [self.function.result, *[parameter.type for parameter in self.function.parameters]]
        for type_ in types:
            if isinstance(self.layouts.plain(type_), FloatType):
                raise Untranslated("floating point")

    def reachable(self) -> list[Block]:
        """The blocks that can be reached, each after one that leads to it."""
        by_name = {block.name: block for block in self.function.blocks}
        seen: set[str] = set()
        order: list[Block] = []
        work: list[tuple[Block, list[str]]] = []

        def open_(block: Block) -> None:
            seen.add(block.name)
            last = block.body[-1]
            targets = list(dict.fromkeys(last.labels + [label for _, label in last.cases]))
            work.append((block, targets))

        open_(self.function.blocks[0])
        while work:
            block, targets = work[-1]
            while targets:
                name = targets.pop()
                if name not in seen:
                    open_(by_name[name])
                    break
            else:
                order.append(block)
                work.pop()
        order.reverse()
        return order

    def made_anew(self) -> set[str]:
        """Objects that a loop makes anew in each turn, as `alloca` does; all others stand in the frame."""
        found: set[str] = set()
        for block in self.order[1:]:
            objects = {made.name for made in block.body if made.op == "alloca" and made.name is not None}
            if objects and block.name in self.reached_from(block):
                found |= objects
        return found

    def reached_from(self, block: Block) -> set[str]:
        """The blocks that can come after one."""
        found: set[str] = set()
        work = [block]
        while work:
            last = work.pop().body[-1]
            for label in [*last.labels, *[label for _, label in last.cases]]:
                if label not in found:
                    found.add(label)
                    work.append(self.by_name[label])
        return found

    def promote(self) -> None:
        for name, type_ in self.promoted.items():
            if isinstance(type_, PointerType):
                self.pointers[name] = Pointer(self.code.new(), self.code.new() if name in self.bases.moved else None)
            else:
                self.numbers[name] = {RAW: self.code.new()}

    def clear_unset(self) -> None:
        """Locals that may be read before they are set hold 0, and not a number that their type does not have."""
        for name in read_unset(self.order, self.promoted):
            self.emit("mov", self.numbers[name][RAW], self.constant(0))

    def several(self) -> None:
        """Registers for values that come from several blocks, before any code: a loop uses them before they are all
        there."""
        for block in self.order:
            for made in block.body:
                if made.op == "phi" and made.name is not None:
                    self.block_with[made.name] = block.name
                    self.place_of_several(made.name, self.layouts.plain(made.type))

    def place_of_several(self, name: str, type_: Type) -> None:
        if isinstance(type_, PointerType):
            offset = self.code.new() if name in self.bases.moved else None
            if self.bases.base.get(name, name) == name:
                self.pointers[name] = Pointer(self.code.new(), offset)
            elif offset is not None:
                self.moving[name] = offset
            else:
                self.moving[name] = -1
        elif isinstance(type_, IntType) and type_.bits <= 64:
            register = self.code.new()
            form = self.forms.carried(name)
            self.numbers[name] = {RAW: register, **({form: register} if form != RAW else {})}
            if type_.bits >= 64:
                self.numbers[name] = {RAW: register, SIGNED: register, ZEROED: register}
        else:
            parts: list[Value] = []
            for number, (_, part) in enumerate(self.parts(type_)):
                parts.append(Local(part, f"{name}?{number}"))
                self.place_of_several(f"{name}?{number}", self.layouts.plain(part))
            self.groups[name] = parts

    def entry(self) -> None:
        """Parameters come in registers, and those after the sixth on the caller's stack."""
        call = Call()
        made = self.emit("entry", extra=call)
        self.collecting = True
        for parameter in self.function.parameters:
            assert isinstance(parameter.value, Local)
            self.receive(parameter.value.name, parameter.value.type, call.results, "zeroext" in parameter.words)
        self.collecting = False
        if self.function.variadic:
            self.variadic_words = self.code.new()
            made.d = self.variadic_words
        self.from_others = self.function.name.startswith(DOOR)
        self.settle()
        self.from_others = False

    # Blocks

    def body(self, block: Block) -> None:
        for made in block.body:
            if made.op == "phi":
                self.forms_of_several(made)
            elif made.op == "debug":
                event = event_of(made, self)
                if event is not None:
                    self.block.events.append((len(self.block.body), event))
            else:
                if made.debug is not None:
                    self.line = made.debug
                self.instruction(made)

    def forms_of_several(self, made: Instruction) -> None:
        """Further forms of a value that comes from several blocks."""
        name = made.name
        if name is None:
            return
        if name in self.numbers and bits_of(made.type) < 64:
            self.numbers[name] = {form: register for form, register in self.numbers[name].items()
                                  if form in (RAW, self.forms.carried(name))}
        if name in self.numbers:
            have = self.numbers[name]
            for form in self.forms.of(name):
                if form not in have:
                    have[form] = self.converted(have[RAW], bits_of(made.type), form)
        elif name in self.moving:
            start = self.base_pointer(self.bases.base[name])
            offset = self.moving[name]
            self.pointers[name] = Pointer(start, None if offset < 0 else offset)

    def base_pointer(self, base: Optional[str]) -> int:
        assert base is not None
        if base == "null":
            return self.constant(0)
        if base.startswith("@"):
            from mm.cc.ir import POINTER, Global

            return self.pointer(Global(POINTER, base[1:])).base
        if base in self.bases.constants:
            return self.pointer(self.bases.constants[base]).base
        return self.pointers[base].base if base in self.pointers else self.numbers[base][RAW]

    def instruction(self, made: Instruction) -> None:
        handler = self.HANDLERS.get(made.op)
        if handler is None:
            floats = made.op in FLOATING or made.op in FLOAT_CASTS
            raise Untranslated("floating point" if floats else f"the operation {made.op}")
        getattr(self, handler)(made)

    HANDLERS = {
        **{op: "binary" for op in ("add", "sub", "mul", "udiv", "sdiv", "urem", "srem", "shl", "lshr", "ashr", "and",
                                   "or", "xor")},
        "zext": "width", "sext": "width", "trunc": "width", "freeze": "freeze", "icmp": "compare", "select": "select",
        "ptrtoint": "pointer_to_number", "inttoptr": "number_to_pointer", "bitcast": "bitcast",
        "addrspacecast": "bitcast", "getelementptr": "element", "load": "load", "store": "store", "alloca": "alloca",
        "call": "call", "br": "branch", "switch": "switch", "ret": "give_back", "unreachable": "unreachable",
        "indirectbr": "indirect", "extractvalue": "extract", "insertvalue": "insert", "fence": "fence",
        "extractelement": "extract_element", "insertelement": "insert_element", "shufflevector": "shuffle",
        "atomicrmw": "read_and_write", "cmpxchg": "compare_and_change",
    }

    def binary(self, made: Instruction) -> None:
        if isinstance(made.type, IntType) and made.type.bits <= 64:
            super().binary(made)
        elif is_wide(made.type):
            self.wide_binary(made)
        elif is_wider(made.type):
            self.wider_binary(made)
        elif isinstance(made.type, VectorType) and not has_floats(made.type):
            self.by_element(made, made.type.element)
        else:
            raise Untranslated(self.left_out(made.type))

    def width(self, made: Instruction) -> None:
        source = made.operands[0].type
        if isinstance(made.type, VectorType):
            self.by_element(made, made.type.element)
        elif any(is_wide(type_) or is_wider(type_) for type_ in (made.type, source)):
            self.wide_width(made)
        elif is_plain(made.type) and is_plain(source):
            super().width(made)
        else:
            raise Untranslated(self.left_out(source if is_plain(made.type) else made.type))

    def number_to_pointer(self, made: Instruction) -> None:
        assert made.name is not None
        self.pointers[made.name] = self.pointer_of_number(made.operands[0])

    def bitcast(self, made: Instruction) -> None:
        assert made.name is not None
        operand = made.operands[0]
        if isinstance(made.type, PointerType) and isinstance(operand.type, PointerType):
            self.pointers[made.name] = self.pointer(operand)
        elif is_plain(made.type) and is_plain(operand.type):
            self.define(made.name, made.type, self.number(operand, RAW))
        elif has_floats(made.type) or has_floats(operand.type):
            raise Untranslated("floating point")
        else:
            self.through_object(made)

    def element(self, made: Instruction) -> None:
        assert made.name is not None
        self.pointers[made.name] = self.moved(self.pointer(made.operands[0]), made.source, made.operands[1:])

    def fence(self, made: Instruction) -> None:
        """Threads see each other's stores at once."""
