"""The ends of blocks, and what is moved on the edges between them."""

from __future__ import annotations


from mm.cc.atomic import Atomic
from mm.cc.code import CodeBlock, Op
from mm.cc.forms import RAW, SIGNED, ZEROED, bits_of
from mm.cc.ir import Block, Instruction, IntType, Local, Number, PointerType, Undefined, Value, Zero
from mm.cc.lowering import signed
from mm.cc.pointers import Pointer
from mm.cc.untranslated import Untranslated

LEAST_TABLE = 5


class Ends(Atomic):
    """Branches, and values that come from several blocks."""

    def branch(self, made: Instruction) -> None:
        if not made.operands or made.labels[0] == made.labels[1]:
            self.go(made.labels[0])
            return
        condition = made.operands[0]
        if isinstance(condition, (Number, Zero, Undefined)):
            self.go(made.labels[0 if isinstance(condition, Number) and condition.number else 1])
            return
        register, turned = self.branch_condition(condition)
        yes, no = (self.labels[label] for label in made.labels)
        self.emit("bz" if turned else "bnz", None, register, extra=yes)
        self.emit("br", extra=no)
        self.block.next = [yes, no]

    def go(self, label: str) -> None:
        self.emit("br", extra=self.labels[label])
        self.block.next = [self.labels[label]]

    def switch(self, made: Instruction) -> None:
        if {label for _, label in made.cases} <= {made.labels[0]}:
            self.go(made.labels[0])
            return
        value = made.operands[0]
        bits = bits_of(value.type)
        cases = sorted((number if bits == 1 else signed(number, bits), self.labels[label])
                       for number, label in made.cases)
        default = self.labels[made.labels[0]]
        self.block.next = list(dict.fromkeys([label for _, label in cases] + [default]))
        if bits > 64:
            self.wide_switch(value, cases, default)
            return
        register = self.number(value, ZEROED if bits == 1 else SIGNED)
        least, most = cases[0][0], cases[-1][0]
        if len(cases) >= LEAST_TABLE and most - least < 4 * len(cases) + 8:
            self.table(register, cases, default)
            return
        for number, label in cases:
            if number:
                self.emit("bnz", None, self.op("eq", register, self.constant(number)), extra=label)
            else:
                self.emit("bz", None, register, extra=label)
        self.emit("br", extra=default)

    def wide_switch(self, value: Value, cases: list[tuple[int, str]], default: str) -> None:
        """Compares both words of a number of up to 128 bits."""
        low, high = self.pair(value, SIGNED)
        for number, label in cases:
            change = self.op("xor", low, self.constant(number)), self.op("xor", high, self.constant(number >> 64))
            self.emit("bz", None, self.op("or", *change), extra=label)
        self.emit("br", extra=default)

    def table(self, register: int, cases: list[tuple[int, str]], default: str) -> None:
        """A row of branches, of which one is jumped to."""
        least, most = cases[0][0], cases[-1][0]
        at = self.plus(register, -least)
        inside = self.op("ltu", at, self.constant(most - least + 1))
        self.emit("bz", None, inside, extra=default)
        by = dict(cases)
        row = [by.get(number, default) for number in range(least, most + 1)]
        self.emit("table", None, self.op("shl", at, self.constant(3)), extra=row)

    def indirect(self, made: Instruction) -> None:
        self.emit("jmp", None, self.whole(self.pointer(made.operands[0])))
        self.block.next = list(dict.fromkeys(self.labels[label] for label in made.labels))

    def give_back(self, made: Instruction) -> None:
        registers: list[int] = []
        if made.operands:
            from mm.cc.ir import Argument

            words = frozenset({"zeroext"}) if "zeroext" in self.function.words else frozenset()
            registers = self.argument(Argument(made.operands[0], words))
        if len(registers) > 6:
            raise Untranslated("a result of more than six words")
        self.emit("ret", extra=tuple(registers))

    def unreachable(self, made: Instruction) -> None:
        self.emit("trap", number=2)

    # Edges between blocks

    def edges(self) -> None:
        """Moves what comes from several blocks, at the end of each of them."""
        self.splits: dict[str, list[CodeBlock]] = {}
        for block in self.order:
            home = self.block_of[block.name]
            last = block.body[-1]
            for target in dict.fromkeys(last.labels + [label for _, label in last.cases]):
                moves = self.moves_of(block.name, target)
                # Where a condition is constant, one of the two is never gone to.
                if not moves or self.labels[target] not in home.next:
                    continue
                if len(set(home.next)) == 1 or last.op == "indirectbr":
                    end = home.body.pop()
                    self.block = home
                    self.copy_together(moves, target in self.computed)
                    home.body.append(end)
                else:
                    self.split(home, self.labels[target], moves, target in self.computed)
        self.code.blocks = [made for block in self.code.blocks
                            for made in (block, *reversed(self.splits.get(block.label, [])))]
        for name in self.computed:
            self.arrivals(name)

    def arrivals(self, name: str) -> None:
        """At a label that is jumped to by its address, values arrive in registers of their own: the jump may lead
        elsewhere."""
        block = self.block_of[name]
        moves = [Op("mov", register, arrival) for register, arrival in self.arriving.get(name, {}).items()]
        block.body[:0] = moves

    def split(self, home: CodeBlock, target: str, moves: list[tuple[Value, Value]], computed: bool) -> None:
        """A block of its own for an edge."""
        edge = CodeBlock(self.names.fresh())
        for op in home.body:
            if op.name in ("br", "bz", "bnz") and op.extra == target:
                op.extra = edge.label
            elif op.name == "table":
                row: list[str] = op.extra  # type: ignore[assignment]
                op.extra = [edge.label if label == target else label for label in row]
        home.next = list(dict.fromkeys(edge.label if label == target else label for label in home.next))
        self.block = edge
        self.copy_together(moves, computed)
        self.emit("br", extra=target)
        edge.next = [target]
        self.splits.setdefault(home.label, []).append(edge)

    def moves_of(self, source: str, target: str) -> list[tuple[Value, Value]]:
        found: list[tuple[Value, Value]] = []
        for made in self.by_name[target].body:
            if made.op != "phi":
                if made.op == "debug":
                    continue
                break
            if made.name is None:
                continue
            for value, label in zip(made.operands, made.labels):
                if label == source:
                    found.append((Local(made.type, made.name), value))
                    break
        return found

    def copy_together(self, moves: list[tuple[Value, Value]], computed: bool) -> None:
        """Moves at one moment: what is moved is taken before anything changes."""
        pairs: list[tuple[int, int]] = []
        self.line = None
        for to, value in moves:
            assert isinstance(to, Local)
            found: list[tuple[int, int]] = []
            self.pairs_of(to, value, found)
            if computed:
                home = self.arriving.setdefault(self.block_with[to.name], {})
                found = [(home.setdefault(d, 0) or self._arrival(home, d), a) for d, a in found]
            pairs += found
        pairs = [(d, a) for d, a in pairs if d != a]
        while pairs:
            free = [pair for pair in pairs if not any(pair[0] == a for _, a in pairs)]
            if free:
                for pair in free:
                    self.emit("mov", pair[0], pair[1])
                    pairs.remove(pair)
                continue
            first = pairs[0][1]
            kept = self.op("mov", first)
            pairs = [(d, kept if a == first else a) for d, a in pairs]

    def _arrival(self, home: dict[int, int], register: int) -> int:
        home[register] = self.code.new()
        return home[register]

    def pairs_of(self, to: Local, value: Value, pairs: list[tuple[int, int]]) -> None:
        type_ = self.layouts.plain(to.type)
        if isinstance(value, Undefined):
            return
        if isinstance(type_, PointerType):
            here, new = self.pointers[to.name], self.pointer(value)
            own = self.bases.base.get(to.name, to.name) == to.name
            if here.offset is not None:
                pairs.append((here.offset, self.distance(new)))
            elif not new.at_base:
                new = Pointer(self.whole(new))
            if own:
                pairs.append((here.base, new.base))
        elif isinstance(type_, IntType) and type_.bits <= 64:
            form = self.forms.carried(to.name) if type_.bits < 64 else RAW
            pairs.append((self.numbers[to.name][RAW], self.number(value, form)))
        else:
            for part, new_part in zip(self.groups[to.name], self.group(value)):
                assert isinstance(part, Local)
                self.pairs_of(part, new_part, pairs)

    order: list[Block]
    by_name: dict[str, Block]
    block_of: dict[str, CodeBlock]
    block_with: dict[str, str]
    arriving: dict[str, dict[int, int]]
    computed: set[str]
