"""Reads the instructions of LLVM's text, a line each."""

from __future__ import annotations

from typing import Optional

from mm.cc.ir import (
    POINTER,
    VOID,
    Argument,
    FunctionType,
    Instruction,
    IntType,
    StructType,
    Type,
    Undefined,
    VectorType,
)
from mm.cc.reading import BASIC, BINARY, CASTS, FLAGS, FLOAT_CASTS, INT, Reader, bare
from mm.cc.untranslated import INSIDE, Untranslated

BITS = {"true": 1, "false": 0}


class InstructionReader(Reader):
    """Reads the instructions of a line."""

    def instruction(self) -> Instruction:
        name = None
        if self.token[:1] == "%" and self.tokens[self.at + 1] == "=":
            name = bare(self.next())
            self.next()
        op = self.next()
        if op in ("tail", "musttail", "notail"):
            op = self.next()
        found = self._body(op)
        found.name = name if found.type != VOID else None
        self._rest(found)
        return found

    def _rest(self, found: Instruction) -> None:
        """What follows after commas: an alignment, and where it comes from in C."""
        tokens, at, end = self.tokens, self.at, len(self.tokens) - 1
        while at < end:
            if tokens[at] == "align" and tokens[at + 1].isdigit():
                found.align = int(tokens[at + 1])
            elif tokens[at] == "!dbg":
                found.debug = tokens[at + 1]
            at += 1

    def _flags(self) -> frozenset[str]:
        found = set()
        while self.token in FLAGS:
            found.add(self.next())
        return frozenset(found)

    def _body(self, op: str) -> Instruction:
        if op in BINARY or op in ("fadd", "fsub", "fmul", "fdiv", "frem"):
            words = self._flags()
            type_ = self.type()
            left = self.value(type_)
            self.want(",")
            return Instruction(op, type_, operands=[left, self.value(type_)], words=words)
        if op in CASTS or op in FLOAT_CASTS:
            words = self._flags()
            operand = self.typed()
            self.want("to")
            return Instruction(op, self.type(), operands=[operand], words=words)
        handler = getattr(self, "_" + op, None)
        if handler is None:
            raise Untranslated(INSIDE if op == "callbr" else f"the operation `{op}`")
        found: Instruction = handler()
        return found

    def _fneg(self) -> Instruction:
        self._flags()
        operand = self.typed()
        return Instruction("fneg", operand.type, operands=[operand])

    def _freeze(self) -> Instruction:
        operand = self.typed()
        return Instruction("freeze", operand.type, operands=[operand])

    def _icmp(self) -> Instruction:
        self._flags()
        condition = self.next()
        left = self.typed()
        self.want(",")
        result: Type = IntType(1)
        if isinstance(left.type, VectorType):
            result = VectorType(left.type.count, result)
        return Instruction("icmp", result, operands=[left, self.value(left.type)], condition=condition)

    def _fcmp(self) -> Instruction:
        self._flags()
        condition = self.next()
        left = self.typed()
        self.want(",")
        return Instruction("fcmp", IntType(1), operands=[left, self.value(left.type)], condition=condition)

    def _select(self) -> Instruction:
        self._flags()
        parts = [self.typed()]
        self.want(",")
        parts.append(self.typed())
        self.want(",")
        parts.append(self.typed())
        return Instruction("select", parts[1].type, operands=parts)

    def _phi(self) -> Instruction:
        self._flags()
        type_ = self.type()
        found = Instruction("phi", type_)
        while self.take("["):
            found.operands.append(self.value(type_))
            self.want(",")
            found.labels.append(bare(self.next()))
            self.want("]")
            if not self.take(","):
                break
        return found

    def _alloca(self) -> Instruction:
        self.take("inalloca")
        source = self.type()
        found = Instruction("alloca", POINTER, source=source)
        if self.token == "," and INT.fullmatch(self.tokens[self.at + 1]):
            self.next()
            found.operands = [self.typed()]
        return found

    def _load(self) -> Instruction:
        words = self._access_words()
        type_ = self.type()
        self.want(",")
        return Instruction("load", type_, operands=[self.typed()], words=words)

    def _store(self) -> Instruction:
        words = self._access_words()
        value = self.typed()
        self.want(",")
        return Instruction("store", operands=[value, self.typed()], words=words)

    def _access_words(self) -> frozenset[str]:
        found = set()
        while self.token in ("volatile", "atomic"):
            found.add(self.next())
        return frozenset(found)

    def _getelementptr(self) -> Instruction:
        words = self._flags()
        source = self.type()
        found = Instruction("getelementptr", POINTER, source=source, words=words)
        while self.take(","):
            if self.token[:1] == "!":
                break
            found.operands.append(self.typed())
        if isinstance(found.operands[0].type, VectorType):
            raise Untranslated("a vector of pointers")
        return found

    def _extractvalue(self) -> Instruction:
        whole = self.typed()
        return Instruction("extractvalue", self._part(whole.type), operands=[whole], indices=self._indices())

    def _part(self, type_: Type) -> Type:
        """The type is found where the instruction is translated, since it may be named."""
        return type_

    def _indices(self) -> tuple[int, ...]:
        found = []
        while self.token == "," and self.tokens[self.at + 1].isdigit():
            self.next()
            found.append(int(self.next()))
        return tuple(found)

    def _insertvalue(self) -> Instruction:
        whole = self.typed()
        self.want(",")
        part = self.typed()
        return Instruction("insertvalue", whole.type, operands=[whole, part], indices=self._indices())

    def _extractelement(self) -> Instruction:
        whole = self.typed()
        self.want(",")
        at = self.typed()
        element = whole.type.element if isinstance(whole.type, VectorType) else VOID
        return Instruction("extractelement", element, operands=[whole, at])

    def _insertelement(self) -> Instruction:
        parts = [self.typed()]
        for _ in range(2):
            self.want(",")
            parts.append(self.typed())
        return Instruction("insertelement", parts[0].type, operands=parts)

    def _shufflevector(self) -> Instruction:
        parts = [self.typed()]
        for _ in range(2):
            self.want(",")
            parts.append(self.typed())
        first, mask = parts[0].type, parts[2].type
        if not isinstance(first, VectorType) or not isinstance(mask, VectorType):
            raise Untranslated("a vector")
        return Instruction("shufflevector", VectorType(mask.count, first.element), operands=parts)

    def _br(self) -> Instruction:
        if self.take("label"):
            return Instruction("br", labels=[bare(self.next())])
        condition = self.typed()
        labels = []
        while self.take(",") and self.take("label"):
            labels.append(bare(self.next()))
        return Instruction("br", operands=[condition], labels=labels)

    def _switch(self) -> Instruction:
        value = self.typed()
        self.want(",")
        self.want("label")
        found = Instruction("switch", operands=[value], labels=[bare(self.next())])
        self.want("[")
        while not self.take("]"):
            self.type()
            number = self.next()
            self.want(",")
            self.want("label")
            found.cases.append((BITS[number] if number in BITS else int(number), bare(self.next())))
        return found

    def _indirectbr(self) -> Instruction:
        target = self.typed()
        self.want(",")
        found = Instruction("indirectbr", operands=[target])
        self.want("[")
        while not self.take("]"):
            self.want("label")
            found.labels.append(bare(self.next()))
            self.take(",")
        return found

    def _ret(self) -> Instruction:
        if self.take("void"):
            return Instruction("ret")
        return Instruction("ret", operands=[self.typed()])

    def _unreachable(self) -> Instruction:
        return Instruction("unreachable")

    def _fence(self) -> Instruction:
        return Instruction("fence")

    def _va_arg(self) -> Instruction:
        raise Untranslated("va_arg of a value that Clang does not take apart")

    def _atomicrmw(self) -> Instruction:
        self.take("volatile")
        op = self.next()
        place = self.typed()
        self.want(",")
        value = self.typed()
        return Instruction("atomicrmw", value.type, operands=[place, value], condition=op)

    def _cmpxchg(self) -> Instruction:
        while self.token in ("weak", "volatile"):
            self.next()
        place = self.typed()
        self.want(",")
        old = self.typed()
        self.want(",")
        new = self.typed()
        return Instruction("cmpxchg", StructType((old.type, IntType(1))), operands=[place, old, new])

    def _call(self) -> Instruction:
        self._flags()
        words, _ = self.words_of_result()
        type_ = self.type()
        signature = None
        if isinstance(type_, FunctionType):
            signature, type_ = type_, type_.result
        found = Instruction("call", type_, words=words, signature=signature)
        if self.token == "asm":
            found.callee = self._asm()
        else:
            found.callee = self.value(POINTER)
        self.want("(")
        while not self.take(")"):
            if self.token == "metadata":
                self._skip_metadata()
                found.arguments.append(Argument(Undefined(VOID)))
            else:
                argument_type = self.type()
                said, by_value = self.words()
                found.arguments.append(Argument(self.value(argument_type), said, by_value))
            self.take(",")
        return found

    def words_of_result(self) -> tuple[frozenset[str], Optional[Type]]:
        """Words before the type of a call's result."""
        found: set[str] = set()
        while True:
            token = self.token
            if token[:1] == "!":
                self.at += 2
                continue
            if not token[:1].isalpha() or INT.fullmatch(token) or token in BASIC:
                return frozenset(found), None
            found.add(self.next())
            if self.token == "(":
                self.skip_group()
            elif token == "align":
                self.next()

    def _asm(self) -> tuple[str, str, frozenset[str]]:
        self.want("asm")
        said = set()
        while not self.token.startswith('"'):
            said.add(self.next())
        text = self.next()[1:-1]
        self.want(",")
        return text, self.next()[1:-1], frozenset(said)

    def _skip_metadata(self) -> None:
        self.next()
        depth = 0
        while True:
            token = self.token
            if not depth and token in (",", ")"):
                return
            depth += (token in "({[" and token != "") - (token in ")}]" and token != "")
            self.next()
