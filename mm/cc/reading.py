"""Reads the types and values of LLVM's text, with typed pointers (LLVM 14) or opaque ones (15 and later)."""

from __future__ import annotations

import re
from typing import Optional

from mm.cc.ir import (
    FLOAT_SIZES,
    POINTER,
    VOID,
    ArrayType,
    BlockAddress,
    Expression,
    FloatNumber,
    FloatType,
    FunctionType,
    Global,
    IntType,
    Local,
    NamedType,
    Number,
    Parts,
    StructType,
    Text,
    Type,
    Undefined,
    Value,
    VectorType,
    Zero,
)
from mm.cc.untranslated import Untranslated

TOKEN = re.compile(
    r'c?"(?:[^"\\]|\\.)*"|[%@](?:[-\w.$]+|"[^"]*")|\.\.\.|![\w.]*|-?\d[\w.+-]*|[A-Za-z_][\w.]*|[^\s\w]'
)
INT = re.compile(r"i\d+")
CASTS = {"bitcast", "inttoptr", "ptrtoint", "trunc", "zext", "sext", "addrspacecast"}
FLOAT_CASTS = {"fptrunc", "fpext", "fptoui", "fptosi", "uitofp", "sitofp"}
BINARY = {"add", "sub", "mul", "udiv", "sdiv", "urem", "srem", "shl", "lshr", "ashr", "and", "or", "xor"}
FLOATING = {"fadd", "fsub", "fmul", "fdiv", "frem", "fneg", "fcmp"}
FLAGS = {"nsw", "nuw", "exact", "inbounds", "nneg", "disjoint", "samesign", "nusw", "fast", "nnan", "ninf", "nsz",
         "arcp", "contract", "afn", "reassoc"}
CONSTANTS = {"null", "undef", "poison", "true", "false", "zeroinitializer", "none", "getelementptr", "blockaddress",
             "icmp", "select", "asm", "dso_local_equivalent", "no_cfi", "splat",
             *CASTS, *BINARY, *FLOATING, *FLOAT_CASTS}
LINKAGES_INTERNAL = {"private", "internal"}
LINKAGES_WEAK = {"weak", "weak_odr", "linkonce", "linkonce_odr", "common", "extern_weak", "available_externally"}
BASIC: dict[str, Type] = {name: FloatType(name) for name in FLOAT_SIZES}
BASIC.update({"void": VOID, "label": VOID, "metadata": VOID, "token": VOID, "opaque": VOID, "ptr": POINTER,
              "x86_mmx": VectorType(2, IntType(32))})

# Functions and blocks whose address was met since the reading of a module began.
ADDRESSED: set[tuple[str, str]] = set()


def bare(name: str) -> str:
    """A name without its sign and quotes."""
    name = name[1:]
    return name[1:-1] if name.startswith('"') else name


def unescape(text: str) -> bytes:
    """The bytes of a constant text, in which others than plain letters are two digits after a backslash."""
    raw = text.encode("latin-1", "replace")

    def byte(found: re.Match[bytes]) -> bytes:
        return found[1] if found[1] == b"\\" else bytes([int(found[1], 16)])

    return re.sub(rb"\\([0-9A-Fa-f]{2}|\\)", byte, raw)


class Reader:
    """Reads types and values from the tokens of a line."""

    def __init__(self, line: str) -> None:
        self.tokens = TOKEN.findall(line)
        self.tokens.append("")
        self.at = 0

    @property
    def token(self) -> str:
        return self.tokens[self.at]

    def next(self) -> str:
        self.at += 1
        return self.tokens[self.at - 1]

    def take(self, token: str) -> bool:
        if self.tokens[self.at] == token:
            self.at += 1
            return True
        return False

    def want(self, token: str) -> None:
        if self.next() != token:
            raise Untranslated(f"`{token}` expected near `{' '.join(self.tokens[max(0, self.at - 4):self.at + 3])}`")

    def skip_group(self) -> None:
        """Skips brackets and what is between them."""
        self.want("(")
        depth = 1
        while depth:
            token = self.next()
            if not token:
                raise Untranslated("a bracket that does not end")
            depth += (token == "(") - (token == ")")

    # Types

    def type(self) -> Type:
        found = self._first_type()
        while True:
            if self.token == "*":
                self.at += 1
                found = POINTER
            elif self.token == "addrspace":
                self.at += 1
                self.skip_group()
            elif self.token == "(":
                found = self._function_type(found)
            else:
                return found

    def _first_type(self) -> Type:
        token = self.next()
        if INT.fullmatch(token):
            return IntType(int(token[1:]))
        if token in BASIC:
            return BASIC[token]
        if token[:1] == "%":
            return NamedType(bare(token))
        if token == "[":
            count = int(self.next())
            self.want("x")
            element = self.type()
            self.want("]")
            return ArrayType(count, element)
        if token == "{":
            return self._structure(False)
        if token == "<":
            if self.take("{"):
                found = self._structure(True)
                self.want(">")
                return found
            if self.take("vscale"):
                raise Untranslated("a vector without a length")
            count = int(self.next())
            self.want("x")
            element = self.type()
            self.want(">")
            return VectorType(count, element)
        raise Untranslated(f"the type `{token}`")

    def _structure(self, packed: bool) -> StructType:
        fields: list[Type] = []
        while not self.take("}"):
            fields.append(self.type())
            self.take(",")
        return StructType(tuple(fields), packed)

    def _function_type(self, result: Type) -> FunctionType:
        self.want("(")
        parameters: list[Type] = []
        variadic = False
        while not self.take(")"):
            if self.take("..."):
                variadic = True
            else:
                parameters.append(self.type())
                self.words()
            self.take(",")
        return FunctionType(result, tuple(parameters), variadic)

    # Values

    def words(self) -> tuple[frozenset[str], Optional[Type]]:
        """What is said of an operand between its type and its value: words, and the type of what is handed over by
        value."""
        found: set[str] = set()
        by_value = None
        while self.token[:1].isalpha() and self.token not in CONSTANTS and not self.token.startswith('c"'):
            word = self.next()
            if word == "align" and self.token.isdigit():
                found.add(word + self.next())
                continue
            found.add(word)
            if self.token == "(":
                if word in ("byval", "sret", "byref", "inalloca", "preallocated", "elementtype"):
                    self.next()
                    inner = self.type()
                    self.want(")")
                    by_value = inner if word == "byval" else by_value
                else:
                    self.skip_group()
        return frozenset(found), by_value

    def typed(self) -> Value:
        type_ = self.type()
        self.words()
        return self.value(type_)

    def value(self, type_: Type) -> Value:
        token = self.next()
        first = token[:1]
        if first == "%":
            return Local(type_, bare(token))
        if first == "@":
            return Global(type_, bare(token))
        if isinstance(type_, FloatType) and (first.isdigit() or first == "-"):
            return FloatNumber(type_, token)
        if first.isdigit() or first == "-":
            return Number(type_, int(token))
        if token in ("true", "false"):
            return Number(type_, int(token == "true"))
        if token in ("null", "zeroinitializer", "none"):
            return Zero(type_)
        if token in ("undef", "poison"):
            return Undefined(type_)
        if token.startswith('c"'):
            return Text(type_, unescape(token[2:-1]))
        if token in ("[", "{", "<"):
            return self._parts(type_, token)
        if token == "blockaddress":
            self.want("(")
            function = bare(self.next())
            self.want(",")
            block = bare(self.next())
            self.want(")")
            ADDRESSED.add((function, block))
            return BlockAddress(type_, function, block)
        if token in ("dso_local_equivalent", "no_cfi"):
            return Global(type_, bare(self.next()))
        return self._expression(type_, token)

    def _parts(self, type_: Type, opened: str) -> Value:
        if opened == "<" and self.take("{"):
            parts = self._list("}")
            self.want(">")
        else:
            parts = self._list({"[": "]", "{": "}", "<": ">"}[opened])
        return Parts(type_, tuple(parts))

    def _list(self, close: str) -> list[Value]:
        parts = []
        while not self.take(close):
            parts.append(self.typed())
            self.take(",")
        return parts

    def _expression(self, type_: Type, op: str) -> Value:
        while self.token in FLAGS or self.token == "inrange":
            self.next()
            if self.token == "(" and self.tokens[self.at - 1] == "inrange":
                self.skip_group()
        condition = self.next() if op in ("icmp", "fcmp") else ""
        self.want("(")
        if op == "splat":
            part = self.typed()
            self.want(")")
            return Parts(type_, (part,) * type_.count if isinstance(type_, VectorType) else ())
        source = None
        if op == "getelementptr":
            source = self.type()
            self.want(",")
        parts = []
        while not self.take(")"):
            self.take("inrange")
            parts.append(self.typed())
            if op in CASTS and self.take("to"):
                self.type()
            self.take(",")
        if op in FLOATING | FLOAT_CASTS:
            raise Untranslated("floating point")
        return Expression(type_, op, tuple(parts), source, condition)
