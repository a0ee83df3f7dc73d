"""Reads a module of LLVM's text: its globals, its functions, and what it says for debuggers."""

from __future__ import annotations

import re
from functools import partial

from mm.cc.instructions import InstructionReader
from mm.cc.ir import WORD, Alias, Argument, Block, Function, GlobalObject, Instruction, Local, Module, Zero
from mm.cc.reading import ADDRESSED, LINKAGES_INTERNAL, LINKAGES_WEAK, Reader, bare
from mm.cc.untranslated import Untranslated

DEFINE = re.compile(r"(define|declare)\b")
GLOBAL = re.compile(r'(@(?:[-\w.$]+|"[^"]*")) = (.*)')
DEBUG = re.compile(r"!dbg (!\d+)")
LABEL = re.compile(r'^([-\w.$]+|"[^"]*"):')
# What is said of integers of 128 bits; nothing says that they are aligned like those of 64.
WIDE = re.compile(r"\bi128:(\d+)")


class ModuleReader:
    """Reads a whole module."""

    def __init__(self, text: str, name: str) -> None:
        self.lines = text.splitlines()
        self.module = Module(name)
        self.at = 0

    def read(self) -> Module:
        while self.at < len(self.lines):
            line = self.lines[self.at]
            self.at += 1
            if not line or line[0] == ";":
                continue
            if line[0] == "%":
                self._named_type(line)
            elif line[0] == "@":
                self._global(line)
            elif line.startswith("define"):
                self._function(line)
            elif line.startswith("declare"):
                header = self._header(line)
                self.module.functions.setdefault(header.name, header)
            elif line[0] == "!":
                number, _, rest = line.partition(" = ")
                self.module.debug[number] = rest
            elif line.startswith("target datalayout"):
                wide = WIDE.search(line)
                self.module.wide = int(wide[1]) // 8 if wide else WORD
            elif line.startswith("module asm") and line != 'module asm ""':
                self.module.assembler = True
        return self.module

    def _named_type(self, line: str) -> None:
        reader = Reader(line)
        name = bare(reader.next())
        reader.want("=")
        reader.want("type")
        self.module.types[name] = reader.type()

    def _global(self, line: str) -> None:
        reader = Reader(line)
        name = bare(reader.next())
        reader.want("=")
        said = set()
        while reader.token not in ("global", "constant", "alias", "ifunc"):
            said.add(reader.next())
            if reader.token == "(":
                reader.skip_group()
        kind = reader.next()
        if kind == "ifunc":
            return
        if kind == "alias":
            reader.type()
            reader.want(",")
            self.module.aliases[name] = Alias(reader.typed(), bool(said & LINKAGES_INTERNAL), bool(said & LINKAGES_WEAK))
            return
        type_ = reader.type()
        value = None
        if not said & {"external", "extern_weak"}:
            try:
                value = reader.value(type_)
            except Untranslated as reason:
                self.module.unread[name] = str(reason)
                value = Zero(type_)
        tokens = reader.tokens
        align, debug = 0, None
        for at in range(len(tokens) - 2):
            if tokens[at] == "align" and tokens[at - 1] == ",":
                align = int(tokens[at + 1])
            elif tokens[at] == "!dbg":
                debug = tokens[at + 1]
        internal = bool(said & LINKAGES_INTERNAL)
        self.module.globals[name] = GlobalObject(
            name, type_, kind == "constant", value, align, internal, bool(said & LINKAGES_WEAK), debug
        )

    def _header(self, line: str) -> Function:
        reader = InstructionReader(line)
        reader.next()
        said, _ = reader.words_of_result()
        result = reader.type()
        name = bare(reader.next())
        reader.want("(")
        parameters: list[Argument] = []
        variadic = False
        while not reader.take(")"):
            if reader.take("..."):
                variadic = True
            else:
                parameters.append(self._parameter(reader, len(parameters)))
            reader.take(",")
        debug = None
        for at in range(reader.at, len(reader.tokens) - 1):
            if reader.tokens[at] == "!dbg":
                debug = reader.tokens[at + 1]
        return Function(name, result, parameters, variadic, bool(said & LINKAGES_INTERNAL), bool(said & LINKAGES_WEAK),
                        said, debug=debug)

    def _parameter(self, reader: InstructionReader, number: int) -> Argument:
        type_ = reader.type()
        said, by_value = reader.words()
        name = bare(reader.next()) if reader.token[:1] == "%" else str(number)
        return Argument(Local(type_, name), said, by_value)

    def _function(self, line: str) -> None:
        try:
            function = self._header(line)
        except Untranslated as reason:
            name = re.search(r"@([-\w.$]+)", line)
            self.module.unread[name[1] if name else "?"] = str(reason)
            function = None
        body = self._body_lines()
        if function is not None:
            function.read = partial(self._read, function, body)
            self.module.functions[function.name] = function

    def _read(self, function: Function, body: list[str]) -> list[Block]:
        """The blocks of a function, and in the module the blocks whose address is taken in it."""
        ADDRESSED.clear()
        blocks = self._blocks(function, body)
        self.module.addressed |= ADDRESSED
        return blocks

    def _body_lines(self) -> list[str]:
        first = self.at
        while self.lines[self.at] != "}":
            self.at += 1
        self.at += 1
        return self.lines[first : self.at - 1]

    def _blocks(self, function: Function, body: list[str]) -> list[Block]:
        unnamed = sum(1 for parameter in function.parameters if isinstance(parameter.value, Local)
                      and parameter.value.name.isdigit())
        block = Block(str(unnamed))
        blocks = [block]
        at = 0
        while at < len(body):
            line = body[at]
            at += 1
            if not line or line.lstrip()[:1] == ";":
                continue
            if line[0] != " ":
                label = LABEL.match(line)
                if label:
                    name = label[1].strip('"')
                    if block.body or len(blocks) > 1:
                        block = Block(name)
                        blocks.append(block)
                    else:
                        block.name = name
                continue
            if line.startswith("  switch ") and line.rstrip().endswith("["):
                # Its cases stand in lines of their own, up to the bracket.
                while not line.rpartition(" ")[2].startswith("]") and " ], " not in line:
                    line += " " + body[at].strip()
                    at += 1
            if line.startswith("    #dbg_") or "@llvm.dbg." in line:
                block.body.append(Instruction("debug", condition=line.strip()))
                continue
            if ";" in line and '"' not in line:
                line = line[: line.index(";")]
            block.body.append(_instruction(line))
        return blocks


def _instruction(line: str) -> Instruction:
    try:
        return InstructionReader(line).instruction()
    except Untranslated as reason:
        debug = DEBUG.search(line)
        reason.debug = debug[1] if debug else None
        raise


def read_module(text: str, name: str) -> Module:
    ADDRESSED.clear()
    module = ModuleReader(text, name).read()
    module.addressed = set(ADDRESSED)
    return module
