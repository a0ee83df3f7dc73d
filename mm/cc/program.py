"""A program: the modules of its files and of the library, what of them is used, and the source that is made of it."""

from __future__ import annotations

import re
from typing import Iterator, Optional

from mm.cc.calls import strip_casts
from mm.cc.checked import Checked
from mm.cc.code import Code, log_of, place_in
from mm.cc.control import Translator
from mm.cc.ctypes import Types
from mm.cc.data import Place, Words
from mm.cc.declared import Declared, contradiction, elsewhere, warning
from mm.cc.entering import DOOR_ENTRY, Entering
from mm.cc.failures import INSTEAD, INSTEAD_OF, ONCE, ONE_MAIN, Failure, Failures, Missing, Repeated, instead_of
from mm.cc.ir import POINTER, WORD, ArrayType, BlockAddress, Function, Global, GlobalObject, IntType, Module, Number, Parts
from mm.cc.lines import FunctionNotes
from mm.cc.modulenames import ASSEMBLER, DOOR, EMPTY, MAINS, SHARED, WIPING, ModuleNames, Segment, public_name
from mm.cc.options import Options
from mm.cc.pointers import Known
from mm.cc.sequences import emit
from mm.cc.text import TextBlock, plain_line
from mm.cc.untranslated import Untranslated

MOST_NAME, HEAP = 31, "__mm_heap"
# A pointer to each segment in which a program can have pointers, where the library is to find these.
ROOTS, ROOTS_LOG = "__mm_roots", 11
MOST_LOG = 20
RESERVED = re.compile(r"r\d+|L\d+|P_.*|none|int|ptr|start|stack|text|heap")
OWN_SEGMENTS, OF_DOORS = ("text", "stack", "heap"), ("turn", "door_stack")
# The length of a door's segment.
DOOR_LOG = 9


class Program:
    """A program that is put together from what `main` uses."""

    def __init__(self, modules: list[Module], options: Options) -> None:
        self.modules, self.at_end, self.heap, self.checked = modules, options.at_end, options.heap, options.checked
        self.prefix = options.prefix + "_" if options.prefix else ""
        self.names = {id(module): ModuleNames(self, module) for module in modules}
        self.public: dict[str, Module] = {}
        self.labels: dict[tuple[int, str], str] = {}
        self.segments: dict[tuple[int, str], Segment] = {}
        self.work: list[tuple[Module, str]] = []
        self.texts: list[list[TextBlock]] = []
        self.blocks: dict[tuple[int, str, str], str] = {}
        self.pool: dict[str, str] = {}
        self.counter = 0
        self.undefined: dict[str, Failure] = {}
        # Names that two files define.
        self.repeated: dict[str, Failure] = {}
        # Calls of functions that another file defines with other parameters, or another result.
        self.contradicted: dict[tuple[int, str], str] = {}
        # What is being translated, or the global whose value is written, for what is found wrong there.
        self.current: Optional[tuple[ModuleNames, Translator]] = None
        self.filled: Optional[Segment] = None
        self.types = Types()
        # Doors and shared words of other programs, by their names here.
        self.foreign: set[str] = set()
        for module in modules:
            self._publish(module)
        # A program with doors lends its stack to one caller after the other: its functions leave nothing there.
        self.wipes = any(name.startswith(DOOR) for name in self.public)
        # One with doors or shared words may be handed a pointer to a door of others, and call it.
        known = [name for module in modules for name in (*module.functions, *module.globals)
                 if name.startswith((DOOR, SHARED, EMPTY))]
        self.is_alone = not known
        # The names of segments that no global gets: the program's own, and those that others know.
        own = OWN_SEGMENTS + OF_DOORS if self.wipes else OWN_SEGMENTS
        self.taken = {*(self.prefix + name for name in own), *map(public_name, known)}
        self.entering = Entering(self)

    def _publish(self, module: Module) -> None:
        for name, function in module.functions.items():
            if function.defined and not function.internal and "available_externally" not in function.words:
                self._offer(name, module, function.weak)
        for name, made in module.globals.items():
            if made.value is not None and not made.internal:
                self._offer(name, module, made.weak)
        for name, alias in module.aliases.items():
            if not alias.internal:
                self._offer(name, module, alias.weak)

    def _offer(self, name: str, module: Module, weak: bool) -> None:
        there = next((main for main in MAINS if main in self.public), name) if name in MAINS else name
        if there not in self.public or not weak and self._is_weak(there):
            self.public[name] = module
        elif not weak and module is not self.modules[-1] and module is not self.public[there]:
            # What the library defines too is the program's own. Clang gives `main` two names.
            other, own = self._begins(self.public[there], there) or self.public[there].name, "main" if name in MAINS else name
            said = f"`{own}` is defined here, and {other} defines it too"
            made = Repeated(module.name, said, self._begins(module, name), ONE_MAIN if own == "main" else ONCE)
            self.repeated.setdefault(own, made)

    def _begins(self, module: Module, name: str) -> Optional[str]:
        """Where a module defines a name."""
        made, lines = module.named(name), self.names[id(module)].lines
        return lines.of_function(made.debug) if isinstance(made, Function) else lines.of_global(
            made.debug) if isinstance(made, GlobalObject) else None

    def _is_weak(self, name: str) -> bool:
        made = self.public[name].named(name)
        return made is not None and made.weak

    def home(self, module: Module, name: str) -> Optional[Module]:
        """The module that defines what a module calls by a name."""
        made = module.named(name)
        return module if made is not None and made.internal else self.public.get(name)

    def found(self, module: Module, name: str) -> tuple[Optional[Module], str]:
        """The module that defines what a module calls by a name, and its name there: an alias is another one for it."""
        home = self.home(module, name)
        while home is not None and name in home.aliases:
            value = strip_casts(home.aliases[name].value)
            if not isinstance(value, Global):
                break
            module, name = home, value.name
            home = self.home(module, name)
        return home, name

    def fresh(self) -> str:
        self.counter += 1
        return f"L{self.counter}"

    def mangled(self, name: str) -> str:
        """A name that the assembler takes, which nothing else has."""
        plain = self.prefix + re.sub(r"\W", "_", name)
        if not plain or plain[0].isdigit() or RESERVED.fullmatch(plain):
            plain = "c_" + plain
        found, number = plain[:MOST_NAME], 1
        while found in self.taken:
            number += 1
            found = f"{plain[:MOST_NAME - len(str(number)) - 1]}_{number}"
        self.taken.add(found)
        return found

    # What is used

    def want_function(self, module: Module, called: str) -> str:
        home, name = self.found(module, called)
        if home is None or name not in home.functions:
            if name not in ASSEMBLER:
                self._undefined(name)
            home = None
        elif home is not module and name == called:
            self._compare(module, home, name, module.functions.get(name), home.functions[name])
        key = (id(home), name)
        found = self.labels.get(key)
        if found is None:
            found = self.labels[key] = self.mangled("main" if name in MAINS else name)
            if home is not None:
                self.work.append((home, name))
            elif name in ASSEMBLER:
                block = TextBlock(found)
                lines = WIPING.get(name, ASSEMBLER[name]) if self.wipes else ASSEMBLER[name]
                block.lines = [plain_line(line) for line in lines]
                self.texts.append([block])
        return found

    def _compare(self, module: Module, home: Module, name: str, here: Optional[Declared], there: Declared) -> None:
        """Notes what a file declares otherwise than another one defines it, and where the first uses it."""
        begins = self._begins(home, name)
        if here is None or self.current is None or not begins or (id(module), name) in self.contradicted:
            return
        said = contradiction(name, (here, self.names[id(module)].layouts), (there, self.names[id(home)].layouts))
        if said:
            names, translator = self.current
            _, place = names.where(translator.function, translator.line)
            self.contradicted[id(module), name] = warning(place or module.name, begins, said)

    def want_global(self, module: Module, called: str) -> Segment:
        home, name = self.found(module, called)
        if name.startswith(DOOR) or home is None and name.startswith((SHARED, EMPTY)):
            return self._foreign(module, name)
        if name == HEAP:
            return self._heap(module)
        if name == ROOTS:
            return self._roots(module)
        if home is None or name not in home.globals:
            self._undefined(name)
            home = module
            if name not in home.globals:
                raise self.undefined[name]
        elif home is not module and name == called:
            self._compare(module, home, name, module.globals.get(name), home.globals[name])
        key = (id(home), name)
        found = self.segments.get(key)
        if found is None:
            found = self.segments[key] = self._segment(home, name)
        return found

    def _foreign(self, module: Module, name: str) -> Segment:
        """A door, which may be the program's own, or words that another program shares."""
        found = self.segments.get((0, name))
        if found is None:
            self.foreign.add(public_name(name))
            if name.startswith(DOOR):
                made = GlobalObject(name, IntType(64), True, None)
                found = Segment(public_name(name), module, made, 0, Known(DOOR_ENTRY, DOOR_LOG), False)
            else:
                found = self._segment(module, name)
            self.segments[0, name] = found
        return found

    def _heap(self, module: Module) -> Segment:
        """The memory of `malloc`, as long as was asked for."""
        found = self.segments.get((0, HEAP))
        if found is None:
            made = GlobalObject(HEAP, ArrayType(1 << self.heap, IntType(8)), False, None)
            found = Segment(self.prefix + "heap", module, made, 1 << self.heap, Known(0, self.heap), True)
            self.segments[0, HEAP] = found
        return found

    def _roots(self, module: Module) -> Segment:
        """The list of what the program can write, which is written when all of that is known."""
        found = self.segments.get((0, ROOTS))
        if found is None:
            made = GlobalObject(ROOTS, ArrayType(1 << ROOTS_LOG - 3, POINTER), True, None)
            found = Segment(self.mangled("heap_roots"), module, made, 1 << ROOTS_LOG, Known(0, ROOTS_LOG), False)
            self.segments[0, ROOTS] = found
        return found

    def _segment(self, module: Module, name: str) -> Segment:
        if name in module.unread:
            raise Failure(f"{module.name}: {name}", module.unread[name])
        made = module.globals[name]
        names = self.names[id(module)]
        size = names.layouts.size(made.type)
        align = max(made.align or names.layouts.align(made.type), WORD if names.layouts.holds_pointers(made.type) else 1)
        log = max(log_of(size), (align - 1).bit_length() if align > 1 else 0)
        if log > MOST_LOG:
            raise Failure(f"{module.name}: {name}", f"an object of {size} bytes, more than a segment can have,")
        place = place_in(size, align, log, self.at_end)
        if name.startswith((SHARED, EMPTY)):
            own = public_name(name)
        else:
            own = self.mangled(name)
        return Segment(own, module, made, size, Known(place, log), not made.constant)

    # Code

    def translate(self) -> None:
        """Translates everything that is wanted, until nothing new is."""
        if self.repeated:
            raise Failures(list(self.repeated.values()))
        for module in self.modules:
            if module.assembler:
                raise Failure(module.name, "assembler text outside of functions", None, INSTEAD_OF["assembler text"])
        done_data: set[tuple[int, str]] = set()
        while self.work or len(done_data) < len(self.segments):
            while self.work:
                self._function(*self.work.pop())
            for key, segment in list(self.segments.items()):
                if key not in done_data:
                    done_data.add(key)
                    self._data(segment)
        if self.undefined:
            raise Failures(list(self.undefined.values()))

    def _undefined(self, name: str) -> None:
        """Notes a name that nothing defines, and where it is used first."""
        if name in self.undefined:
            return
        where, place = "the program", None
        if self.current is not None:
            names, translator = self.current
            where, place = names.where(translator.function, translator.line)
        elif self.filled is not None:
            where, place = self._where_of(self.filled)
        said = INSTEAD.get(name) or elsewhere(name, self.public, [module.name for module in self.modules[:-1]])
        self.undefined[name] = Missing(where, f"`{name}`", place, said)

    def _where_of(self, segment: Segment) -> tuple[str, Optional[str]]:
        """The file and the name in C of a global, and the line where it is declared."""
        names = self.names[id(segment.module)]
        return f"{segment.module.name}: {names.told(segment.made)[0]}", names.lines.of_global(segment.made.debug)

    def _translated(self, module: Module, name: str) -> tuple[Translator, Code]:
        """The code of a function; a failure if something in it has no translation."""
        names = self.names[id(module)]
        if name in module.unread:
            raise Failure(f"{module.name}: {name}", module.unread[name])
        function, translator = module.functions[name], None
        try:
            translator = (Checked if self.checked else Translator)(function, names.layouts, names, self.at_end)
            self.current = names, translator
            return translator, translator.translate()
        except Untranslated as reason:
            location = reason.debug or (translator.line if translator else None)
            raise Failure(*self._failed(names, function, location, str(reason))) from None
        finally:
            self.current = None

    def _failed(self, names: ModuleNames, function: Function, location: Optional[str],
                why: str) -> tuple[str, str, Optional[str], str]:
        where, place = names.where(function, location)
        return where, why, place, instead_of(why)

    def notes(self) -> Iterator[str]:
        """What could not be translated of functions that nothing calls: these are left out, and said so. It is asked
        for at the end, since it finds more names."""
        for module in self.modules[:-1]:
            for name, function in list(module.functions.items()):
                known = (id(module), name) in self.labels or "available_externally" in function.words
                if known or not function.defined:
                    continue
                try:
                    self._translated(module, name)
                except Failure as failure:
                    yield failure.note

    def _function(self, module: Module, name: str) -> None:
        names, function = self.names[id(module)], module.functions[name]
        translator, code = self._translated(module, name)
        addressed = []
        for block_name, label in translator.labels.items():
            if (name, block_name) in module.addressed:
                self.blocks[id(module), name, block_name] = label
                addressed.append(label)
        notes = FunctionNotes(names.lines, self.types, names.known_segment)
        for block in code.blocks:
            for op in block.body:
                op.line = notes.place(op.line)
        blocks = emit(code, self.fresh, notes, addressed, self.wipes, self.is_alone)
        self._note(blocks, function, notes)
        self.texts.append(blocks)

    @staticmethod
    def _note(blocks: list[TextBlock], function: Function, notes: FunctionNotes) -> None:
        """Says where a function begins; of one whose lines are not known, only how its frame is."""
        begins = notes.lines.of_function(function.debug)
        if begins:
            head = f"function {notes.lines.name_of(function.debug or '')} at {begins}"
            blocks[0].notes = [head, *notes.inlined, *blocks[0].notes]
        else:
            # A function of the library has no lines, but the way back from it leads to one.
            blocks[0].notes = [note for note in blocks[0].notes if note.startswith("frame ")]

    # Data

    def _data(self, segment: Segment) -> None:
        names = self.names[id(segment.module)]
        words = segment.words = Words(bytearray(1 << segment.known.log))
        if segment.name in self.foreign:
            return
        value = segment.made.value
        if value is None:
            return
        try:
            words.put(names.constants, value, segment.known.place)
        except Untranslated as reason:
            where, place = self._where_of(segment)
            raise Failure(where, str(reason), place, instead_of(str(reason))) from None
        self.filled = segment
        self._wanted_by(words, names)
        self.filled = None

    @staticmethod
    def _wanted_by(words: Words, names: ModuleNames) -> None:
        """Asks for all that the pointers of a global lead to."""
        for place in words.pointers.values():
            target = place.target
            if isinstance(target, BlockAddress):
                names.label(target.function)
            elif names.is_function(target.name) and not names.is_door(target.name):
                names.label(target.name)
            else:
                names.segment(target.name)

    def around_main(self, table: str) -> list[str]:
        """The labels of the functions that are to be carried out before `main`, or after it, in the order of their
        priorities."""
        found: list[tuple[int, Module, str]] = []
        for module in self.modules:
            made = module.globals.get(table)
            for entry in made.value.parts if made is not None and isinstance(made.value, Parts) else ():
                assert isinstance(entry, Parts)
                priority, function = entry.parts[0], strip_casts(entry.parts[1])
                if isinstance(priority, Number) and isinstance(function, Global):
                    found.append((priority.number, module, function.name))
        return [self.want_function(module, name) for _, module, name in sorted(found, key=lambda entry: entry[0])]

    def pointer_text(self, module: Module, place: Place) -> tuple[str, Optional[int]]:
        """How a constant pointer is written; and where it is not in its segment, how far beside its beginning it
        stands."""
        names = self.names[id(module)]
        target = place.target
        if isinstance(target, BlockAddress):
            home = self.home(module, target.function) or module
            return f"xu {self.blocks[id(home), target.function, target.block]}", None if not place.by else place.by
        if names.is_function(target.name) and not names.is_door(target.name):
            return f"xu {names.label(target.name)}", None if not place.by else place.by
        found = self.want_global(module, target.name)
        at = found.known.place + place.by
        permission = "eu" if names.is_door(target.name) else "rw" if found.writable else "ro"
        if 0 <= at < 1 << found.known.log:
            return f"{permission} {found.name}+{at}", None
        return f"{permission} {found.name}+{found.known.place}", place.by
