"""The source of a program: its text, its pool of pointers, its data, and its thread."""

from __future__ import annotations

from typing import Iterator, Optional, Sequence

from mm.cc.doors import check, doors_of, stub, thread_of
from mm.cc.ir import Function
from mm.cc.options import Options
from mm.cc.program import EMPTY, HEAP, MAINS, ROOTS, Failure, Program, Segment
from mm.cc.text import TextBlock

STACK_ROOM = 64
MOST_SEGMENTS, MOST_BYTES = 256, 1 << 20
CONSTRUCTORS, DESTRUCTORS, AT_EXIT = "llvm.global_ctors", "llvm.global_dtors", "atexit"
# What `main` gets as its `argv`.
ARGUMENTS = "__mm_arguments"
# What begins a comment that `mm` reads again.
MARK = ";@"


class SourceWriter:
    """Writes a source."""

    def __init__(self, program: Program, options: Options) -> None:
        self.program, self.options = program, options
        self.pool: dict[str, str] = {}
        self.late: list[tuple[str, str, int]] = []
        self.lines: list[str] = []
        # What is put into registers for `main`.
        self.handed = ["  ldi r0, 1", "  ldi r1, 0"]

    def write(self) -> str:
        program = self.program
        doors = doors_of(program)
        main = next((name for name in MAINS if name in program.public), None)
        if main is None and not doors:
            raise Failure("the program", "a program without `main` and without a door")
        label = program.want_function(program.public[main], main) if main else None
        arguments = self.arguments(main) if main else None
        before, after = program.around_main(CONSTRUCTORS), program.around_main(DESTRUCTORS)
        if main is None and (before or after):
            raise Failure("the program", "a constructor or a destructor in a program without `main`")
        at_exit = program.want_function(program.modules[-1], AT_EXIT) if after else None
        entered = []
        for module, function in doors:
            check(module, function)
            entered.append((function, program.want_function(module, function.name)))
        if doors and self.options.quarantine is not None:
            raise Failure("the program", "`--quarantine` in a program with doors, whose callers it does not stop,")
        program.translate()
        leave = self.leaving()
        data = [self.segment(segment) for segment in program.segments.values() if segment.name not in program.foreign]
        body: list[str] = []
        for text in [*program.texts, *program.entering.text()]:
            body += self.text(text)
        calls: list[tuple[Optional[str], Optional[str]]] = [(made, None) for made in before]
        calls += [(at_exit, made) for made in after]
        if arguments is not None:
            self.hand(arguments)
        first = self.start(label, calls, leave)
        pool = [f"{name}: .ptr {target}" for target, name in self.pool.items()]
        lines = [f".segment {program.prefix}text {self.log_of_text(first + body, pool)}", *first, *body, *pool]
        lines += [line for part in data for line in part]
        lines += program.entering.segment()
        lines += self.doors(entered)
        if label is not None:
            lines += self.thread()
        lines += [f"{MARK} {note}" for note in program.types.notes()]
        self.refuse_too_many(lines)
        return "\n".join(lines) + "\n"

    def arguments(self, main: str) -> Optional[Segment]:
        """The `argv` of a `main` that takes one."""
        module, name = self.program.found(self.program.public[main], main)
        made = module.functions.get(name) if module is not None else None
        if made is None or len(made.parameters) < 2:
            return None
        return self.program.want_global(self.program.modules[-1], ARGUMENTS)

    def hand(self, arguments: Segment) -> None:
        """Puts `argv` into a register for `main`, and its end beside it, which is all of an environment."""
        place = self.pooled(self.global_target(arguments.name))
        self.handed[1:] = [f"  lip r1, {place}", "  ld r1, r1, 0, any, keep", "  leai r2, r1, 8"]

    @staticmethod
    def log_of_text(lines: list[str], pool: list[str]) -> int:
        """The length of the text, with a word that is left after a last call."""
        words = sum(1 for line in lines if not line.endswith(":") and MARK not in line) + len(pool) + 1
        log = max(3, (8 * words - 1).bit_length())
        if log > 20:
            raise Failure("the program", f"{words} words of code, more than a segment can have,")
        return log

    def doors(self, entered: list[tuple[Function, str]]) -> list[str]:
        """The doors, their stack, and the word that holds its pointer while nobody is inside."""
        if not entered:
            return []
        prefix, log = self.program.prefix, self.options.stack
        lines = [f".segment {prefix}turn 3", f"  .ptr rw {prefix}door_stack+{(1 << log) - STACK_ROOM}"]
        for function, label in entered:
            lines += stub(function, label, f"{prefix}turn")
        return [*lines, f".segment {prefix}door_stack {log}"]

    def thread(self) -> list[str]:
        slot, group, handler = thread_of(self.program, self.options)
        prefix, log = self.program.prefix, self.options.stack
        return [
            f".segment {prefix}stack {log}",
            f".thread {slot} {group} {'none' if handler is None else handler} xu start",
            f".reg 15 ptr rw {prefix}stack+{(1 << log) - STACK_ROOM}",
        ]

    def leaving(self) -> Optional[str]:
        """The label of `exit`, where something is to be done after `main`."""
        program = self.program
        library = program.modules[-1]
        if (id(program.home(library, AT_EXIT)), AT_EXIT) not in program.labels:
            return None
        found = program.want_function(library, "exit")
        program.translate()
        return found

    def refuse_too_many(self, lines: list[str]) -> None:
        """Tells in the words of C what the assembler refuses."""
        logs = [int(line.split()[2]) for line in lines if line.startswith(".segment ")]
        if len(logs) > MOST_SEGMENTS:
            raise Failure("the program", f"more than {MOST_SEGMENTS} segments: it has {len(logs)}, one for each global "
                          "and each string constant,", None, "put several globals into one structure")
        total = sum(1 << log for log in logs)
        if total > MOST_BYTES:
            raise Failure("the program", f"{total:,} bytes of segments, more than {MOST_BYTES:,},", None,
                          "`--stack` and `--heap` set the two that are the program's own, `-Os` makes less code")

    def start(self, main: Optional[str], calls: Sequence[tuple[Optional[str], Optional[str]]],
              leave: Optional[str]) -> list[str]:
        """What is done before `main`: pointers that stand beside their segments, which no source can name; and calls of
        constructors, and of `atexit` with each destructor. After `main` the thread halts, or leaves by `exit`."""
        if main is None:
            if self.late:
                raise Failure("the program", "a pointer past an object in a constant, in a program without `main`,")
            return []
        lines = ["start:"]
        for target, place, by in self.late:
            lines += [f"  lip r0, {self.pooled(target)}", "  ld r0, r0, 0, any, keep"]
            lines += [f"  addi r0, r0, {by}"]
            lines += [f"  lip r1, {self.pooled(place)}", "  ld r1, r1, 0, any, keep", "  st r1, r0, 0, any, keep"]
        for function, argument in calls:
            lines += [f"  lip r0, {argument}"] if argument else []
            lines += ["  lip r14, 2", f"  br {function}"]
        end = f"  br {leave}" if leave else "  halt"
        return lines + [*self.handed, "  lip r14, 2", f"  br {main}", end]

    def pooled(self, target: str) -> str:
        found = self.pool.get(target)
        if found is None:
            found = self.pool[target] = f"P_{len(self.pool)}"
        return found

    def text(self, blocks: list[TextBlock]) -> list[str]:
        lines: list[str] = []
        origin: Optional[str] = None
        variables: tuple[str, ...] = ()
        for block in blocks:
            lines.append(f"{block.label}:")
            lines += [f"  {MARK} {note}" for note in block.notes]
            for line in block.lines:
                if line.target is not None and line.target[0] == "@":
                    line.target = self.pooled(self.global_target(line.target[1:]))
                if line.origin is not None and line.origin != origin:
                    origin = line.origin
                    lines.append(f"  {MARK} line {origin}")
                if line.variables is not variables:
                    lines += self.changes(variables, line.variables)
                    variables = line.variables
                lines.append(str(line))
        return lines

    @staticmethod
    def changes(old: tuple[str, ...], new: tuple[str, ...]) -> Iterator[str]:
        """What is said of variables that are somewhere else from here on, or nowhere."""
        gone, come = set(old) - set(new), set(new) - set(old)
        there = {variable_of(said) for said in come}
        for said in old:
            if said in gone and variable_of(said) not in there:
                name, type_, frame = variable_of(said)
                yield f"  {MARK} var {name} {type_} -{frame}"
        for said in new:
            if said in come:
                yield f"  {MARK} var {said}"

    def global_target(self, name: str) -> str:
        segment = self.by_name[name]
        if name in self.program.foreign and name.startswith("door_"):
            return f"eu {name}+{segment.known.place}"
        return f"{'rw' if segment.writable else 'ro'} {name}+{segment.known.place}"

    @property
    def by_name(self) -> dict[str, Segment]:
        if not hasattr(self, "_by_name"):
            self._by_name = {segment.name: segment for segment in self.program.segments.values()}
        return self._by_name

    def roots(self, segment: Segment) -> list[str]:
        """Pointers to all that the program can write, but for the heap and the stack."""
        return [f".segment {segment.name} {segment.known.log}", *(
            f"  .ptr rw {each.name}" for each in self.program.segments.values()
            if each.writable and each.made.name != HEAP and each.name not in self.program.foreign)]

    def segment(self, segment: Segment) -> list[str]:
        if segment.made.name == ROOTS:
            return self.roots(segment)
        words = segment.words
        assert words is not None
        lines = [f".segment {segment.name} {segment.known.log}"]
        if not segment.made.internal or not segment.made.name.startswith("."):
            name, type_ = self.program.names[id(segment.module)].told(segment.made)
            said = (f" type {type_}" if type_ else "") + ("" if segment.writable else " constant")
            lines.append(f"  {MARK} global {name} {segment.size} at {segment.known.place}{said}")
        elif segment.known.place or not segment.writable:
            lines.append(f"  {MARK} unnamed at {segment.known.place}{'' if segment.writable else ' constant'}")
        if segment.made.name.startswith(EMPTY):
            return lines + ["  .empty .int 0"] * (1 << segment.known.log - 3)
        zeros = 0
        data = words.data
        for at in range(0, len(data), 8):
            place = words.pointers.get(at)
            number = int.from_bytes(data[at : at + 8], "little")
            if place is None and not number:
                zeros += 1
                continue
            if zeros:
                lines.append(f"  .fill {zeros}")
                zeros = 0
            if place is None:
                lines.append(f"  .int 0x{number:x}")
                continue
            text, by = self.program.pointer_text(segment.module, place)
            if by is None:
                lines.append(f"  .ptr {text}")
            else:
                self.late.append((text, f"rw {segment.name}+{at}", by))
                lines.append("  .int 0")
        return lines


def variable_of(said: str) -> tuple[str, str, str]:
    """The name, the type and the function of a variable, of what is said of it."""
    name, type_, _, *frame = said.split(" ")
    return name, type_, "".join(f" {word}" for word in frame)


def write_source(program: Program, options: Options) -> str:
    return SourceWriter(program, options).write()
