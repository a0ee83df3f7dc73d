"""The commands of `mm`, in the order of its help, with their options."""

from __future__ import annotations

from typing import Optional

from mm.records import dataclass


@dataclass(frozen=True)
class Option:
    """An option: its name, a short form, what its value is called, and what it does."""

    name: str
    says: str
    value: Optional[str] = None
    short: Optional[str] = None


@dataclass(frozen=True)
class Command:
    """A command: its name, its words, what it does in a line, its options, how many words it takes, and examples."""

    name: str
    operands: str
    summary: str
    options: tuple[Option, ...] = ()
    least: int = 1
    most: Optional[int] = None
    module: str = ""
    more: str = ""

    @property
    def home(self) -> str:
        """The module that carries it out."""
        return f"mm.commands.{self.module or self.name}"


CYCLES = Option("--cycles", "run at most N cycles, 0 to 1000000; default: as many as the run has", "N", "-n")
SCHEDULE = Option("--schedule", "take the order of turns from a file; default: round robin", "FILE", "-s")
TURNS = Option("--turns", "take the order of turns from here, such as '0 1*5'", "ITEMS", "-t")
GROUPS = Option("--groups", "ask about these groups together, such as 0,1", "LIST", "-g")
JSON = Option("--json", "write JSON, in the form of docs/JSON.md")
PLAIN = Option("--plain", "write what the program puts out, as it is; faults go to the standard error")
OUTPUT = Option("--output", "write to this file", "FILE", "-o")
FROM = Option("--from", "the first cycle to show; default: 1", "N")
AUDIT = Option("--audit", "also show which group can read and write what")
NAMES = Option("--names", "take names for an image from this source; may be repeated", "FILE")
LEVEL = Option("--optimise", "how much Clang optimises C: 0, 1, 2, 3 or s; default: 1", "LEVEL", "-O")
HEAP = Option("--heap", "C: the logarithm of the bytes that malloc has, 4 to 20; default: 16", "LOG")
STACK = Option("--stack", "C: the logarithm of the bytes of the stack, 8 to 20; default: 16", "LOG")
QUARANTINE = Option("--quarantine", "C: take pointers to freed blocks away when more than N bytes of them were freed", "N")
CLANG = Option("--clang", "C: a word for Clang, such as -DSIZE=3; may be repeated", "WORD")
C = (LEVEL, HEAP, STACK, QUARANTINE, CLANG)
SLOT = Option("--slot", "the slot and the group of the program's thread, 0 to 15; default: 0", "N")
PREFIX = Option("--prefix", "what the names of the program's segments begin with", "NAME")
DOORS_SHUT = Option("--doors-shut", "take each enter pointer for a key: what is left if the code behind doors gives nothing away")
THREADS = Option("--threads", "how many threads of the kernel are looked at, 1 to 1000000; default: 100000", "N")
KEEPS = Option("--keeps", "also show whether a kernel keeps these segments, such as gate,count", "LIST")
STATES = Option("--states", "how many configurations are looked at, 1 to 100000000; else 100000", "N")
MEANT = Option("--meant", "a fault that is meant, such as Trap, and not told of; may be repeated", "FAULT")
WROTE = Option("--wrote", "ask who writes this word, and after which turns first", "WORD")
PART = Option("--part", "memory, frames, pages, slots, or all for a testbench; default: memory (docs/HARDWARE.md)", "NAME")
COUNT = Option("--count", "how many; default: 256", "N")
PORT = Option("--port", "the port of the server, 0 for any that is free; default: 8017", "N")
HOST = Option("--host", "the address to listen at; default: 127.0.0.1, which only this computer reaches", "A")
LESSON = Option("--lesson", "open this lesson of the course, 1 to 12", "N")
TOKEN = Option("--token", "the word in the address of the page; default: a new one each time", "WORD")
WITH_C = Option("--c", "take programs in C from other computers too (docs/SERVE.md)")
CSV = Option("--csv", "write CSV: a row for each answer")
FEEDBACK = Option("--feedback", "also write what each student is shown into a file of this folder", "FOLDER")
CHECK = Option("--check", "try the exercise itself with the answers and fakes that it names")
SEED = Option("--seed", "draw the inputs again that the feedback names with this number", "N")
SEGMENTS = """\
SEGMENT is what the kernel keeps: its code, its data, its gates.
    gate           a segment of the sources
    gate_*         each segment with such a name (in a shell between quotes)
    0x100100/3     the 2^3 bytes at an address, or at a name
Without SEGMENT it tells which segments only doors lead to. docs/KEEPS.md says what an answer is worth."""
RUNNING = (CYCLES, SCHEDULE, TURNS, NAMES)
FILES = "FILE.."
EXERCISES = "FILE may be a folder that has a folder or a file for each student. EXERCISE is lab-1 to lab-5 for a task of the first lab, 1.1 to 8.2 or 10.1 to 12.2 for an exercise of a lesson, or a file of your own (docs/course/GRADING.md). `mm help executes` explains the line `executes`, and so on for each kind of line."

# fmt: off
COMMANDS = (
    Command("run", FILES, "run sources, objects or an image, and show what came of it", (*RUNNING, JSON, PLAIN, *C)),
    Command("debug", FILES, "step through a run, forwards and back, with names and source lines", (SCHEDULE, TURNS, NAMES, *C)),
    Command("trace", FILES, "show what each turn did, with its instruction and names", (*RUNNING, JSON, *C)),
    Command("view", FILES, "make a page for any browser, to step through a run turn by turn", (*RUNNING, FROM, AUDIT, KEEPS, OUTPUT, *C)),
    Command("serve", "[FILE..]", "edit, run and look at programs in a browser, alone or with a class", (PORT, HOST, LESSON, TOKEN, WITH_C), least=0),
    Command("vcd", FILES, "make waves of a run, for GTKWave and other viewers", (*RUNNING, FROM, OUTPUT, *C)),
    Command("symbols", FILES, "list segments and labels with their addresses", (NAMES, JSON, *C)),
    Command("dis", "FILE", "show an image or an object word by word: address, word, instruction and name", (NAMES,), most=1),
    Command("audit", FILES, "say what each group can read and write, whatever its code does", (GROUPS, DOORS_SHUT, NAMES, JSON, *C)),
    Command("keeps", "FILE.. SEGMENT..", "say whether a kernel keeps its segments, whatever code its callers run", (THREADS, NAMES, JSON, *C), more=SEGMENTS),
    Command("explore", FILES, "say what a program can do under any schedule, with a shortest one for each finding", (STATES, MEANT, WROTE, NAMES, JSON, *C)),
    Command("why", "FILE.. GROUP WORD KIND", "how a group can touch or write a word: the pointers, one after the other", (NAMES, *C), least=4),
    Command("check-why", "IMAGE GROUP WORD KIND", "check a derivation of `mmachine why`, given on the standard input", least=4, most=4, module="check_why"),
    Command("holders", "FILE.. RANGE", "say who holds a pointer into a range (`mm help ranges`)", (NAMES, *C), least=2, module="ranges"),
    Command("sweep", "FILE.. RANGE", "make an image in which nobody has a pointer into a range", (OUTPUT, NAMES, *C), least=2, module="ranges"),
    Command("extract", "FILE.. GROUPS", "make an image of some groups and what they can touch", (OUTPUT, *C), least=2, module="make"),
    Command("solo", "FILE.. GROUPS", "run some groups without the others, under their part of a schedule", (*RUNNING, JSON, PLAIN, *C), least=2, module="run"),
    Command("net", "LINKS EVENTS FILE..", "run several machines side by side, with links between them", (CYCLES,), least=3),
    Command("save", FILES, "run, and write a checkpoint of the state then", (CYCLES, SCHEDULE, TURNS, OUTPUT, *C), module="make"),
    Command("continue", "FILE.. CHECKPOINT", "continue a run from a checkpoint", (*RUNNING, JSON, PLAIN, *C), least=2, module="run"),
    Command("cc", "FILE.c..", "translate a program in C to a source (docs/C.md)", (*C, SLOT, PREFIX, OUTPUT)),
    Command("asm", "SOURCE", "make an object of a source", (OUTPUT,), most=1, module="make"),
    Command("link", FILES, "make an image of sources and objects", (OUTPUT, *C), module="make"),
    Command("migrate", "FILE.. MODE", "make an image of version 2, in which loads answer at once (plain) or later (split)", (OUTPUT, *C), least=2, module="make"),
    Command("hex", FILES, "write an image for Verilog's $readmemh: its memory, its frames with their pages, or its slots", (PART, OUTPUT, *C)),
    Command("vectors", "OPERATION", "write operands and results of an operation, for a unit by itself (docs/HARDWARE.md)", (COUNT, OUTPUT), most=1),
    Command("grade", "EXERCISE FILE..", "check a program, or a folder of them, against what an exercise of the course asks for", (JSON, CSV, FEEDBACK, CHECK, SEED, *C), more=EXERCISES),
    Command("lsp", "", "be a language server for an editor, on the standard streams", least=0, most=0),
    Command("dap", "", "be a debug adapter for an editor, on the standard streams", least=0, most=0),
    Command("gen", "NUMBER SIZE", "make an image from a number", (OUTPUT,), least=2, most=2, module="make"),
    Command("soak", "NUMBER SIZE", "run that image, and write a summary", (CYCLES,), least=2, most=2, module="make"),
    Command("help", "[TOPIC]", "explain a command, an operation, a fault or another topic", (), least=0),
)
# fmt: on
BY_NAME = {command.name: command for command in COMMANDS}
ALIASES = {"grants": "audit", "disassemble": "dis", "map": "symbols"}
PROGRAM = Option("--program", "which mmachine to use; default: $MMACHINE, this checkout's, or that on the path", "FILE")
HELP = Option("--help", "show this, or the help of a command", short="-h")
VERSION = Option("--version", "show the version", short="-V")
GLOBAL_OPTIONS = (PROGRAM, HELP, VERSION)
