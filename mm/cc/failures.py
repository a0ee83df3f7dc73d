"""What could not be translated, and what can be done instead."""

from __future__ import annotations

import re
from dataclasses import dataclass
from typing import Iterator, Optional

# What can be done in the place of what is not there: of functions of C's library, and of what is left out.
NO_INPUT = "the machine has no input: put what the program reads into an array or a string"
NO_FILES = "the machine has no files: print with `printf`, and keep data in arrays"
NO_CLOCK = "the machine has no clock: its time is its cycles, which the report shows"
NO_FLOATS = "count in integers: in hundredths, or as a numerator and a denominator"
NO_SYSTEM = "below a program there is the machine alone, and no operating system: print with `printf`"
THREADS = "another program is another thread: give it a file of its own, and name both to `mm run`"
INSTEAD = {
    **dict.fromkeys(("getchar", "getc", "fgetc", "gets", "fgets", "scanf", "fscanf", "vscanf", "getline", "read",
                     "ungetc", "fread"), NO_INPUT),
    **dict.fromkeys(("fopen", "fclose", "freopen", "fseek", "ftell", "rewind", "remove", "rename", "tmpfile", "tmpnam",
                     "feof", "ferror", "setbuf", "setvbuf", "open", "close", "write", "lseek"), NO_FILES),
    **dict.fromkeys(("time", "clock", "difftime", "mktime", "localtime", "gmtime", "strftime", "sleep", "usleep",
                     "gettimeofday", "clock_gettime"), NO_CLOCK),
    **dict.fromkeys(("atof", "strtod", "strtof", "sqrt", "pow", "sin", "cos", "tan", "exp", "log", "floor", "ceil",
                     "fabs", "fmod"), NO_FLOATS),
    **dict.fromkeys(("sscanf", "vsscanf"), "take the text apart with `strtol`, which tells where it ended"),
    **dict.fromkeys(("pthread_create", "thrd_create", "fork"), THREADS),
    **dict.fromkeys(("system", "execve", "signal", "raise"), "the machine runs nothing but the programs of its image"),
}
# Of headers that are not there.
HEADERS = {
    **dict.fromkeys(("pthread.h", "threads.h", "semaphore.h", "sched.h"), THREADS),
    **dict.fromkeys(("fenv.h", "complex.h"), NO_FLOATS),
    **dict.fromkeys(("unistd.h", "fcntl.h", "dirent.h", "termios.h", "poll.h"), NO_SYSTEM),
    "signal.h": "there are no signals: a fault ends the program, or a handler of another program serves it",
    "locale.h": "there is one locale, that of C: leave `setlocale` out",
}
NO_HEADER = re.compile(r"error: '([^']+)' file not found")
OTHER_FOLDER = "headers are looked for beside the file that includes them; `--clang -IDIR` names another folder"
ONCE = "define it in one of them, and declare it in a header (a variable with `extern`); or make both `static`"
ONE_MAIN = "a program has one `main`; `mm run` takes each of several files for a program of its own"
A_STRUCTURE = "a door that takes or gives a structure"
INSTEAD_OF = {A_STRUCTURE: "hand over a pointer to one: then it is plain that both sides can change it meanwhile",
              "floating point": NO_FLOATS,
              "assembler text": "`mm.h` names the machine's own operations, as `__mm_op_out`"}


def instead_of(why: str) -> str:
    """What can be done in the place of what is left out; nothing if nothing is known."""
    return next((said for part, said in INSTEAD_OF.items() if part in why), "")


def of_headers(said: str) -> Iterator[str]:
    """What can be done in the place of a header that Clang has not found."""
    for name in NO_HEADER.findall(said):
        yield "    " + HEADERS.get(name, NO_SYSTEM if name.startswith("sys/") else OTHER_FOLDER)


@dataclass
class Failure(Exception):
    """What could not be translated, and where: a file or a function, its place in C if that is known, and what can be
    done instead."""

    where: str
    why: str
    place: Optional[str] = None
    instead: str = ""

    @property
    def inside(self) -> str:
        name = self.where.rpartition(": ")[2]
        return f" in `{name}`" if ": " in self.where else ""

    def what(self, inside: str) -> str:
        """What is wrong, and in which function."""
        return f"{self.why} is left out{inside}"

    def __str__(self) -> str:
        said = f"{self.place}: error: {self.what(self.inside)}" if self.place else f"mm: {self.where}: {self.what('')}"
        return f"{said}\n    {self.instead}" if self.instead else said

    @property
    def note(self) -> str:
        """The same of a function that nothing calls."""
        said = self.what(f"{self.inside}, which nothing calls")
        return f"{self.place}: note: {said}" if self.place else f"mm: {self.where}: {said}"


class Missing(Failure):
    """A name that nothing defines."""

    def what(self, inside: str) -> str:
        return f"{self.why} is used{inside}, and nothing defines it"


class Repeated(Failure):
    """A name that two files define."""

    def what(self, inside: str) -> str:
        return self.why


class Failures(Failure):
    """Several of them: all that nothing defines."""

    def __init__(self, failures: list[Failure]) -> None:
        super().__init__(failures[0].where, failures[0].why, failures[0].place, failures[0].instead)
        self.failures = failures

    def __str__(self) -> str:
        return "\n".join(map(str, self.failures))
