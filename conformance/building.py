"""Programs with a bug, built without proofs over a copy of the sources.

The program is small: over the crates with the bugs it does what `mmachine log` does (logger/main.txt). `rt try` reads
the sources and makes a module of LLVM. That takes most of the time, so it is done for many bugs at once, no two of
which are in the same function; then the functions of each bug alone are linked with those of the right program. The
module is taken from the folder in which `rt try` compiles it, so another kit may need other words here."""

import contextlib
import glob
import hashlib
import os
import re
import shutil
import signal
import subprocess
import time

import images
from planted import HERE, TOP
from splice import Module

# The crates that the small program names. It writes what `mmachine log` writes.
LOGGER_CRATES = ("mm_io", "mm_text", "mm_mem", "mm_image", "mm_sched", "mm_machine", "mm_report", "mm_log", "mm_vmem")
MAIN = "crates/logger/src/main.rt"
# The image that `rt try` runs. The module is taken before it does.
LONG_RUN, LONG_CYCLES = "long.img", "100000"
POLL, END_SECONDS, SMALL_MODULE = 0.1, 20, 100_000
FUNCTION = re.compile(r"^\s*(?:pub(?:\([^)]*\))? )?(?:const )?fn (\w+)", re.M)
COMPILE = "-march=x86-64 -mllvm -no-trap-after-noreturn -ffunction-sections -fdata-sections -mllvm -trap-unreachable"
LINK = "-m elf_x86_64 -pie --dynamic-linker /lib64/ld-linux-x86-64.so.2 --as-needed -z relro -z now -z noexecstack"


class Stopped(Exception):
    """The measurement is stopped."""


class NoModule(Exception):
    """Why sources make no module."""


def kit():
    """The folder of the kit that `rt` belongs to."""
    return os.path.dirname(os.path.dirname(os.path.realpath(shutil.which("rt") or "rt")))


def stands_on():
    """The crates that each crate stands on, by crates.txt."""
    with open(f"{TOP}/crates.txt", encoding="utf-8") as lines:
        pairs = [line.partition(":") for line in lines if ":" in line and not line.startswith("#")]
    return {name.strip(): below.split() for name, _, below in pairs}


def places_of(texts):
    """The functions that texts change: the module of each file with the function's name, or none outside of one."""
    found = set()
    for file, text in texts.items():
        with open(f"{TOP}/{file}", encoding="utf-8") as source:
            old = source.read().split("\n")
        new, crate = text.split("\n"), file.split("/")[1]
        module = os.path.basename(file).removesuffix(".rt")
        path = crate if module in ("lib", "main") else f"{crate}::{module}"
        for at, (was, now) in enumerate(zip(old, new)):
            if was != now and not was.startswith("use "):
                names = FUNCTION.findall("\n".join(old[: at + 1]))
                found.add((path, names[-1] if names else None))
    return found


def is_in(name, places, anywhere=False):
    """Whether a function of a module is in one of the places; with `anywhere`, or elsewhere in its crate: a method has
    the name of its type, which may be in another file."""
    path = name.strip('@"')
    for module, function in places:
        front = module.partition("::")[0] if anywhere else module
        if function and path.startswith(f"{front}::") and re.search(rf"::{function}(\W|$)", path[len(front) :]):
            return True
    return False


class Sources:
    """The sources of the crates that the small program needs, and a checksum of them with the texts of a bug."""

    def __init__(self):
        crates, wanted = stands_on(), list(LOGGER_CRATES)
        for name in wanted:
            wanted += [below for below in crates.get(name, ()) if below not in wanted]
        self.below = {name: crates[name] for name in wanted if name in crates}
        self.sums = {}
        for crate in self.below:
            for file in glob.glob(f"{TOP}/crates/{crate}/src/**/*.rt", recursive=True):
                with open(file, "rb") as source:
                    self.sums[os.path.relpath(file, TOP)] = hashlib.sha256(source.read()).hexdigest()
        with open(f"{HERE}/logger/main.txt", encoding="utf-8") as file:
            self.main = file.read()

    def key(self, texts):
        """A checksum of all that a program is made of."""
        sums = {**self.sums, **{file: hashlib.sha256(text.encode()).hexdigest() for file, text in texts.items()}}
        return hashlib.sha256(repr([self.main, sorted(sums.items())]).encode()).hexdigest()[:12]

    def lay_out(self, room):
        """Copies the sources, and puts the small program over them."""
        for crate in self.below:
            for part in ("src", "specs"):
                if os.path.isdir(f"{TOP}/crates/{crate}/{part}"):
                    shutil.copytree(f"{TOP}/crates/{crate}/{part}", f"{room}/crates/{crate}/{part}")
        os.makedirs(os.path.dirname(f"{room}/{MAIN}"))
        with open(f"{room}/{MAIN}", "w", encoding="utf-8") as file:
            file.write(self.main)
        with open(f"{room}/crates/logger/{LONG_RUN}", "wb") as file:
            file.write(images.Image((images.Slot(0, ("addi r1, r1, 1", "br -1")),)).data)
        with open(f"{room}/crates.txt", "w", encoding="utf-8") as file:
            file.writelines(f"{name}: {' '.join(below)}\n" for name, below in self.below.items())
            file.write(f"logger: {' '.join(LOGGER_CRATES)}\n")


class Reader:
    """Makes modules one after another in a copy of the sources of its own."""

    def __init__(self, room, sources, seconds, stopping):
        self.room, self.seconds, self.stopping = room, seconds, stopping
        sources.lay_out(room)

    def module(self, texts, place):
        """Makes the module with these texts, and keeps its text at a place."""
        before = {}
        for file, text in texts.items():
            with open(f"{self.room}/{file}", encoding="utf-8") as source:
                before[file] = source.read()
            self.write(file, text)
        try:
            self.tried(f"{place}.bc")
        finally:
            for file, text in before.items():
                self.write(file, text)
        clang("-S", "-emit-llvm", "-O0", "-Xclang", "-disable-llvm-passes", f"{place}.bc", f"{place}.new")
        os.remove(f"{place}.bc")
        os.replace(f"{place}.new", place)

    def write(self, file, text):
        with open(f"{self.room}/{file}", "w", encoding="utf-8") as source:
            source.write(text)

    def tried(self, place):
        """Runs `rt try` and takes the module that it makes as soon as that is compiled. What it runs is of no
        interest."""
        said, tries = f"{self.room}/said", f"{self.room}/tries"
        shutil.rmtree(tries, ignore_errors=True)  # a module that is left there would be taken for this one
        os.makedirs(tries)
        words = ["rt", "try", "--steps", "1", "--", "log", LONG_RUN, LONG_CYCLES]
        late = False
        with open(said, "wb") as out:
            run = subprocess.Popen(
                words,
                cwd=f"{self.room}/crates/logger",
                env={**os.environ, "TMPDIR": tries},
                stdin=subprocess.DEVNULL,
                stdout=subprocess.DEVNULL,
                stderr=out,
                start_new_session=True,
            )
            ends = time.time() + self.seconds
            try:
                while run.poll() is None and not take(tries, place):
                    late = time.time() > ends
                    if late or self.stopping.is_set():
                        break
                    end_hint(run.pid)
                    time.sleep(POLL)
            finally:
                end(run)
        if self.stopping.is_set():
            raise Stopped
        if not os.path.isfile(place):
            raise NoModule(f"its build did not end in {self.seconds:g} seconds" if late else complaint(said))


def take(tries, place):
    """Takes the module, if its compilation has begun, so that it is written whole."""
    for folder, _, files in os.walk(tries):
        whole = os.path.join(folder, "module.bc")
        if "module.bc" in files and any(file != "module.bc" for file in files):
            with contextlib.suppress(OSError):
                if os.path.getsize(whole) > SMALL_MODULE:
                    shutil.copyfile(whole, place)
                    return True
    return False


def clang(*words):
    """Runs the kit's clang on modules, the last word the file that it makes."""
    folder = f"{kit()}/toolchain"
    words = [f"{folder}/bin/clang", "--target=x86_64-unknown-linux-gnu", f"--sysroot={folder}", *COMPILE.split(),
             "--no-default-config", "-x", "ir", *words[:-1], "-o", words[-1]]
    subprocess.run(words, check=True, stdin=subprocess.DEVNULL)


def link(objects, place):
    """Links a program as `rt try` does, without its tool that finds errors of memory."""
    folder = f"{kit()}/toolchain"
    library = f"{folder}/lib"
    before = [f"{library}/{name}" for name in ("Scrt1.o", "crti.o", "crtbeginS.o")]
    names = ("libm.so.6", "libc.so.6", "libc_nonshared.a", "ld-linux-x86-64.so.2", "libgcc.a", "libgcc_s.so.1",
             "crtendS.o", "crtn.o")
    words = [f"{folder}/bin/ld.lld", *LINK.split(), "--gc-sections", "--threads=1", "-o", f"{place}.new", *before,
             *objects, f"{kit()}/c/libos_c.a", f"{kit()}/c/liblibc_c.a", *(f"{library}/{name}" for name in names)]
    subprocess.run(words, check=True, stdin=subprocess.DEVNULL)
    os.replace(f"{place}.new", place)


def compiled(text, place):
    """Compiles the text of a module into an object."""
    with open(f"{place}.ll", "w", encoding="utf-8") as file:
        file.write(text)
    clang("-c", "-fPIE", "-O2", f"{place}.ll", f"{place}.new")
    os.remove(f"{place}.ll")
    os.replace(f"{place}.new", place)
    return place


def read_module(place):
    with open(place, encoding="utf-8") as file:
        return Module(file.read())


def works(place):
    """Whether a file is a program that ends as it has to without words."""
    if not os.path.isfile(place):
        return False
    with contextlib.suppress(OSError):
        ended = subprocess.run([place], stdin=subprocess.DEVNULL, capture_output=True, timeout=60)
        return ended.returncode == 1
    return False


def complaint(said):
    """What a build says first of an error, or else last."""
    with open(said, encoding="utf-8", errors="replace") as text:
        lines = [line.strip() for line in text if line.strip()]
    return next((line for line in lines if "error" in line), " ".join(lines[-1:]) or "no program was made")


def end(run):
    """Ends `rt try`, which then ends what it started and removes its folder. What it leaves is ended too."""
    if run.poll() is None:
        started = list(children(run.pid))
        run.terminate()
        try:
            run.wait(END_SECONDS)
        except subprocess.TimeoutExpired:
            run.kill()
            run.wait()
            for pid, _ in started:
                with contextlib.suppress(OSError):
                    os.killpg(pid, signal.SIGKILL)  # the build is in a session of its own


def end_hint(parent):
    """Ends the check that `rt try` runs beside its build for a hint."""
    for pid, command in children(parent):
        if b"\0no function\0" in command:
            with contextlib.suppress(OSError):
                os.kill(pid, signal.SIGTERM)


def children(parent):
    """The processes that a process has started, with their command lines."""
    for pid in filter(str.isdigit, os.listdir("/proc")):
        with contextlib.suppress(OSError, ValueError):
            with open(f"/proc/{pid}/stat", encoding="utf-8") as file:
                is_child = int(file.read().rpartition(")")[2].split()[1]) == parent
            if is_child:
                with open(f"/proc/{pid}/cmdline", "rb") as file:
                    command = file.read()
                yield int(pid), command
