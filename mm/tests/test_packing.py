"""Installs under a temporary prefix, and packages made twice."""

import contextlib
import hashlib
import io
import os
import re
import shutil
import subprocess
import sys
import tarfile
import tempfile
import unittest
from unittest import mock

from mm.machine.program import CHECKOUT, find_program
from mm.packing import install
from mm.packing import package as packing
from mm.packing.places import LIST, PAGES
from mm.packing.vsix import vsix
from mm.packing.tree import Entry, of_folder
from mm.tests.support import has_program, needs_program, path_of, read


def has_git() -> bool:
    if shutil.which("git") is None or not os.path.exists(path_of(".git")):
        return False
    words = ["git", "-C", CHECKOUT, "rev-parse", "--verify", "--quiet", "HEAD"]
    return subprocess.run(words, capture_output=True, check=False).returncode == 0


def call(words, **more):
    """A program of its own, with a short path and no MMACHINE."""
    kept = {"PATH": "/usr/bin:/bin", "HOME": os.environ.get("HOME", "/"), **more.pop("env", {})}
    return subprocess.run(words, capture_output=True, text=True, check=False, env=kept, **more)


def tool(*words):
    """`tools/package` in this process: its status, and what it tells on both streams."""
    told = io.StringIO()
    with contextlib.redirect_stdout(told), contextlib.redirect_stderr(told):
        return packing.main(words), told.getvalue()


def everything(folder):
    """All files and links below a folder, with their bytes and modes."""
    found = {}
    for at, _, names in os.walk(folder):
        for name in names:
            path = os.path.join(at, name)
            if os.path.islink(path):
                found[os.path.relpath(path, folder)] = os.readlink(path)
            else:
                with open(path, "rb") as file:
                    found[os.path.relpath(path, folder)] = (file.read(), os.stat(path).st_mode & 0o777)
    return found


@needs_program
class Installs(unittest.TestCase):
    def setUp(self):
        room = tempfile.TemporaryDirectory()
        self.addCleanup(room.cleanup)
        self.prefix = os.path.join(room.name, "pre fix")

    def tool(self, *words, **env):
        words = [sys.executable, path_of("tools", "install"), *words]
        return call(words, env={"MMACHINE": find_program().path, **env})

    def test_mm_works_from_anywhere(self):
        self.assertEqual(self.tool(self.prefix).returncode, 0)
        source = os.path.join(self.prefix, PAGES, "examples", "hello.asm")
        for start in (os.path.join(self.prefix, "bin", "mm"), os.path.join(self.prefix, "..", "pre fix", "bin", "mm")):
            ended = call([sys.executable, start, "run", source], cwd="/")
            self.assertEqual((ended.returncode, ended.stderr), (0, ""))
            self.assertIn('output "A"', ended.stdout)
        version = call([sys.executable, os.path.join(self.prefix, "bin", "mm"), "--version"], cwd="/")
        self.assertIn(self.prefix, version.stdout)
        self.assertNotIn("unknown", version.stdout)

    def test_what_is_installed(self):
        self.assertEqual(self.tool(self.prefix).returncode, 0)
        for path in (
            "bin/mmachine",
            "share/man/man1/mm.1",
            "share/man/man1/mmachine.1",
            "share/bash-completion/completions/mm",
            "share/bash-completion/completions/mmachine",
            "share/zsh/site-functions/_mm",
            "share/zsh/site-functions/_mmachine",
            "share/vim/vimfiles/syntax/mmasm.vim",
            "share/nvim/site/ftdetect/mmasm.vim",
            "share/doc/mmachine/docs/MM.md",
            "share/doc/mmachine/editors/vscode/package.json",
        ):
            self.assertTrue(os.path.isfile(os.path.join(self.prefix, path)), path)
        with open(os.path.join(self.prefix, LIST), encoding="utf-8") as file:
            listed = {line for line in file.read().splitlines() if not line.endswith("/")}
        self.assertEqual(listed, set(everything(self.prefix)))
        self.assertFalse(os.path.exists(os.path.join(self.prefix, "share", "mmachine", "mm", "tests")))

    def test_uninstall_leaves_nothing_of_it(self):
        os.makedirs(os.path.join(self.prefix, "share"))
        other = os.path.join(self.prefix, "share", "other")
        with open(other, "w", encoding="utf-8") as file:
            file.write("of another program")
        self.assertEqual(self.tool(self.prefix).returncode, 0)
        call([sys.executable, os.path.join(self.prefix, "bin", "mm"), "help"])
        self.assertTrue(os.path.isdir(os.path.join(self.prefix, "share", "mmachine", "mm", "__pycache__")))
        self.assertEqual(self.tool("--uninstall", self.prefix).returncode, 0)
        self.assertEqual((os.listdir(self.prefix), list(everything(self.prefix))), (["share"], ["share/other"]))
        self.assertEqual(self.tool("--uninstall", self.prefix).returncode, 2)

    def test_over_an_older_install(self):
        self.assertEqual(self.tool(self.prefix).returncode, 0)
        first = everything(self.prefix)
        with open(os.path.join(self.prefix, LIST), "a", encoding="utf-8") as file:
            file.write("share/mmachine/of_an_older_one\n")
        with open(os.path.join(self.prefix, "share", "mmachine", "of_an_older_one"), "wb"):
            pass
        self.assertEqual(self.tool(self.prefix).returncode, 0)
        self.assertEqual(everything(self.prefix), first)

    def test_modes_do_not_depend_on_the_umask(self):
        before = os.umask(0o077)
        try:
            self.assertEqual(self.tool(self.prefix).returncode, 0)
        finally:
            os.umask(before)
        for folder, _, names in os.walk(self.prefix):
            self.assertEqual(os.stat(folder).st_mode & 0o777, 0o755, folder)
            for name in names:
                self.assertIn(os.stat(os.path.join(folder, name)).st_mode & 0o777, (0o644, 0o755), name)

    def test_uninstall_removes_the_prefix_that_it_made(self):
        self.assertEqual(self.tool(self.prefix).returncode, 0)
        self.assertEqual(self.tool("--uninstall", self.prefix).returncode, 0)
        self.assertFalse(os.path.exists(self.prefix))

    def test_an_install_that_cannot_be_finished_is_taken_back(self):
        """On nothing, and over an older install."""
        write_file, count = install.Writing.file, [0]

        def fails(writing, path, entry):
            count[0] += 1
            write_file(writing, path, entry)
            if count[0] == 7:
                raise OSError(28, "No space left on device", path)

        files = {f"share/mmachine/{name}": Entry(name.encode()) for name in "abcdefghij"}
        with mock.patch.object(install.Writing, "file", fails), self.assertRaises(OSError):
            install.install(self.prefix, files)
        self.assertFalse(os.path.exists(self.prefix))
        install.install(self.prefix, {"share/mmachine/a": Entry(b"older"), "share/mmachine/z/y": Entry(b"older")})
        before, count[0] = everything(self.prefix), 0
        with mock.patch.object(install.Writing, "file", fails), self.assertRaises(OSError):
            install.install(self.prefix, files)
        self.assertEqual(everything(self.prefix), before)
        self.assertEqual(install.install(self.prefix, files), 11)
        self.assertEqual(set(everything(self.prefix)), {*files, LIST})

    def test_a_file_in_the_way(self):
        os.makedirs(os.path.join(self.prefix, "bin"))
        with open(os.path.join(self.prefix, "bin", "mm"), "wb"):
            pass
        ended = self.tool(self.prefix)
        self.assertEqual((ended.returncode, list(everything(self.prefix))), (2, ["bin/mm"]))
        self.assertIn("is in the way", ended.stderr)

    def test_destdir(self):
        self.assertEqual(self.tool("/usr", DESTDIR=self.prefix).returncode, 0)
        named = [path for path, is_ in everything(self.prefix).items() if self.prefix in str(is_)]
        self.assertEqual(named, [])
        start = os.path.join(self.prefix, "usr", "bin", "mm")
        self.assertEqual(call([sys.executable, start, "help"]).returncode, 0)
        self.assertEqual(self.tool("--uninstall", "/usr", DESTDIR=self.prefix).returncode, 0)
        self.assertEqual(everything(self.prefix), {})

    def test_words(self):
        self.assertEqual([self.tool().returncode, self.tool("--what").returncode], [1, 1])
        self.assertEqual(self.tool("--help").returncode, 0)


def is_stand_in() -> bool:
    """Whether a script stands in the program's place, as `tools/spoiled` has one: its file says nothing of the program's."""
    if not has_program():
        return False
    with open(find_program().path, "rb") as file:
        return file.read(2) == b"#!"


@needs_program
@unittest.skipIf(is_stand_in(), "a script stands in the program's place")
class Platform(unittest.TestCase):
    def test_the_program_is_what_the_page_says(self):
        with open(find_program().path, "rb") as file:
            program = file.read()
        page = read("docs", "INSTALL.md")
        versions = {tuple(map(int, found)) for found in re.findall(rb"GLIBC_(\d+)\.(\d+)", program)}
        self.assertEqual("GLIBC_%d.%d" % max(versions), re.search(r"`(GLIBC_[\d.]+)` as the last", page)[1])
        # The magic, 64 bits, little-endian, and the number of x86-64.
        self.assertEqual((program[:6], program[18:20]), (b"\x7fELF\2\1", b"\x3e\0"))
        self.assertAlmostEqual(len(program) / 1000, int(re.search(r"about (\d+) KB", page)[1]), delta=40)

    @unittest.skipUnless(shutil.which("objdump"), "there is no objdump")
    def test_it_has_no_operation_of_a_later_processor(self):
        """Those of AVX begin with a v, and those of BMI are these, but `tzcnt`, of which the page speaks."""
        said = subprocess.run(["objdump", "-d", "--no-show-raw-insn", find_program().path], capture_output=True, text=True, check=True)
        operations = set(re.findall(r"^ +[0-9a-f]+:\t(\w+)", said.stdout, re.M))
        later = "lzcnt andn bextr blsi blsmsk blsr bzhi mulx pdep pext rorx sarx shlx shrx movbe".split()
        self.assertGreater(len(operations), 50)
        self.assertEqual({it for it in operations if it in later or it.startswith("v") and it not in ("verr", "verw")}, set())


@needs_program
@unittest.skipUnless(has_git(), "this is not a checkout of git")
class Packages(unittest.TestCase):
    @classmethod
    def setUpClass(cls):
        cls.files = packing.package("HEAD", find_program().path)
        cls.name = next(name for name in cls.files if name.endswith(".tar.gz"))

    def test_made_again(self):
        with tempfile.TemporaryDirectory() as room:
            words = [sys.executable, path_of("tools", "package"), room, "--program", find_program().path]
            ended = subprocess.run(words, capture_output=True, text=True, check=False, umask=0o077, cwd="/")
            self.assertEqual((ended.returncode, ended.stderr), (0, ""))
            made = {path: data for path, (data, _) in everything(room).items()}
        self.assertEqual(made, self.files)

    def test_members(self):
        with tarfile.open(fileobj=io.BytesIO(self.files[self.name])) as archive:
            members = archive.getmembers()
        names = [member.name for member in members]
        self.assertEqual(names, sorted(names))
        self.assertEqual(len({member.mtime for member in members}), 1)
        self.assertEqual({(member.uid, member.gid, member.uname, member.gname) for member in members}, {(0, 0, "", "")})
        runs = {member.name.split("/", 1)[1] for member in members if member.mode == 0o755}
        self.assertEqual({member.mode for member in members}, {0o644, 0o755})
        self.assertLessEqual({"bin/mm", "bin/mmachine", "tools/install"}, runs)

    def test_unpacked(self):
        with tempfile.TemporaryDirectory() as room:
            with tarfile.open(fileobj=io.BytesIO(self.files[self.name])) as archive:
                archive.extractall(room)
            top = os.path.join(room, os.listdir(room)[0])
            with open(os.path.join(top, "SHA256SUMS"), encoding="utf-8") as file:
                told = dict(line.rstrip("\n").split("  ", 1)[::-1] for line in file)
            found = {path: hashlib.sha256(data).hexdigest() for path, (data, _) in everything(top).items()}
            del found["SHA256SUMS"]
            self.assertEqual(told, found)
            source = os.path.join(top, "examples", "hello.asm")
            prefix = os.path.join(room, "prefix")
            for start, *words in (("bin/mm", "run", source), ("tools/install", prefix)):
                self.assertEqual(call([sys.executable, os.path.join(top, start), *words], cwd="/").returncode, 0)
            ended = call([sys.executable, os.path.join(prefix, "bin", "mm"), "--version"], cwd="/")
            self.assertEqual(ended.stdout.splitlines()[0], "mm " + self.name.split("-")[1])

    def test_extension(self):
        name, data = vsix(of_folder(CHECKOUT))
        self.assertEqual(list(self.files), [self.name, name, "SHA256SUMS"])
        with tempfile.TemporaryDirectory() as room:
            self.assertEqual(tool("--vsix", room)[0], 0)
            self.assertEqual(everything(room)[name][0], data)

    def test_words(self):
        self.assertEqual(tool("one", "two")[0], 1)
        status, told = tool("--commit", "of-no-such-name", "--program", find_program().path)
        self.assertEqual((status, "of-no-such-name" in told), (2, True))
