"""A console for sources of a request: what a command of `mm` writes there is kept, and no file is opened by a name."""

from __future__ import annotations

import contextlib
import io
import os
import re
import secrets
from typing import Optional, Sequence

from mm.build import Built, Unit, Workshop
from mm.cc.options import Options
from mm.console import Console, Order
from mm.machine.program import Answer, Program
from mm.named import NamedFile
from mm.serve.asked import Asked, Source
from mm.status import Status, Stop
from mm.views.style import Style
from mm.words import Words, check_count, read_words

ORDER_NAME = "the schedule"


class Desk(Console):
    """The surroundings of a command, of which all is in the request. Files in C have names of our own in the folder
    of the request; `seen` puts those of the page in their places."""

    def __init__(self, program: Program, asked: Asked) -> None:
        super().__init__(Words())
        self._program, self.asked = program, asked
        self.shop = self._workshop = Workshop(program, Options(level=asked.level))
        self.out, self.err = io.StringIO(), io.StringIO()
        self.style = self.err_style = Style()
        self.notes: list[str] = []
        # How many configurations an exploration looks at.
        self.states = 0
        self._built: Optional[Built] = None
        self.answers: dict[tuple[str, ...], Answer] = {}
        # The files of sources in C, with the names that the page has for them.
        self.stored: dict[str, str] = {}

    @property
    def built(self) -> Built:
        """The image of the request's sources."""
        if self._built is None:
            if not self.asked.sources:
                raise Stop(Status.USAGE, "there is no source")
            self._built = self.shop.link(self._units())
            self.notes += self._built.notes
        return self._built

    @property
    def file_words(self) -> list[str]:
        return [source.name for source in self.asked.sources]

    @property
    def folder(self) -> str:
        """The folder for files in between; empty where there is none."""
        return self.shop.room.path

    def say(self, words: Sequence[str]) -> None:
        """Reads the words of a command."""
        self.said = read_words(words)
        check_count(self.said)

    def _units(self) -> list[Unit]:
        in_c = [source for source in self.asked.sources if source.in_c]
        made = dict(zip((source.name for source in in_c), self._translated(in_c)))
        return [
            self.shop.assemble(
                source.name + ".asm" if source.in_c else source.name, made.get(source.name, source.data)
            )
            for source in self.asked.sources
        ]

    def _translated(self, sources: Sequence[Source]) -> list[bytes]:
        """Files in C as sources."""
        if not sources:
            return []
        from mm.cc.driver import source_of

        said, made, slot = io.StringIO(), [], 0
        with contextlib.redirect_stderr(said):
            for source in sources:
                prefix = re.sub(r"\W", "_", source.name[:-2]) if len(sources) > 1 else ""
                text = source_of([self._store(source)], Options(level=self.asked.level, slot=slot, prefix=prefix))
                slot += "\n.thread " in text
                made.append(text.encode("latin-1", "replace"))
        self.notes += said.getvalue().splitlines()
        return made

    def _store(self, source: Source) -> str:
        """A file for Clang, whose name nobody else has: it is taken out of all that is said of it."""
        kept = self.shop.keep(source.data, ".c")
        path = os.path.join(os.path.dirname(kept), f"c{secrets.token_hex(8)}.c")
        os.rename(kept, path)
        self.stored[path] = source.name
        return path

    def build(self, names: list[str]) -> Built:
        """The same image, whatever names a command has."""
        return self.built

    def order(self) -> Order:
        """The schedule of the request."""
        if not self.asked.turns.strip():
            return Order()
        data = self.asked.turns.encode()
        return Order(NamedFile(ORDER_NAME, data), self.shop.keep(data, ".schedule"))

    def ask(self, words: list[str], files: list[NamedFile], lines: Optional[bytes] = None) -> Answer:
        """An answer of `mmachine`, which is asked once for the same."""
        key = tuple(words)
        if lines is not None:
            return super().ask(words, files, lines)
        if key not in self.answers:
            self.answers[key] = super().ask(words, files)
        return self.answers[key]

    def tell(self, *lines: str) -> None:
        self.notes += lines

    @property
    def lines(self) -> list[str]:
        """What was written."""
        assert isinstance(self.out, io.StringIO)
        return self.out.getvalue().splitlines()
