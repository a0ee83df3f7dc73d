"""What a request asks for: a JSON text, read into sources and numbers that are within the limits.

A name in a request only ever names a source on the page. No file is opened by it: see `stored`."""

from __future__ import annotations

import json
import re
from dataclasses import dataclass, field
from typing import Any, Optional

from mm.formats.schedule import read_schedule
from mm.serve.limits import Limits

NAME = re.compile(r"[A-Za-z0-9_][A-Za-z0-9_ -]{0,39}\.(asm|c)")
WORD = re.compile(r"[A-Za-z0-9_][A-Za-z0-9_.,+*:-]{0,79}")
MOST_WORDS, MOST_TURNS_TEXT = 70, 65_536
# What names a file in C. A line of C may have one of these words only where it is one of the headers that are here.
NAMES_A_FILE = re.compile(r"\b(?:include|include_next|import|embed|incbin|pragma|_Pragma|__has_\w+|__pragma|module)\b")
HEADERS = ("alloca", "assert", "ctype", "errno", "inttypes", "limits", "malloc", "math", "memory", "mm", "setjmp",
    "stdarg",
    "stdbool", "stddef", "stdint", "stdio", "stdlib", "string", "strings", "time", "wchar")
HEADER = re.compile(
    rf"[ \t]*#[ \t]*include[ \t]*<(?:{'|'.join(HEADERS)})\.h>[ \t\r]*(?://[^\\?]*|/\*[^*\\?]*\*/[ \t\r]*)?"
)
# All that a line may begin with that is for the preprocessor. One with the name of a file tells Clang, and then
# `mm`, to read it.
DIRECTIVE = re.compile(r"[ \t]*#[ \t]*(?:(?:define|undef|if|ifdef|ifndef|elif|else|endif|error|warning)\b.*)?")
HIDDEN = re.compile(r"\*/[^\n]*#")
SPLICE = re.compile(r"(?:\\|\?\?/)[ \t\r\f\v]*\n")


class NotAllowed(Exception):
    """A request that is not carried out, with the reason in words and the status of HTTP."""

    def __init__(self, why: str, status: int = 400) -> None:
        super().__init__(why)
        self.status = status


@dataclass(frozen=True)
class Source:
    """A source: the name by which the page knows it, and its bytes."""

    name: str
    data: bytes

    @property
    def in_c(self) -> bool:
        return self.name.endswith(".c")


@dataclass(frozen=True)
class Asked:
    """A request: what is to be done, with what sources, in what order of turns, and within what numbers."""

    deed: str
    sources: tuple[Source, ...]
    turns: str = ""
    cycles: Optional[int] = None
    first: int = 1
    words: tuple[str, ...] = field(default=())
    level: str = "0"


def _text(form: dict[str, Any], key: str, most: int) -> str:
    found = form.get(key, "")
    if not isinstance(found, str) or len(found) > most:
        raise NotAllowed(f"`{key}` is not a text of at most {most} letters")
    return found


def _number(form: dict[str, Any], key: str, low: int, high: int) -> Optional[int]:
    found = form.get(key)
    if found is None:
        return None
    if isinstance(found, bool) or not isinstance(found, int) or not low <= found <= high:
        raise NotAllowed(f"`{key}` is not a number from {low} to {high}: that is the limit here", 413)
    return found


def _words(form: dict[str, Any]) -> tuple[str, ...]:
    found = form.get("words", [])
    if not isinstance(found, list) or len(found) > MOST_WORDS:
        raise NotAllowed(f"`words` is not a list of at most {MOST_WORDS} words")
    for word in found:
        if not isinstance(word, str) or not WORD.fullmatch(word):
            raise NotAllowed("a word is not one of names and numbers")
    return tuple(found)


def _source(form: Any, limits: Limits) -> Source:
    if not isinstance(form, dict) or set(form) != {"name", "text"}:
        raise NotAllowed("a source is not a name and a text")
    name, text = form["name"], form["text"]
    if not isinstance(name, str) or not NAME.fullmatch(name):
        raise NotAllowed("the name of a source is letters, digits, `_`, `-` and blanks, and ends with .asm or .c")
    if not isinstance(text, str):
        raise NotAllowed(f"{name} is not a text")
    try:
        source = Source(name, text.replace("\r\n", "\n").encode("utf-8"))
    except UnicodeEncodeError:
        raise NotAllowed(f"{name} has half of a letter: it is not a text") from None
    if source.in_c and not limits.c:
        raise NotAllowed(f"{name}: C is off here; who started the server can switch it on with --c", 403)
    if source.in_c:
        refuse_files(name, text)
    return source


def _sources(form: dict[str, Any], limits: Limits) -> tuple[Source, ...]:
    given = form.get("files", [])
    if not isinstance(given, list):
        raise NotAllowed("`files` is not a list of sources")
    if len(given) > limits.sources:
        raise NotAllowed(f"there are {len(given)} sources, and the limit here is {limits.sources}", 413)
    sources = tuple(_source(each, limits) for each in given)
    if len({source.name for source in sources}) < len(sources):
        raise NotAllowed("two sources have the same name")
    size = sum(len(source.data) for source in sources)
    if size > limits.bytes:
        raise NotAllowed(f"the sources have {size} bytes, and the limit here is {limits.bytes}", 413)
    return sources


def refuse_files(name: str, text: str) -> None:
    """Refuses a source in C that names a file, in whatever way, but a header of the library. The rule looks at more
    than it must: such a word may not stand in a comment or a text either."""
    joined = SPLICE.sub("", text.replace("\r\n", "\n").replace("\r", "\n"))
    for line in joined.split("\n"):
        if HEADER.fullmatch(line):
            continue
        found = NAMES_A_FILE.search(line)
        if found:
            raise NotAllowed(
                f"{name}: `{found[0]}` may stand only in lines such as `#include <stdio.h>`: no other file is read",
                403,
            )
        if line.lstrip().startswith("#") and not DIRECTIVE.fullmatch(line):
            said = line.split('"')[0].strip()[:20]
            raise NotAllowed(f"{name}: `{said}` is not taken here: it may name a file", 403)
    if "??" in joined or "%:" in joined or HIDDEN.search(joined):
        said = "`??`, `%:`, and `#` after a comment in its line, are not taken here: they may hide a file"
        raise NotAllowed(f"{name}: {said}", 403)


def _turns(form: dict[str, Any], limits: Limits) -> str:
    turns = _text(form, "turns", MOST_TURNS_TEXT)
    try:
        length = read_schedule(turns.encode("utf-8")).length
    except (ValueError, UnicodeEncodeError):
        raise NotAllowed("the turns are numbers of slots with blanks between, such as 0 1 1*5") from None
    if length > limits.cycles:
        raise NotAllowed(f"there are {length} turns in the schedule, and the limit here is {limits.cycles}", 413)
    return turns


def read_asked(body: bytes, limits: Limits) -> Asked:
    """What the body of a request asks for."""
    try:
        form = json.loads(body.decode("utf-8"))
    except (ValueError, RecursionError):
        raise NotAllowed("the request is not JSON in UTF-8") from None
    if not isinstance(form, dict):
        raise NotAllowed("the request is not an object of JSON")
    level = _text(form, "level", 1) or "0"
    if level not in ("0", "1", "2", "3", "s"):
        raise NotAllowed("`level` is 0, 1, 2, 3 or s")
    return Asked(
        _text(form, "do", 40),
        _sources(form, limits),
        _turns(form, limits),
        _number(form, "cycles", 0, limits.cycles),
        _number(form, "from", 1, limits.cycles) or 1,
        _words(form),
        level,
    )
