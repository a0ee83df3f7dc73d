"""Names and words of a source: what stands at a place, what it means, where it comes from, and what may stand there."""

from __future__ import annotations

import re
from dataclasses import dataclass
from typing import Iterable, Iterator, Mapping, Optional, Union

from mm.help.texts import topic_lines
from mm.machine.isa import CHOICES, OPERATIONS, Kind, Operation
from mm.machine.words import BY_SHORT
from mm.source.text import Label, SourceSegment, SourceText, Use
from mm.source.tokens import LONG_LINE, Token, TokenKind, tokens_of
from mm.source.wants import DIRECTIVES

REGISTERS = tuple(f"r{number}" for number in range(16))
CHOSEN = tuple(sorted({choice for choices in CHOICES.values() for choice in choices}))
MOST_WORDS = 400
BEGUN = re.compile(r"\.?\w*$")
HEAD = re.compile(r"^[ \t]*(?:[A-Za-z_]\w*[ \t]*:)?[ \t]*(?:\.empty[ \t]+)?(\.?[A-Za-z_]\w*)[ \t]+(.*)$")
# What may stand at a place: words to choose from, a `register`, a `permission`, a `name`, or nothing that can be offered.
Wanted = Union[str, tuple[str, ...]]
# The same of the words after a directive.
PLACES: Mapping[str, tuple[Wanted, ...]] = {
    ".ptr": ("permission", "name"),
    ".thread": ("", "", ("none",), ("xu", "xp"), "name"),
    ".reg": ("", ("int", "ptr"), "permission", "name"),
}
BEGINS = re.compile(r"^[ \t]*(?:[A-Za-z_]\w*[ \t]*:)?[ \t]*(?:\.empty[ \t]+)?[.\w]*$")


@dataclass(frozen=True)
class Place:
    """A place of a source: a line from 1, and the columns from 1 up to its end."""

    line: int
    column: int
    end: int


@dataclass(frozen=True)
class Offer:
    """What may stand somewhere: a word, what kind of thing it is, and what it does."""

    word: str
    kind: str
    says: str


def word_at(text: SourceText, line: int, column: int) -> Optional[Token]:
    """The name, directive or number around a column of a line."""
    said = text.line(line)
    for token in tokens_of(said[:LONG_LINE]):
        if token.column <= column <= token.end and token.kind in (TokenKind.NAME, TokenKind.DIRECTIVE):
            return token
    return None


def is_head(text: SourceText, line: int, token: Token) -> bool:
    """Whether a token is the operation or directive of its line, and no name."""
    return BEGINS.match(text.line(line)[: token.end - 1]) is not None and not _is_label(text, line, token)


def _is_label(text: SourceText, line: int, token: Token) -> bool:
    label = text.labels.get(token.text)
    return label is not None and (label.line, label.column) == (line, token.column)


def definition(text: SourceText, name: str) -> Optional[Place]:
    """Where a label or a segment is defined."""
    label, segment = text.labels.get(name), text.segment(name)
    found = label or segment
    return Place(found.line, found.column, found.column + len(name)) if found else None


def uses(text: SourceText, name: str) -> Iterator[Place]:
    """Where a name stands, its definition among them."""
    word = re.compile(rf"(?<![\w.]){re.escape(name)}(?!\w)")
    for number, line in enumerate(text.lines, 1):
        if name in line:
            for token in tokens_of(line):
                if token.text == name and word.match(line, token.column - 1) and not _is_operation(text, number, token):
                    yield Place(number, token.column, token.end)


def _is_operation(text: SourceText, line: int, token: Token) -> bool:
    return token.text in OPERATIONS and is_head(text, line, token)


def about(text: SourceText, line: int, token: Token) -> list[str]:
    """What there is to say of a word, as `mm help` has it."""
    name = token.text
    if not is_head(text, line, token) or name not in OPERATIONS:
        named = _about_name(text, name)
        if named:
            return named
    if name in OPERATIONS or name in DIRECTIVES or name in BY_SHORT:
        return list(topic_lines(name) or [])
    return []


def _about_name(text: SourceText, name: str) -> list[str]:
    label, segment = text.labels.get(name), text.segment(name)
    if label is not None:
        return [_label_says(text, label), f"    {text.line(label.line).strip()}"]
    if segment is not None:
        return [_segment_says(segment), *_comment_above(text, segment.line)]
    return []


def _label_says(text: SourceText, label: Label) -> str:
    segment = text.segments[label.segment]
    return f"{label.name}: the word {8 * label.place} bytes into {segment.name}"


def _segment_says(segment: SourceSegment) -> str:
    return f"{segment.name}: a segment of 2^{segment.log} bytes, of whose {segment.room} words {segment.words} are filled"


def _comment_above(text: SourceText, line: int) -> list[str]:
    """The comment above a line, in its order."""
    found: list[str] = []
    while text.line(line - 1).lstrip().startswith(";") and len(found) < 8:
        line -= 1
        found.insert(0, "    " + text.line(line).strip(" \t;"))
    return found


def symbols(text: SourceText) -> Iterator[tuple[str, str, Place, int]]:
    """Segments, labels and threads in their order: name, kind, place, and the last line that belongs to it."""
    ends = [segment.line - 1 for segment in text.segments[1:]] + [len(text.lines)]
    for index, (segment, end) in enumerate(zip(text.segments, ends)):
        yield segment.name, "segment", Place(segment.line, segment.column, segment.column + len(segment.name)), end
        for label in text.labels.values():
            if label.segment == index:
                yield label.name, "label", Place(label.line, label.column, label.column + len(label.name)), label.line


def unknown(text: SourceText) -> list[Use]:
    """Uses of names that this source does not define: another one must."""
    return [use for use in text.uses if definition(text, use.name) is None]


def begun(text: SourceText, line: int, column: int) -> str:
    """The part of a word that stands before a column."""
    found = BEGUN.search(text.line(line)[: column - 1])
    return found[0] if found else ""


def wanted_of(operation: Operation) -> list[Wanted]:
    """What may stand in the place of each operand."""
    return [kind.choices or ("register" if kind.is_register else "name" if kind is Kind.PLACE else "")
            for kind in operation.operands]


def wanted_at(before: str) -> Wanted:
    """What may stand at the end of a line that is begun."""
    head = HEAD.match(before)
    if head is None:
        return ""
    name, rest = head.groups()
    if name in OPERATIONS:
        wanted, at = wanted_of(OPERATIONS[name]), rest.count(",")
    else:
        wanted, at = list(PLACES.get(name, ())), len(re.split(r"[ \t]+", rest)) - 1
    return wanted[at] if at < len(wanted) else ""


def offers(text: SourceText, line: int, column: int) -> list[Offer]:
    """What may stand where a word ends at a column, and nothing else."""
    before = text.line(line)[: column - 1]
    if ";" in before:
        return []
    if BEGINS.match(before):
        return [*_operations(), *_directives()]
    wanted = wanted_at(before)
    if isinstance(wanted, tuple):
        return list(_plain(wanted, "word"))
    made = {"register": lambda: _plain(REGISTERS, "register"), "permission": _permissions, "name": lambda: _names(text)}
    return list(made[wanted]()) if wanted else []


def _operations() -> Iterable[Offer]:
    return [Offer(each.name, "operation", f"{each.usage}: {each.effect}") for each in OPERATIONS.values()]


def _directives() -> Iterable[Offer]:
    return [Offer(name, "directive", f"{each.usage}: {each.meaning}") for name, each in DIRECTIVES.items()]


def _names(text: SourceText) -> Iterable[Offer]:
    labels = [Offer(label.name, "label", _label_says(text, label)) for label in list(text.labels.values())[:MOST_WORDS]]
    return [*labels, *(Offer(each.name, "segment", _segment_says(each)) for each in text.segments[:MOST_WORDS])]


def _permissions() -> Iterable[Offer]:
    return [Offer(short, "permission", f"{each.full}") for short, each in BY_SHORT.items()]


def _plain(words: Iterable[str], kind: str) -> Iterable[Offer]:
    return [Offer(word, kind, kind) for word in words]
