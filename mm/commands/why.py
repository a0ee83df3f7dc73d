"""`mm why`: how a group is granted a word."""

from __future__ import annotations

from mm.console import Console
from mm.status import Status
from mm.views.derivation import DerivationView, answer
from mm.why.ask import asked
from mm.why.lines import NO, read_lines


def run(console: Console) -> int:
    *names, group, word, kind = console.words
    built = console.build(names)
    ask = asked(group, word, kind, built.symbols)
    if ask.group not in built.image.groups:
        console.tell(f"mm: note: no thread is in group {ask.group}")
    text = console.ask(["why", built.path, *ask.words], [built.file]).text
    place, granted = built.symbols.show(ask.address), text != NO
    console.write([answer(ask.group, place, ask.kind, granted, console.style)])
    if granted:
        console.write(DerivationView(read_lines(text), built.symbols, console.style).lines())
    return Status.DONE
