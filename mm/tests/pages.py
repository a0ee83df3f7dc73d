"""The pages of docs/view: their names, and the words of `mm view` that make each."""

from __future__ import annotations

import os

from mm.tests.support import mm, path_of

SPLIT = "split:"


def pages() -> dict[str, list[str]]:
    """The list of docs/view/pages."""
    with open(path_of("docs", "view", "pages"), encoding="utf-8") as file:
        rows = [line.split() for line in file if line.strip() and not line.startswith("#")]
    return {name: words for name, *words in rows}


def prepared(words: list[str], room: str) -> list[str]:
    """The same words with `split:SOURCE` made into an image of a split machine, in a folder."""
    made = []
    for word in words:
        if not word.startswith(SPLIT):
            made.append(word)
            continue
        source = word[len(SPLIT) :]
        path = os.path.join(room, os.path.splitext(os.path.basename(source))[0] + ".img")
        ended = mm("migrate", source, "split", "--output", path)
        if ended.status:
            raise SystemExit(ended.err)
        made += [path, "--names", source]
    return made
