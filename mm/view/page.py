"""The page of a run: the template with its style, its scripts and its data in one file."""

from __future__ import annotations

import html
import json
import os
import re
from typing import Any

MARK = re.compile(r"\{\{(\w+)\}\}")
FOLDER = os.path.dirname(os.path.abspath(__file__))
SCRIPTS = ("words.js", "replay.js", "c.js", "timeline.js", "turn.js", "slots.js", "memory.js", "others.js", "main.js")


def part(name: str) -> str:
    with open(os.path.join(FOLDER, name), encoding="utf-8") as file:
        return file.read()


def data_text(data: Any) -> str:
    """Data as JSON that may stand in a script element, whatever its texts say."""
    text = json.dumps(data, ensure_ascii=True, separators=(",", ":"))
    return text.replace("<", "\\u003c").replace(">", "\\u003e").replace("&", "\\u0026")


# What only some pages show: the key of their data, and the script.
FURTHER = {"keeps": "keeps.js"}


def page_of(data: Any) -> str:
    """The page that shows a run."""
    further = [name for key, name in FURTHER.items() if data.get(key)]
    parts = {
        "title": html.escape(data["title"]),
        "style": part("view.css"),
        "scripts": "\n".join(part(name) for name in (*SCRIPTS, *further)),
        "data": data_text(data),
    }
    return MARK.sub(lambda mark: parts[mark[1]], part("page.html"))
