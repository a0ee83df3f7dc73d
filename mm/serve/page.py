"""The files of the page, made once when the server starts."""

from __future__ import annotations

import base64
import hashlib
import json
import os
import re
from typing import Any, Mapping

from mm.editing.words import CHOSEN, PLACES, wanted_of
from mm.machine.isa import OPERATIONS
from mm.machine.program import Program
from mm.machine.words import BY_SHORT
from mm.serve import panes
from mm.serve.http import Answer
from mm.serve.limits import Limits
from mm.serve.shelf import pictures, shelf
from mm.source.wants import DIRECTIVES
from mm.view.page import SCRIPTS as OF_VIEW
from mm.view.page import part

Json = Any
FOLDER = os.path.dirname(os.path.abspath(__file__))
SCRIPTS = ("state.js", "before.js", "editor.js", "ask.js", "panes.js", "debug.js", "shelf.js", "main.js")
INLINE = re.compile(r"<script>(.*?)</script>", re.S)


def file_of(name: str) -> str:
    with open(os.path.join(FOLDER, name), encoding="utf-8") as file:
        return file.read()


def words() -> Json:
    """What the editor colours, explains and completes."""
    return {
        "operations": {
            each.name: [each.usage, each.effect, each.example, wanted_of(each)] for each in OPERATIONS.values()
        },
        "places": PLACES,
        "directives": {name: [each.usage, each.meaning, each.example] for name, each in DIRECTIVES.items()},
        "permissions": {short: each.full for short, each in BY_SHORT.items()},
        "choices": list(CHOSEN),
    }


def about(limits: Limits, begin: Json) -> Json:
    """What the page is told when it opens."""
    return {
        "begin": {**begin, "mark": hashlib.sha256(json.dumps(begin["files"]).encode()).hexdigest()},
        "limits": {"bytes": limits.bytes, "sources": limits.sources, "cycles": limits.cycles, "c": limits.c},
        "panes": [[each.command, each.title, each.says, each.fields, each.example, bool(each.guess)]
            for each in panes.PANES],
        "words": words(),
        "shelf": shelf(limits.c),
    }


def digest_of_view() -> str:
    """What the policy of the page has of the scripts of a run's page, which the browser may carry out."""
    text = "\n" + "\n".join(part(name) for name in OF_VIEW) + "\n"
    return f"'sha256-{base64.b64encode(hashlib.sha256(text.encode()).digest()).decode()}'"


def policy() -> Mapping[str, str]:
    """What the browser may do for the page: carry out its scripts and those of a run's page, and ask this server
    alone."""
    rows = (
        "default-src 'none'",
        f"script-src 'self' {digest_of_view()}",
        "style-src 'self' 'unsafe-inline'",
        "img-src 'self' data: blob:",
        "connect-src 'self'",
        "frame-src 'self'",
        "base-uri 'none'",
        "form-action 'none'",
        "frame-ancestors 'self'",
    )
    return {"Content-Security-Policy": "; ".join(rows)}


def files_of(program: Program, limits: Limits, begin: Json) -> dict[str, Answer]:
    """The files by their names. The page itself has none."""
    style = part("view.css").split("/* The timeline and its buttons. */")[0]
    page = file_of("page.html")
    made = {
        "": ("text/html", page),
        "page.css": ("text/css", style + file_of("page.css")),
        "page.js": ("text/javascript", "\n".join(file_of(name) for name in SCRIPTS)),
        "about.json": ("application/json", json.dumps(about(limits, begin))),
    }
    made.update({f"pictures/{name}": ("image/svg+xml", text) for name, text in pictures().items()})
    return {name: Answer(200, f"{kind}; charset=utf-8", text.encode("utf-8", "replace"), policy() if not name else {})
            for name, (kind, text) in made.items()}
