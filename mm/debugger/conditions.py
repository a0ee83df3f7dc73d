"""Conditions of breaks and watches: `r3 == 32`, `count >= 2 && r1 != 0`, `i * 2 < n`."""

from __future__ import annotations

import re
from typing import Optional

from mm.debugger.arithmetic import COMPARISONS, LOGICAL, Sign, Tree, leaves, number_in, tree_of, value_in
from mm.debugger.evaluate import Empty, Values
from mm.debugger.session import Session
from mm.names.expressions import NoAddress
from mm.records import dataclass

# `if slot 1` is a slot.
IF = re.compile(r"(.*?)\s*\bif\s+(?!(?:slot|thread)\s+\d+$)(.+)")


@dataclass(frozen=True)
class Condition:
    """What must be so, as it was typed, and what it means."""

    text: str
    tree: Tree

    def holds(self, session: Session) -> bool:
        """Whether it is so at the moment of a session, or cannot be reckoned there: then the run stops, as it does in gdb."""
        try:
            return number_in(value_in(self.tree, Values(session))) != 0
        except NoAddress:
            return True

    def trouble(self, session: Session) -> str:
        """Why it cannot be reckoned at the moment of a session; nothing if it can."""
        try:
            value_in(self.tree, Values(session))
        except NoAddress as error:
            return f"`if {self.text}` cannot be reckoned here: {error}"
        return ""

    def check(self, session: Session) -> None:
        """Raises a name that nothing has. A register may have no value yet, and a variable of C no place."""
        if session.values and session.values.frames:
            return
        for part in leaves(self.tree):
            try:
                value_in(part, Values(session))
            except Empty:
                pass


def condition_in(text: str, session: Session) -> tuple[str, Optional[Condition]]:
    """What stands before `if`, and the condition after it."""
    match = IF.fullmatch(text)
    return (match[1], condition_of(match[2], session)) if match else (text, None)


def condition_of(said: str, session: Session) -> Condition:
    """The condition that a text is, with or without parentheses around it."""
    text = said.strip()
    while is_enclosed(text):
        text = text[1:-1].strip()
    tree = tree_of(text)
    if not isinstance(tree, Sign) or tree.sign not in (*COMPARISONS, *LOGICAL):
        raise NoAddress(f"`{said}` compares nothing: write `if r3 == 32`, with ==, !=, <, <=, > or >=, and && or || between")
    condition = Condition(text, tree)
    condition.check(session)
    return condition


def is_enclosed(text: str) -> bool:
    """Whether the parenthesis at the beginning is closed at the end."""
    depth = 0
    for place, letter in enumerate(text):
        depth += (letter == "(") - (letter == ")")
        if depth == 0:
            return letter == ")" and place == len(text) - 1
    return False
