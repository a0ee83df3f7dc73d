"""`mm explore`: what a program does under every schedule."""

from __future__ import annotations

from mm.console import Console
from mm.explore.asked import meant_of, states_of
from mm.explore.looking import explored
from mm.explore.places import met_in, standings
from mm.explore.wrote import written
from mm.status import Status
from mm.table import JSON, MEANT, STATES, WROTE
from mm.views.exploration import ExplorationView, WritesView
from mm.views.exploreddata import ExploredForm
from mm.views.style import Style
from mm.why.ask import address_of_word


def run(console: Console) -> int:
    """Writes what was found: all of it, or who writes a word."""
    said, form = console.said, console.said.has(JSON)
    asked, meant, named = states_of(said.value(STATES)), meant_of(said.all(MEANT)), said.value(WROTE)
    built = console.build(console.words)
    word = None if named is None else address_of_word(named, built.symbols)
    found, states = explored(console, built, asked)
    writes = None if word is None else written(console, built, found, word)
    if writes is not None and not form:
        console.write(WritesView(built.symbols).lines(found, writes))
        return Status.DONE
    style = Style() if form else console.style
    places, stand = met_in(console, built, found, meant), standings(console, built, found, style)
    if form:
        console.write_json(ExploredForm(built.symbols, states, found, places, stand, meant, writes).form())
    else:
        console.write(ExplorationView(built.symbols, places, stand, meant, style).lines(found))
    return Status.DONE
