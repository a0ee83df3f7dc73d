"""`mm net`: several machines side by side. Each file is a node, and links may name words instead of addresses."""

from __future__ import annotations

import re
from functools import lru_cache

from mm.build import Built, read_file
from mm.console import Console
from mm.formats.schedule import words_of
from mm.named import NamedFile
from mm.names.expressions import NoAddress, address_of
from mm.outputs.report import Report, read_report
from mm.status import Status, usage
from mm.views.faults import said_by_reports
from mm.views.report import ReportView
from mm.views.spell import Memory, Speller
from mm.words import MOST_CYCLES

LINK = re.compile(r"(\d)\.([^>\s]+)>(\d)\.(\S+)")
MOST_NODES = 8
NETS_KEPT = 64
NEWLINE = b"\n"


def _end(node: str, place: str, nodes: list[Built], where: str) -> str:
    """The end of a link with its address as a number. `where` is the place of the link in its text."""
    if int(node) >= len(nodes):
        return f"{node}.{place}" if place.isdigit() else f"{node}.8"
    try:
        return f"{node}.{address_of(place, nodes[int(node)].symbols)}"
    except NoAddress as error:
        raise usage(f"mm: {where}: link {node}.{place}: {error}") from None


def numeric(name: str, data: bytes, nodes: list[Built]) -> tuple[bytes, dict[int, int]]:
    """A text of links with numbers for names, and of each item's place in it the place in the user's own text."""
    made, places = b"", {}
    for offset, word in words_of(data):
        match = LINK.fullmatch(word.decode("latin-1"))
        places[len(made)] = offset
        if match:
            where = f"{name}:{data.count(NEWLINE, 0, offset) + 1}:{offset - data.rfind(NEWLINE, 0, offset)}"
            word = f"{_end(match[1], match[2], nodes, where)}>{_end(match[3], match[4], nodes, where)}".encode()
        made += word + NEWLINE
    return made, places


def _split(text: str) -> tuple[list[list[str]], list[str]]:
    """The lines of each node's report, and those of the links."""
    nodes: list[list[str]] = []
    links: list[str] = []
    for line in text.splitlines():
        if line.startswith("node "):
            nodes.append([])
        elif line.startswith("link "):
            links.append(line)
        else:
            nodes[-1].append(line)
    return nodes, links


def run(console: Console) -> int:
    links, events, *names = console.words
    if len(names) > MOST_NODES:
        raise usage(f"mm: net: a net has at most {MOST_NODES} nodes, and {len(names)} files are given")
    said, order = read_file(links), read_file(events)
    nodes = [console.build([name]) for name in names]
    text, moved = numeric(links, said, nodes)
    files = [NamedFile(links, said, moved=moved), NamedFile(events, order, events=True), *(node.file for node in nodes)]
    kept = [console.workshop.keep(text, ".links"), console.workshop.keep(order, ".events")]

    @lru_cache(maxsize=NETS_KEPT)
    def net_at(cycles: int) -> tuple[list[Report], list[str]]:
        words = ["net", *kept, str(cycles), *(node.path for node in nodes)]
        reports, told = _split(console.ask(words, files).text)
        return [read_report(lines) for lines in reports], told

    cycles = console.cycles(MOST_CYCLES)
    reports, told = net_at(cycles)
    for number, (node, report) in enumerate(zip(nodes, reports)):
        console.write([f"{console.style.strong(f'node {number}')}  {node.name}"])

        def report_at(at: int, number: int = number) -> Report:
            return net_at(at)[0][number]

        faults = said_by_reports(report, report_at, cycles, node.image, Speller(node.symbols))
        memory = Memory.after(node.image, report)
        view = ReportView(report, memory, Speller(node.symbols), console.style, faults=faults, of_net=True)
        console.write(view.lines(f"by its events of {events}"))
        console.write([""])
    console.write(told)
    return Status.DONE
