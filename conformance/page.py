"""The part of docs/STRENGTH.md that `conformance/strength` writes: how many bugs are found, and a table of each."""

import os
import statistics
import textwrap
from collections import Counter

from planted import GROUPS, TOP, bugs, reasons

PAGE = os.path.join(TOP, "docs", "STRENGTH.md")
BEGIN, END = "<!-- conformance/strength writes from here -->", "<!-- to here -->"
WIDTH = 120
HEADS = ("bug", "case, or why not", "cases", "lockstep")
NOTHING = ("", "", "", "")
FOUND = "FOUND"
OTHERS = ("COUNTS", "SAME PROGRAM", "NOT FOUND", "NO PROGRAM")
NONE_OF = "none of "


def rows():
    """The rows that stand on the page, of the bugs that were tried, with what the suite found before the case."""
    if not os.path.isfile(PAGE):
        return {}
    with open(PAGE, encoding="utf-8") as lines:
        cells = [[cell.strip() for cell in line.split("|")[1:-1]] for line in lines if line.startswith("| ")]
    tried = [row for row in cells if len(row) == len(HEADS) and "/" in row[0] and row[1]]
    return {name: (*of_cell(row[1]), *row[2:]) for row in tried for name in row[0].split(", ")}


def cell_of(result, case):
    """A cell of the page: of a bug that is found its case alone, else the result before it."""
    return case if result == FOUND else ": ".join(filter(None, (result, case)))


def of_cell(cell):
    """What cell_of says, as the result and the case."""
    result, _, case = cell.partition(": ")
    return (result, case) if result in OTHERS else (FOUND, cell)


def row_of(name, results, why):
    """The cells of a bug: what the suite found, and what random cases did."""
    found, more = results.get((name, "suite")), results.get((name, "lockstep"))
    if not found:
        return NOTHING
    case = found["case"] or why.get(name, "")
    return found["result"], case, str(found["differing"] or ""), lockstep_cell(more)


def lockstep_cell(row):
    """How many random cases it took."""
    if not row:
        return ""
    if row["result"] == "SAME PROGRAM":
        return "-"
    if row["result"] == "COUNTS":
        return f"counts {row['place']}"
    return str(row["place"]) if row["result"] == FOUND else f"{NONE_OF}{row['tried']}"


def table(found):
    """The table of the bugs, by their groups, those of a group with the same result in one row."""
    lines = [f"| {' | '.join(HEADS)} |", "|---|---|---|---|"]
    for group in GROUPS:
        together = {}
        for name in found:
            if name.startswith(f"{group}/"):
                together.setdefault(found[name], []).append(name)
        for (result, case, *more), names in together.items():
            lines.append(" ".join(f"| {' | '.join([', '.join(names), cell_of(result, case), *more])} |".split()))
    return [*lines, ""]


def totals(found):
    """How many bugs the suite finds, and random cases."""
    results = Counter(row[0] or "not tried yet" for row in found.values())
    counted = ", ".join(f"{number} {result}" for result, number in results.most_common())
    once = sum(row[2] == "1" for row in found.values())
    yield from textwrap.wrap(f"Of {len(found)} bugs: {counted}. One case alone finds {once} of them.", WIDTH)
    places = {name: int(row[3]) for name, row in found.items() if row[3].isdigit()}
    if not places:
        return
    alone = [name for name in places if found[name][0] != FOUND]
    missed = [name for name, row in found.items() if row[0] == FOUND and row[3] and name not in places]
    half, last = statistics.median_low(places.values()), max(places.values())
    tried = max((int(row[3].removeprefix(NONE_OF)) for row in found.values() if row[3].startswith(NONE_OF)), default=0)
    said = f"Random cases find {len(places)} bugs, half of these within {half} cases, the last one after {last}."
    if tried:
        said += f" Up to {tried} cases were tried."
    said += f" They miss {len(missed) or 'none'} that the suite finds, and find {len(alone) or 'none'} that it misses."
    yield ""
    yield from textwrap.wrap(said, WIDTH)


def write(results):
    """Writes the part: what the results say, and what stands there of other bugs."""
    before, why = rows(), reasons()
    found = {}
    for name in bugs():
        row = row_of(name, results, why)
        found[name] = row if row[0] else before.get(name, NOTHING)
    lines = [BEGIN, "", *totals(found), "", *table(found)]
    with open(PAGE, encoding="utf-8") as file:
        text = file.read()
    if BEGIN not in text or END not in text:
        raise ValueError(f"{PAGE} has no place for the tables")
    with open(PAGE, "w", encoding="utf-8") as file:
        file.write(text.partition(BEGIN)[0] + "\n".join([*lines, END]) + text.partition(END)[2])
