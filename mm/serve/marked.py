"""The pages of the course as HTML: of Markdown, as much as they use. All text is escaped, and links lead nowhere but
to other lessons."""

from __future__ import annotations

import html
import re
from typing import Iterator, Optional

SPANS = re.compile(r"`([^`\n]+)`|\*\*([^*]+)\*\*|(!?)\[([^\]]*)\]\(([^)]*)\)|\*([^*\n]+)\*")
PICTURE = re.compile(r"!\[([^\]]*)\]\(\.\./pictures/([\w-]+\.svg)\)")
LESSON = re.compile(r"(\d{1,2})-[\w-]+\.md(?:#.*)?")
ITEM = re.compile(r"(?:[-*]|\d+\.) +")
FENCE = re.compile(r"```(\S*)")


def spans(text: str) -> str:
    """A line with its marks."""
    made, at = "", 0
    for found in SPANS.finditer(text):
        made += html.escape(text[at : found.start()]) + _span(found)
        at = found.end()
    return made + html.escape(text[at:])


def _span(found: re.Match[str]) -> str:
    code, strong, is_picture, said, to, slanted = found.groups()
    if code is not None:
        return f"<code>{html.escape(code)}</code>"
    if strong is not None:
        return f"<strong>{spans(strong)}</strong>"
    if slanted is not None:
        return f"<em>{html.escape(slanted)}</em>"
    picture = PICTURE.fullmatch(found[0]) if is_picture else None
    if picture:
        return f'<img src="pictures/{picture[2]}" alt="{html.escape(said)}">'
    lesson = LESSON.fullmatch(to)
    if lesson:
        return f'<a href="#" data-lesson="{int(lesson[1])}">{spans(said)}</a>'
    return spans(said)


def _rows(lines: list[str]) -> str:
    """A table."""
    rows = [[cell.strip().replace("\\|", "|") for cell in re.split(r"(?<!\\)\|", line.strip().strip("|"))]
        for line in lines]
    head, *body = [row for row in rows if not all(re.fullmatch(r":?-+:?", cell) for cell in row)]
    top = "".join(f'<th scope="col">{spans(cell)}</th>' for cell in head)
    rest = "".join("<tr>" + "".join(f"<td>{spans(cell)}</td>" for cell in row) + "</tr>" for row in body)
    return f'<div class="scroll" tabindex="0"><table><thead><tr>{top}</tr></thead><tbody>{rest}</tbody></table></div>'


def _list(lines: list[str]) -> str:
    """A list; lines that are set in go on with the item before."""
    items: list[str] = []
    for line in lines:
        mark = ITEM.match(line)
        if mark:
            items.append(line[mark.end() :])
        elif items:
            items[-1] += " " + line.strip()
    tag = "ol" if lines[0][0].isdigit() else "ul"
    return f"<{tag}>" + "".join(f"<li>{spans(item)}</li>" for item in items) + f"</{tag}>"


def _block(lines: list[str]) -> str:
    first = lines[0]
    heading = re.match(r"(#{1,4}) +(.*)", first)
    if heading:
        level = min(6, len(heading[1]) + 2)
        rest = _block(lines[1:]) if lines[1:] else ""
        return f"<h{level}>{spans(heading[2])}</h{level}>{rest}"
    if first.startswith("|"):
        return _rows(lines)
    if ITEM.match(first):
        return _list(lines)
    if all(line.startswith("    ") for line in lines):
        return f"<pre>{html.escape(chr(10).join(line[4:] for line in lines))}</pre>"
    summary = re.fullmatch(r"<details><summary>([\w ,.?]*)</summary>", first)
    if summary:
        return f"<details><summary>{summary[1]}</summary>"
    return "</details>" if first == "</details>" else f"<p>{spans(' '.join(line.strip() for line in lines))}</p>"


def _blocks(text: str) -> Iterator[str]:
    """The blocks of a page as HTML."""
    lines: list[str] = []
    fence: Optional[list[str]] = None
    for line in text.split("\n"):
        if fence is not None:
            if line.startswith("```"):
                yield f'<pre tabindex="0">{html.escape(chr(10).join(fence))}</pre>'
                fence = None
            else:
                fence.append(line)
            continue
        opened = FENCE.match(line)
        alone = opened or not line.strip() or line.startswith(("<details>", "</details>"))
        if alone and lines:
            yield _block(lines)
            lines = []
        if opened:
            fence = []
        elif line.strip():
            lines.append(line)
            if line.startswith(("<details>", "</details>")):
                yield _block(lines)
                lines = []
    if lines:
        yield _block(lines)


def html_of(text: str) -> str:
    """A page as HTML; a part that is left open is closed at its end."""
    made = "\n".join(block for block in _blocks(text) if not block.startswith("<p>Before: "))
    return made + "</details>" * (made.count("<details>") - made.count("</details>"))
