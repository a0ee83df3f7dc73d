"""What one can begin from: the examples, the lessons and the exercises, read from this checkout when the server
starts."""

from __future__ import annotations

import os
import re
from typing import Any, Iterator, Optional

from mm.commands.grade import exercises, sheet_of
from mm.machine.program import CHECKOUT
from mm.serve.marked import PICTURE, html_of, spans

Json = Any
COURSE = os.path.join(CHECKOUT, "docs", "course")
EXAMPLES = os.path.join(CHECKOUT, "examples")
HELLO = "hello.asm"
BEGIN = """\
; Type a program here, and press Run.
.segment main 6
  ldi r1, 72
  out r1
  halt
.thread 0 0 none xu main
"""
LESSON = re.compile(r"([1-9][0-9]?)-[\w-]+\.md")
EXERCISE = re.compile(r"^\*\*(\d)\. .*?(?=^\*\*\d\. |^<details>|^Before: |^## |\Z)", re.M | re.S)
TASK = re.compile(r"^## (\d)\. .*?(?=^## |\Z)", re.M | re.S)
FENCED = re.compile(r"^```asm[^\n]*\n(.*?)^```", re.M | re.S)
COPIED = re.compile(r"^\$ cp ((?:examples|docs/course)/[\w/]+\.asm) ", re.M)
BESIDE = re.compile(r'^#include "([\w.]+)"\n', re.M)
# What a header begins with so that it is taken once.
OPENED = re.compile(r"^#pragma once\n", re.M)
SAID_IN_C = re.compile(r"\s*(?://|/\*)[ *]*(.*)")
# Programs in C that are made of several sources, in the order of their slots.
IN_C_TOGETHER = {"gate": ("gate.c", "guest.c", "thief.c"), "ring": ("producer.c", "consumer.c"),
    "keeper": ("worker.c", "keeper.c"), "store": ("store.c", "ann.c", "ben.c")}


def read(path: str) -> str:
    with open(path, encoding="utf-8") as file:
        return file.read()


def _title(text: str, name: str) -> str:
    """The first comment of a source."""
    found = re.match(r"\s*;\s*(.*)", text)
    return found[1].split(". ")[0].rstrip(".:") if found else name


def _sources(folder: str, suffix: str = ".asm") -> Iterator[tuple[str, str]]:
    """The names of the sources in a folder, with their texts."""
    for name in sorted(os.listdir(folder)) if os.path.isdir(folder) else []:
        if name.endswith(suffix):
            yield name, read(os.path.join(folder, name))


def _item(name: str, files: list[tuple[str, str]], turns: str = "") -> Json:
    return {"name": name, "title": _title(files[0][1], name), "turns": turns,
        "files": [{"name": file, "text": text} for file, text in files]}


def _turns(folder: str, name: str) -> str:
    """The schedule that goes with an example."""
    path = os.path.join(folder, name[:-4] + ".schedule")
    return " ".join(re.sub(r"#.*", "", read(path)).split()) if os.path.isfile(path) else ""


def examples() -> list[Json]:
    """The programs to look at: the examples, those of the lessons, and that of the lab."""
    found = [_item(name, [(name, text)], _turns(EXAMPLES, name)) for name, text in _sources(EXAMPLES)]
    found.sort(key=lambda item: item["name"] != HELLO)
    found += [_item(name, [(name, text)]) for name, text in _sources(COURSE)]
    return found + [_item(name, [(name, text)]) for name, text in _sources(os.path.join(COURSE, "lab"))]


def _whole(text: str) -> str:
    """A program in C with the headers beside it in the place of the lines that name them: the page has no other
    files."""

    def header(found: re.Match[str]) -> str:
        return OPENED.sub("", read(os.path.join(EXAMPLES, "c", os.path.basename(found[1])))).strip() + "\n"

    return BESIDE.sub(header, text)


def in_c() -> list[Json]:
    """The programs in C, each with the slot of its thread alone: those of one file, and those of several."""
    folder = os.path.join(EXAMPLES, "c")
    texts = {name: _whole(text) for name, text in _sources(folder, ".c")}
    parts = {name for names in IN_C_TOGETHER.values() for name in names}
    found = [(name, [(name, text)]) for name, text in texts.items() if name not in parts and "main(" in text]
    found += [(title, [(name, texts[name]) for name in names if name in texts]) for title,
        names in IN_C_TOGETHER.items()]
    made = []
    for title, files in found:
        said = SAID_IN_C.match(files[0][1]) if files else None
        if files:
            made.append({**_item(title, files), "title": said[1].strip("/* .") if said else title})
    return made


def lessons() -> list[Json]:
    """The lessons in their order: number, title, page, and the source of the lesson."""
    found = []
    for name in os.listdir(COURSE) if os.path.isdir(COURSE) else []:
        number = LESSON.fullmatch(name)
        if number:
            text = read(os.path.join(COURSE, name))
            source = re.search(r"^```asm (\S+\.asm)$", text, re.M)
            title = re.match(r"# (.*)", text)
            found.append({"number": int(number[1]), "title": title[1] if title else name, "html": html_of(text),
                "example": os.path.basename(source[1]) if source else None})
    return sorted(found, key=lambda lesson: int(lesson["number"]))


def _task(name: str) -> Optional[str]:
    """The text of an exercise: of a task of the lab, or of an exercise of a lesson."""
    if name.startswith("lab-"):
        page, pattern, number = "lab.md", TASK, name[4:]
    else:
        lesson, _, number = name.partition(".")
        pages = [each for each in os.listdir(COURSE) if each.startswith(f"{lesson}-") and each.endswith(".md")]
        page, pattern = pages[0] if pages else "", EXERCISE
    path = os.path.join(COURSE, page)
    if not page or not os.path.isfile(path):
        return None
    text = read(path)
    text = text[text.find("## Exercises") :] if pattern is EXERCISE and "## Exercises" in text else text
    return next((found[0] for found in pattern.finditer(text) if found[1] == number), None)


# Commands of a terminal in a text: a block of them, and one in lines of its own.
TYPED = re.compile(r"^```console\n(?:\$ (?:cp|mkdir) .*\n)+```\n|^(?:    mm .*\n)+", re.M)
ROW = re.compile(r"^\| (`.*) \|$", re.M)
FOLDERS = re.compile(r"(?<![\w/])(?:[\w.]+/)+(?=[\w-]+\.\w+)")


def meanings() -> dict[str, str]:
    """What each kind of line of an exercise asks for, as the page on grading says it."""
    path, found = os.path.join(COURSE, "GRADING.md"), dict[str, str]()
    for row in ROW.finditer(read(path)) if os.path.isfile(path) else ():
        form, meaning = (cell.strip() for cell in re.split(r"(?<!\\)\|", row[1])[:2])
        for each in re.findall(r"`(\w[^`]*)`", form):
            found.setdefault(each.split()[0], spans(f"`{each}`: {meaning}".replace("\\|", "|")))
    return found


def without_folders(text: str) -> str:
    """A line of an exercise in which files have no folders: the page has none."""
    return FOLDERS.sub("", text)


def pictures() -> dict[str, str]:
    """The pictures that lessons show, by their names."""
    folder = os.path.join(CHECKOUT, "docs", "pictures")
    texts = [read(os.path.join(COURSE, name)) for name in (os.listdir(COURSE) if os.path.isdir(COURSE) else [])
        if name.endswith(".md")]
    names = {found[2] for text in texts for found in PICTURE.finditer(text)}
    return {name: read(os.path.join(folder, name)) for name in sorted(names)
        if os.path.isfile(os.path.join(folder, name))}


def _start(text: str) -> str:
    """The program from which an exercise begins: one in its text, or a file that it says to copy."""
    within, copied = FENCED.search(text), COPIED.search(text)
    if within:
        return within[1]
    path = os.path.join(CHECKOUT, copied[1]) if copied else ""
    return read(path) if os.path.isfile(path) else ""


def graded() -> list[Json]:
    """The exercises that have a grade, with their text and what is looked at."""
    found, said = [], meanings()
    for name in exercises() if os.path.isdir(COURSE) else []:
        sheet, text = sheet_of(name), _task(name)
        found.append({"name": name, "title": sheet.title or name,
            "html": html_of(TYPED.sub("", text)) if text else "",
            "start": _start(text or ""),
            "asks": [without_folders(line.text) for line in sheet.expectations],
            "meanings": [said.get(line.kind, "") for line in sheet.expectations]})
    return sorted(found, key=lambda each: [int(part) if part.isdigit() else -1 for part in re.split(r"[.-]",
        each["name"])])


def shelf(c: bool) -> Json:
    """All of it."""
    return {"examples": examples(), "c": in_c() if c else [], "lessons": lessons(), "exercises": graded(),
        "begin": BEGIN}
