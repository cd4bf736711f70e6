#!/usr/bin/env python3
"""That each decision in docs/decisions says where its code is, and that the code is there.

usage: tests/decisions.py

Each heading of the third rank is a decision. It has a part that begins with **Decision.**, and its *Code* line names files: below crates/, or
below the top of the repository if the path begins with a folder of it. A name without a folder is beside the file before it. The index
names each page.
"""
from __future__ import annotations

import re
from collections.abc import Iterator
from pathlib import Path

from harness import TOP, Tally

PAGES = TOP / "docs" / "decisions"
TOP_FILES = ("crates.txt", "pyproject.toml")
FOLDERS = ("tests/", "tools/", "docs/", "bench/", ".ci/")
# A path, or a name of the code in round brackets after it.
SPAN = re.compile(r"(\()?`([^`]+)`")


def decisions_in(text: str) -> list[tuple[str, str]]:
    """The headings of the third rank, each with the text below it."""
    parts = re.split(r"^### (.*)\n", re.sub(r"^## .*\n", "### \n", text, flags=re.M), flags=re.M)
    return [(heading, body) for heading, body in zip(parts[1::2], parts[2::2]) if heading]


def code_line(body: str) -> str | None:
    """The line that says where the code is, without its line breaks; None if there is none."""
    found = re.search(r"^\*Code: (.*?)\*$", body, re.M | re.S)
    return " ".join(found[1].split()) if found else None


def paths_in(line: str) -> Iterator[Path]:
    """The files that a line of code names, as full paths."""
    last = TOP
    for in_brackets, word in SPAN.findall(line):
        if in_brackets:
            continue
        if "/" not in word and word not in TOP_FILES:
            path = last.parent / word
        elif word.startswith(FOLDERS) or word in TOP_FILES:
            path = TOP / word
        else:
            path = TOP / "crates" / word
        last = path
        yield path


def absent_in(line: str) -> list[str]:
    """The files of a line of code that are not there."""
    return [str(path.relative_to(TOP)) for path in paths_in(line) if not path.is_file()]


def check_page(tally: Tally, page: Path) -> None:
    """Checks each decision of a page."""
    name = page.relative_to(TOP)
    decisions = decisions_in(page.read_text())
    tally.check(f"{name} has decisions", decisions)
    for heading, body in decisions:
        line = code_line(body)
        is_whole = "**Decision.**" in body and line and any(True for _ in paths_in(line))
        tally.check(f"{name}: {heading}: says what was decided, and where its code is", is_whole)
        absent = absent_in(line or "")
        tally.check(f"{name}: {heading}: its code is there", not absent, absent)


def check_decisions(tally: Tally) -> None:
    """Checks all pages, and that the index names each."""
    index = (PAGES / "README.md").read_text()
    for page in sorted(PAGES.glob("*.md")):
        if page.name != "README.md":
            tally.check(f"docs/decisions/README.md names {page.name}", f"]({page.name})" in index)
            check_page(tally, page)


def main() -> None:
    tally = Tally("decisions")
    check_decisions(tally)
    tally.finish()


if __name__ == "__main__":
    main()
