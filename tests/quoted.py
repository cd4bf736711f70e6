#!/usr/bin/env python3
"""That what the documents quote from the code is there. A comment above a quotation names its file:

    <!-- all of PATH -->       the block below is the whole file
    <!-- from PATH -->         the lines of the block below are consecutive lines of the file, but for their common indentation
    <!-- rows of PATH -->      the rows of the table below are rows in the file's texts; all that the file has are on the page

usage: tests/quoted.py
"""
from __future__ import annotations

import re
import textwrap
from pathlib import Path

from harness import TOP, Tally

COMMENT = re.compile(r"^<!-- (all of|from|rows of) (\S+) -->$")
ROW = re.compile(r"\| \d+ \| .* \|$")


def block_below(lines: list[str], at: int) -> list[str]:
    """The lines of the first fenced block after a line, without its fences."""
    start = next(number for number in range(at + 1, len(lines)) if lines[number].startswith("```"))
    end = next(number for number in range(start + 1, len(lines)) if lines[number].startswith("```"))
    return lines[start + 1 : end]


def rows_below(lines: list[str], at: int) -> list[str]:
    """The rows of the first table after a line, without its head."""
    start = next(number for number in range(at + 1, len(lines)) if lines[number].startswith("|"))
    end = next((number for number in range(start, len(lines)) if not lines[number].startswith("|")), len(lines))
    return lines[start + 2 : end]


def is_within(block: list[str], text: str) -> bool:
    """Whether the lines are those of some lines of a text that follow each other, but for their common indentation."""
    lines, wanted = text.splitlines(), textwrap.dedent("\n".join(block)).splitlines()
    windows = (lines[at : at + len(wanted)] for at in range(len(lines) - len(wanted) + 1))
    return bool(wanted) and any(textwrap.dedent("\n".join(window)).splitlines() == wanted for window in windows)


def check_page(tally: Tally, page: Path) -> None:
    name = page.relative_to(TOP)
    lines = page.read_text().splitlines()
    rows: dict[str, list[str]] = {}
    for at, line in enumerate(lines):
        comment = COMMENT.match(line)
        if not comment:
            continue
        kind, path = comment.groups()
        text = (TOP / path).read_text()
        if kind == "rows of":
            rows.setdefault(path, []).extend(rows_below(lines, at))
        else:
            block = block_below(lines, at)
            is_there = block == text.splitlines() if kind == "all of" else is_within(block, text)
            tally.check(f"{name}, line {at + 1}: the block is {kind} {path}", is_there, block[:1])
    for path, found in rows.items():
        texts = (ROW.search(line) for line in (TOP / path).read_text().splitlines())
        wanted = [it.group() for it in texts if it]
        tally.check(f"{name}: its tables have the rows of {path}", wanted and sorted(found) == sorted(wanted), set(found) ^ set(wanted))


def main() -> None:
    tally = Tally("quoted")
    for page in sorted([*TOP.glob("*.md"), *TOP.glob("docs/**/*.md"), *TOP.glob("examples/**/*.md")]):
        check_page(tally, page)
    tally.check("something is quoted", tally.passed > 0)
    tally.finish()


if __name__ == "__main__":
    main()
