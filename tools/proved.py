#!/usr/bin/env python3
"""Compares the clauses that docs/PROVED.md and docs/TESTING.md name with the contracts in crates/.

In a table whose last column is headed `clauses`, each cell of that column names functions, one after the other with `;` between
them: `crate::function` or `crate::Type::function`, and after a colon the clauses of its contract that carry the row's promise, each
with the definitions that say it in parentheses, or fields of definitions. A function named without clauses has a contract whose one
clause has no name. A function may name a module between the crate and itself if the crate has two of its name.

Prints each function that its crate does not have, each clause that none of the function's contracts has, each definition that no file
of specs/ has, and each row of such a table without a clause; then exits 1. Otherwise it prints how many clauses were found.
"""
from __future__ import annotations

import re
import sys
from collections.abc import Iterator
from typing import NamedTuple

import definitions
from crates_txt import TOP

PAGES = ("PROVED.md", "TESTING.md")


class Function(NamedTuple):
    """The names before a function's own (of its module, type and trait), and the names of its `ensures` clauses."""

    owners: set[str]
    ensured: set[str]


# By its own name the functions of a crate.
Contracts = dict[str, list[Function]]


def rows(page: str) -> Iterator[tuple[int, str]]:
    """The last cells of all rows below a heading `clauses`, with the numbers of their lines."""
    inside = False
    for number, line in enumerate((TOP / "docs" / page).read_text().splitlines(), 1):
        cells = [cell.strip() for cell in line.strip().strip("|").split("|")]
        if not line.lstrip().startswith("|"):
            inside = False
        elif cells[-1] == "clauses":
            inside = True
        elif inside and not set(cells[-1]) <= set("-:"):
            yield number, cells[-1]


def contracts(crate: str) -> Contracts:
    """All functions of a crate, public and private."""
    found: Contracts = {}
    for module in definitions.modules(crate):
        spans = list(definitions.blocks(module.text))
        for match in re.finditer(r"^ *(?:pub(?:\([a-z]+\))? )?(?:const )?fn (\w+)", module.text, re.M):
            owners = set(module.path)
            home = next((span for span in spans if span.begin <= match.start() < span.end), None)
            if home:
                head = module.text[module.text.rfind("\n", 0, home.begin - 1) + 1 : home.begin]
                owners |= set(re.findall(r"\w+", head))
            ensured: set[str] = set()
            for clause in definitions.clauses(module.text, match.end()):
                before = module.text[: module.text.find(clause, match.end())]
                ensured |= set(re.findall(r"\bensures\s+(\w*)\s*$", before))
            found.setdefault(match.group(1), []).append(Function(owners, ensured))
    return found


def defined() -> set[str]:
    """The names that some file of specs/ defines, and the fields of its records."""
    texts = [path.read_text() for path in (TOP / "crates").glob("*/specs/**/*.antt")]
    return set(re.findall(rf"\bpub (?:data |record )?({definitions.WORD})", "\n".join(texts)))


def mistakes(cell: str, crates: dict[str, Contracts], names: set[str]) -> tuple[list[str], int]:
    """What is wrong with a cell, and how many clauses it names."""
    count = 0
    wrong = []
    for item in cell.split(";"):
        match = re.fullmatch(r"\s*`(\w+(?:::\w+)+)`(:? .*)?", item)
        if not match:
            wrong.append(f"not a function of a crate: {item.strip()}")
            continue
        crate, *owners, function = match.group(1).split("::")
        candidates = [it for it in crates.get(crate, {}).get(function, []) if set(owners) <= it.owners]
        if not candidates:
            wrong.append(f"no function {match.group(1)}")
            continue
        listed = match.group(2) or ""
        if re.sub(r"[:, ]|\([^)]*\)|`\w+`", "", listed):
            wrong.append(f"not a list of clauses: {item.strip()}")
        for group in re.findall(r"\(([^)]*)\)", listed):
            wrong += [f"no definition {name}" for name in re.findall(rf"`({definitions.WORD})`", group) if name not in names]
        clauses = re.findall(r"`(\w+)`", re.sub(r"\([^)]*\)", "", listed))
        for clause in clauses or [""]:
            count += 1
            if not any(clause in it.ensured for it in candidates):
                wrong.append(f"{match.group(1)} has no clause {clause or 'without a name'}")
    return wrong, count


def main() -> int:
    crates = {crate: contracts(crate) for crate in definitions.CRATES}
    names = defined()
    status, found = 0, 0
    for page in PAGES:
        for number, cell in rows(page):
            wrong, count = mistakes(cell, crates, names)
            found += count
            for mistake in wrong:
                print(f"docs/{page}:{number}: {mistake}")
                status = 1
    if not status:
        print(f"{found} clauses")
    return status


if __name__ == "__main__":
    sys.exit(main())
