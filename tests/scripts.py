#!/usr/bin/env python3
"""That the Python scripts in tests, tools and bench have the layout of black and the types of mypy, as pyproject.toml sets both.

usage: tests/scripts.py

A script is one check: black would leave it as it is, and mypy finds nothing in it. If one of the two is not installed, it is skipped.
"""
from __future__ import annotations

import re
import shutil
from concurrent.futures import ThreadPoolExecutor
from pathlib import Path

import harness
from harness import TOP, Run, Tally, run

FOLDERS = ("tests", "tools", "bench")
# Layouts differ from one year's black to the next.
BLACK = "23"
HANGS = 300

# By script what is wrong with it.
Faults = dict[Path, list[str]]


def scripts_of(folder: str) -> list[Path]:
    return sorted((TOP / folder).glob("*.py"))


def lacks_black() -> str:
    """Why no layout is compared; nothing if the black that is needed is here."""
    if not shutil.which("black"):
        return "black is not installed (Debian: black), so no layout was compared"
    version = re.search(r"\d+[\d.]*", run(["black", "--version"]).out.decode())
    if version and version[0].split(".")[0] == BLACK:
        return ""
    return f"black has the version {version[0] if version else 'unknown'}, and not {BLACK}, so no layout was compared"


def lacks_mypy() -> str:
    """The same for types."""
    return "" if shutil.which("mypy") else "mypy is not installed (Debian: mypy), so no types were compared"


def call_black(scripts: list[Path]) -> Run:
    return run(["black", "--check", *scripts], seconds=HANGS, cwd=TOP)


def call_mypy(folder: str) -> Run:
    """Scripts in different folders may have the same name, so mypy gets those of one folder."""
    return run(["mypy", "--no-error-summary", "--cache-dir=/dev/null", *scripts_of(folder)], seconds=HANGS, cwd=TOP)


def add_layouts(tally: Tally, faults: Faults, seen: Run) -> None:
    """Adds the scripts that black would change."""
    for path in re.findall(r"^(?:would reformat|error: cannot format) ([^:\n]+)", seen.err.decode(), re.M):
        faults[Path(path)].append("black would change its layout")
    if seen.status not in (0, 1, 123):
        tally.check("black", False, seen)


def add_types(tally: Tally, faults: Faults, folder: str, seen: Run) -> None:
    """Adds what mypy finds in the scripts of a folder."""
    for line in seen.out.decode().splitlines():
        path = TOP / line.partition(":")[0]
        if path in faults:
            faults[path].append(line)
    if seen.status not in (0, 1) or bool(seen.status) != bool(seen.out):
        tally.check(f"mypy in {folder}", False, seen)


def main() -> None:
    tally = Tally("scripts")
    faults: Faults = {path: [] for folder in FOLDERS for path in scripts_of(folder)}
    lacking = [lacks_black(), lacks_mypy()]
    for what in filter(None, lacking):
        tally.skip(what)
    with ThreadPoolExecutor() as pool:
        layouts = None if lacking[0] else pool.submit(call_black, list(faults))
        types = {} if lacking[1] else {folder: pool.submit(call_mypy, folder) for folder in FOLDERS}
    if layouts:
        add_layouts(tally, faults, layouts.result())
    for folder, task in types.items():
        add_types(tally, faults, folder, task.result())
    for path, found in faults.items() if layouts or types else ():
        tally.check(str(path.relative_to(TOP)), not found, "; ".join(found[:3]))
    tally.finish()


if __name__ == "__main__":
    harness.ended(main)
