#!/usr/bin/env python3
"""That the program uses the ported crates that docs/decisions/toolchain.md names: each is named, in crates.txt and in the code, by a
crate that the program links.

usage: tests/linked.py
"""
from __future__ import annotations

import re
import sys
from collections.abc import Mapping

import harness
from harness import TOP, Tally

sys.path.append(str(TOP / "tools"))
import crates_txt  # noqa: E402

PROGRAM = "bddcheck"
CRATES = (
    "crossbeam_queue",
    "crossbeam_utils",
    "rayon",
    "indexmap",
    "lru",
    "thiserror",
    "clap",
    "itoa",
    "json",
    "rand_xoshiro",
    "rand_core",
)


def linked(names: Mapping[str, list[str]], program: str) -> set[str]:
    """The crates of the repository that a program is made of, itself among them."""
    found, ahead = set(), [program]
    while ahead:
        crate = ahead.pop()
        if crate in names and crate not in found:
            found.add(crate)
            ahead.extend(names[crate])
    return found


def uses(crate: str, name: str) -> bool:
    """Whether the code of a crate names another one."""
    path = re.compile(rf"^(?!\s*//).*\b{name}::", re.MULTILINE)
    return any(path.search(file.read_text()) for file in sorted((TOP / "crates" / crate / "src").rglob("*.rt")))


def main() -> None:
    tally = Tally("linked")
    names = crates_txt.named()
    crates = linked(names, PROGRAM)
    tally.check("the program is in crates.txt", crates, PROGRAM)
    for name in CRATES:
        listed = sorted(crate for crate in crates if name in names[crate])
        tally.check(f"{name} is named by a crate that the program links", listed, "by none")
        tally.check(f"{name} is used by the code of such a crate", any(uses(crate, name) for crate in listed), listed)
    tally.finish()


if __name__ == "__main__":
    harness.ended(main)
