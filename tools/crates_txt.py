"""What crates.txt says: by crate the crates that its code names, which are of this repository or of the kit."""
from __future__ import annotations

from pathlib import Path

TOP = Path(__file__).resolve().parent.parent
Named = dict[str, list[str]]


def named() -> Named:
    """By crate all that its line names, in the order of the lines."""
    lines = (line.partition("#")[0] for line in (TOP / "crates.txt").read_text().splitlines())
    rows = (line.partition(":") for line in lines if ":" in line)
    return {left.split()[0]: right.split() for left, _, right in rows}


def named_here() -> Named:
    """The same without the crates of the kit."""
    whole = named()
    return {crate: [library for library in libraries if library in whole] for crate, libraries in whole.items()}
