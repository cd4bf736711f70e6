#!/usr/bin/env python3
"""Writes chains of NOT gates in the bench format, each of twice as many gates as the one before.

usage: bench/chains.py FOLDER [LARGEST]

For each size a file FOLDER/forward_N.bench has each gate after its operand, and FOLDER/backward_N.bench
each gate before it. Their last signal is an output. LARGEST is the most gates, 999999 if it is left out:
a netlist has at most 1,000,000 signals. A reader that is linear in the text, or nearly so, takes about twice
the time for each next size, in both orders.
"""
from __future__ import annotations

import argparse
import pathlib


def gates(count: int) -> list[str]:
    return [f"s{i} = NOT(s{i - 1})\n" for i in range(1, count + 1)]


def write_chain(folder: pathlib.Path, name: str, count: int, lines: list[str]) -> None:
    text = "INPUT(s0)\n" + "".join(lines) + f"OUTPUT(s{count})\n"
    (folder / f"{name}_{count}.bench").write_text(text)


def main() -> None:
    parser = argparse.ArgumentParser(description=__doc__, formatter_class=argparse.RawDescriptionHelpFormatter)
    parser.add_argument("folder", type=pathlib.Path, help="The folder of the netlists, which is made if it is not there.")
    parser.add_argument("largest", nargs="?", type=int, default=999999, help="The number of gates of the longest chains.")
    settings = parser.parse_args()
    folder: pathlib.Path = settings.folder
    folder.mkdir(parents=True, exist_ok=True)
    count: int = settings.largest
    while count >= 1000:
        lines = gates(count)
        write_chain(folder, "forward", count, lines)
        write_chain(folder, "backward", count, lines[::-1])
        count //= 2


if __name__ == "__main__":
    main()
