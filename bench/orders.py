#!/usr/bin/env python3
"""Measures how many nodes pairs of netlists need in each order of the variables, and writes results/nodes.json.

usage: bench/orders.py PROGRAM FOLDER .. [--limit N] [--part P] [--seconds N] [--only PART] [--anew]

Each FOLDER has folders NAME/ with a.bench and b.bench. The nodes that an order needs are the least node limit by which a run ends with
its report, found by halving until it is at most a part P (0.01) too large; with --part 0 it is exact. An order that needs more than
N (8,000,000) nodes, or more than so many seconds (60) of processor time, is `more`. The numbers are the same on every machine and with
every number of workers. It prints a table in Markdown.
"""
from __future__ import annotations

import argparse
import pathlib

from measure import Launcher, needed_nodes, say, table
from results import Results, Row, parser_of

ORDERS = ["declared", "depth", "interleave", "index", "force"]


def measured(launcher: Launcher, place: pathlib.Path, settings: argparse.Namespace) -> Row:
    found = {}
    for order in ORDERS:
        words = ["--order", order, "--workers", "1", place / "a.bench", place / "b.bench"]
        found[order] = needed_nodes(launcher, settings.program, words, settings.seconds, settings.limit, settings.part)
    return found


def main() -> None:
    parser = parser_of(__doc__, seconds=60, repeats=1)
    parser.add_argument("folders", metavar="FOLDER", nargs="+", type=pathlib.Path, help="This folder has folders of pairs.")
    parser.add_argument("--limit", type=int, default=8_000_000, help="More nodes than these are not counted; the default is 8000000.")
    parser.add_argument("--part", type=float, default=0.01, help="A number may be too large by this part of it; the default is 0.01.")
    parser.add_argument("--only", default="", help="Only pairs with this text in their names are measured.")
    settings = parser.parse_args()
    said = {"limit": settings.limit, "part": settings.part, "seconds": settings.seconds}
    what = "Nodes that a comparison needs in each order; null: more than the limit"
    results = Results("nodes", what, settings, said)
    launcher, keys = Launcher(), []
    for place in sorted(path.parent for folder in settings.folders for path in folder.glob("*/a.bench")):
        if settings.only not in place.name:
            continue
        keys.append(place.name)
        if place.name not in results:
            results.begin()
            say(place.name, results.add(place.name, measured(launcher, place, settings)))
    if not settings.only:
        results.keep_only(keys)

    def shown(nodes: int | None) -> str:
        return "more" if nodes is None else f"{nodes:,}"

    rows = [[key, *(shown(results.rows[key][order]) for order in ORDERS)] for key in keys]
    print(table(["pair", *ORDERS], rows))


if __name__ == "__main__":
    main()
