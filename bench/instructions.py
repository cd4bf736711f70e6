#!/usr/bin/env python3
"""Counts a run's instructions, crate by crate, and writes results/instructions.json.

usage: bench/instructions.py PROGRAM FOLDER .. [--all] [--anew]

Each FOLDER has a pair, a.bench and b.bench, and their order. It is run by one worker under valgrind's callgrind, which counts
instructions and does not see that some of them wait for memory. The table in Markdown has the share of each part of the program, of
100; with --all also each function of more than one in a hundred. Functions that the compiler has put into their callers count there.

It needs valgrind; the product does not.
"""
from __future__ import annotations

import collections
import pathlib
import re
import subprocess
import tempfile

from measure import say, table
from results import Results, Row, first_line, parser_of

# By the first part of a function's name: what it is counted as.
PARTS = {
    "text_device": "reading texts",
    "net_bench": "reading texts",
    "net_names": "pairing, orders",
    "net_order": "pairing, orders",
    "net_cone": "pairing, orders",
    "gate_plan": "gates into waves",
    "compare_built": "gates into waves",
    "order_search": "gates into waves",
    "cone_check": "gates into waves",
    "net_simulate": "patterns",
    "net_patterns": "patterns",
    "pair_facts": "patterns",
    "explain_report": "gates into waves",
    "check_report": "gates into waves",
    "wave_engine": "down: expanding requests",
    "expand_work": "down: expanding requests",
    "req_table": "growth of tables of requests",
    "indexmap": "growth of tables of requests",
    "lru": "computed table",
    "reduce_up": "up: requests to nodes",
    "thread_map": "up: requests to nodes",
    "dd_store": "growth of unique tables",
    "slot_table": "growth of unique tables",
    "counter_walk": "comparing, report",
    "report_text": "comparing, report",
}
OTHER = "memory, library, system"


def self_costs(words: list[object], scratch: pathlib.Path) -> collections.Counter[str]:
    """Instructions by function, without those of the functions that it calls."""
    note = scratch / "note"
    valgrind = ["valgrind", "-q", "--tool=callgrind", f"--callgrind-out-file={note}"]
    subprocess.run([*valgrind, *map(str, words)], stdout=subprocess.DEVNULL, check=True)
    said = subprocess.run(
        ["callgrind_annotate", "--threshold=100", "--auto=no", note], stdout=subprocess.PIPE, text=True, check=True
    ).stdout
    found = collections.Counter[str]()
    for line in said.splitlines():
        if cost := re.match(r"\s*([\d,]+) \(\s*[\d.]+%\)\s+[^:]*:(.*?)(?:\s+\[.*\])?$", line):
            found[cost.group(2)] += int(cost.group(1).replace(",", ""))
    return found


def measured(program: str, folder: pathlib.Path, scratch: pathlib.Path) -> Row:
    words = [program, "--workers", "1", "--order-file", *(folder / name for name in ("order", "a.bench", "b.bench"))]
    costs = self_costs(words, scratch)
    total, parts = sum(costs.values()), collections.Counter[str]()
    for name, cost in costs.items():
        parts[PARTS.get(re.split(r"::|[<. ]", name)[0], OTHER)] += cost

    def share(counter: collections.Counter[str]) -> list[tuple[str, float]]:
        return [(name, round(100 * cost / total, 1)) for name, cost in counter.most_common() if cost >= total / 1000]

    return {"instructions": total, "shares": share(parts), "functions": [one for one in share(costs) if one[1] >= 1]}


def main() -> None:
    parser = parser_of(__doc__, seconds=60, repeats=1)
    parser.add_argument(
        "folders", metavar="FOLDER", nargs="+", type=pathlib.Path, help="This folder has a pair: a.bench, b.bench and perhaps an order."
    )
    parser.add_argument("--all", action="store_true", help="The table also has the functions.")
    settings = parser.parse_args()
    what = "Shares of instructions, of 100, by part of the program and by function; one worker, under callgrind"
    peers = {"valgrind": first_line(["valgrind", "--version"], r"[0-9.]+")}
    results = Results("instructions", what, settings, {}, peers)
    with tempfile.TemporaryDirectory() as name:
        for folder in settings.folders:
            if folder.name not in results:
                results.begin()
                results.add(folder.name, measured(settings.program, folder, pathlib.Path(name)))
                say(folder.name)
    results.keep_only([folder.name for folder in settings.folders])
    rows = [
        [row["key"], *map(str, one)] for row in results.rows.values() for one in row["shares"] + (row["functions"] if settings.all else [])
    ]
    print(table(["pair", "part", "of 100"], rows))


if __name__ == "__main__":
    main()
