#!/usr/bin/env python3
"""Times four workers on pairs that are judged by their cones beside what the machine itself allows, and writes results/cones.json.

usage: bench/cones.py PROGRAM FOLDER .. [--workers N] [--seconds N] [--repeats K] [--anew]

Each FOLDER has a.bench and b.bench. They are compared with `--order cones`, K times (3) in turn: by one worker, by N (4), and by one
worker in N runs at once, of which an N-th is what N processors would take that share no work and wait for nobody. The table in
Markdown has, of the least of each: one worker's seconds on the clock, the N workers' as a ratio to it with that of the medians, their
processor time as a ratio to one worker's, the share of N processors that they left idle, and an N-th of the runs at once as a ratio.
The last line has the geometric means of the N workers' least and of the runs at once.
"""
from __future__ import annotations

import argparse
import os
import pathlib
import statistics
import subprocess
import sys
import time

from measure import geometric_mean, say, shown
from results import Results, Row, parser_of

HEAD = "| netlist | pairs | one worker s | least | medians | work | idle | runs at once |\n|---|---:|---:|---:|---:|---:|---:|---:|"


def seconds(words: list[str], bound: float, copies: int = 1) -> tuple[float, float]:
    """The clock's seconds until all copies have ended, and their processor time."""
    begun, before = time.monotonic(), os.times()
    running = [subprocess.Popen(words, stdout=subprocess.DEVNULL) for _ in range(copies)]
    for child in running:
        try:
            status = child.wait(max(0.1, begun + bound - time.monotonic()))
        except subprocess.TimeoutExpired:
            for each in running:
                each.kill()
                each.wait()
            sys.exit(f"over {bound} s: {' '.join(words)}")
        if status not in (0, 1, 3):
            sys.exit(f"status {status}: {' '.join(words)}")
    after = os.times()
    return time.monotonic() - begun, sum(after[2:4]) - sum(before[2:4])


def measured(folder: pathlib.Path, settings: argparse.Namespace) -> Row:
    files = [str(folder / "a.bench"), str(folder / "b.bench")]
    words = {n: [settings.program, "--order", "cones", "--workers", str(n), *files] for n in (1, settings.workers)}
    report = subprocess.run(words[1], stdout=subprocess.PIPE, text=True).stdout
    runs: list[list[tuple[float, float]]] = [[], [], []]
    for _ in range(settings.repeats):
        runs[0].append(seconds(words[1], settings.seconds))
        runs[1].append(seconds(words[settings.workers], settings.seconds))
        runs[2].append(seconds(words[1], settings.seconds, settings.workers))
    one, many, apart = (min(column) for column in runs)
    medians = [statistics.median(clock for clock, _ in column) for column in runs]
    row = {
        "pairs": len(report.splitlines()) - 1,
        "one": one[0],
        "least": many[0] / one[0],
        "medians": medians[1] / medians[0],
        "work": many[1] / one[1],
        "idle": 1 - many[1] / (many[0] * settings.workers),
        "at once": apart[0] / one[0] / settings.workers,
    }
    return {name: round(value, 4) for name, value in row.items()}


def main() -> None:
    parser = parser_of(__doc__, seconds=60, repeats=3)
    parser.add_argument(
        "folders", metavar="FOLDER", nargs="+", type=pathlib.Path, help="This folder has a pair: a.bench, b.bench and perhaps an order."
    )
    parser.add_argument("--workers", type=int, default=4, help="One worker is compared with so many; the default is 4.")
    settings = parser.parse_args()
    said = {"workers": settings.workers, "repeats": settings.repeats}
    what = "Pairs by their cones: one worker's seconds on the clock, and several workers' as ratios to these"
    results = Results("cones", what, settings, said)
    for folder in settings.folders:
        if folder.name not in results:
            results.begin()
            results.add(folder.name, measured(folder, settings))
            say(folder.name)
    results.keep_only([folder.name for folder in settings.folders])
    print(HEAD)
    for row in results.rows.values():
        cells = [f"{row[name]:.2f}" for name in ("one", "least", "medians", "work", "idle", "at once")]
        print(f"| {row['key']} | {row['pairs']} | {' | '.join(cells)} |")
    means = [geometric_mean([row[name] for row in results.rows.values()]) for name in ("least", "at once")]
    print(f"\nin the geometric mean {shown(means[0])} of the least, the runs at once {shown(means[1])}")


if __name__ == "__main__":
    main()
