#!/usr/bin/env python3
"""Times designs by the bare command with four workers against one worker, or against an earlier program, and writes results/turns.json.

usage: bench/turns.py PROGRAM FOLDER .. [--before PROGRAM] [--workers N] [--seconds N] [--repeats K] [--only PART] [--anew]

A FOLDER has folders NAME/ with a.bench, b.bench and, in some, c.bench. Each of b and c is compared with a by the bare command with N
workers (4), and, in turn, by the other column: the same program with one worker, or the PROGRAM before with as many workers. Each run
has N (10) seconds on the clock. Runs are repeated up to K times (9), until those of a column have taken a second together, and the
least of each counts, since small times vary. It prints a table in Markdown, the slowest first: both times on the clock, their ratio,
that of the medians, processor time as a ratio, and both peaks of memory; and then the geometric mean, what is above 1.05 although it
took 0.05 s or more, and which comparisons neither or only one of the columns ended.
"""
from __future__ import annotations

import argparse
import pathlib
import sys

from designs import comparisons, has_report
from measure import Column, Launcher, by_turns, figures, geometric_mean, say, shown, table
from results import Results, Row, parser_of, program_of

SLOWER = 1.05
MEASURABLE = 0.05


def measured(launcher: Launcher, files: list[pathlib.Path], settings: argparse.Namespace) -> Row:
    columns = []
    for _, program, workers in settings.columns:
        bounds = {"seconds": workers * settings.seconds, "clock": settings.seconds}
        columns.append(Column([program, "--workers", workers, *files], bounds, has_report))
    runs = by_turns(launcher, columns, settings.repeats, fewest=1)
    reports = [run.output for done in runs for run in done if has_report(run)]
    if any(report != reports[0] for report in reports):
        sys.exit(f"{' '.join(map(str, files))}: the reports differ")
    return {name: figures(column, done) for (name, _, _), column, done in zip(settings.columns, columns, runs)}


def compared(row: Row, names: list[str]) -> list[float] | None:
    """The ratios of the first column to the second one: least and median on the clock, and least processor time."""
    these, those = (row[name] for name in names)
    return [these[measure] / those[measure] for measure in ("clock", "median_clock", "processor")] if these and those else None


def print_table(rows: list[Row], names: list[str]) -> None:
    ended = [(row, ratios) for row, ratios in ((row, compared(row, names)) for row in rows) if ratios]
    ended.sort(key=lambda one: -one[1][0])
    cells = []
    for row, ratios in ended:
        these, those = (row[name] for name in names)
        clocks = [shown(one["clock"], 3) for one in (these, those)]
        cells.append([row["key"], *clocks, *map(shown, ratios), *(shown(one["megabytes"], 0) for one in (these, those))])
    print(table(["comparison", *(f"{name} s" for name in names), "least", "medians", "work", *(f"{name} MB" for name in names)], cells))
    print(
        f"\n{len(ended)} of {len(rows)} comparisons end by both: {shown(geometric_mean(ratios[0] for _, ratios in ended))} in the geometric mean"
    )
    longer = [(row, ratios) for row, ratios in ended if row[names[1]]["clock"] >= MEASURABLE]
    print(
        f"{len(longer)} of them take {MEASURABLE} s or more: {shown(geometric_mean(ratios[0] for _, ratios in longer))} in the geometric mean"
    )
    slower = [row["key"] for row, ratios in longer if ratios[0] > SLOWER]
    print(f"above {SLOWER} of these: {', '.join(slower) or 'none'}")
    for here, there in (names, names[::-1]):
        only = [row["key"] for row in rows if row[here] and not row[there]]
        print(f"ended only by {here}: {', '.join(only) or 'none'}")


def main() -> None:
    parser = parser_of(__doc__, seconds=10, repeats=9)
    parser.add_argument("folders", metavar="FOLDER", nargs="+", type=pathlib.Path, help="This folder has folders of pairs.")
    parser.add_argument("--before", metavar="PROGRAM", help="This program is the second column, in place of one worker.")
    parser.add_argument("--workers", type=int, default=4, help="The first column has so many workers; the default is 4.")
    parser.add_argument("--only", default="", help="Only pairs with this text in their names are measured.")
    settings = parser.parse_args()
    second = ("before", settings.before, settings.workers) if settings.before else ("1", settings.program, 1)
    settings.columns = [(str(settings.workers), settings.program, settings.workers), second]
    names = [name for name, _, _ in settings.columns]
    said = {"columns": names, "seconds": settings.seconds, "repeats": settings.repeats}
    before = {"before": program_of(settings.before)["program's checksum"]} if settings.before else {}
    what = "Each comparison by the bare command: seconds and peak memory by both columns"
    results = Results("turns-before" if settings.before else "turns", what, settings, {**said, **before})
    launcher, keys = Launcher(), []
    for key, files in comparisons(settings.folders, only=settings.only):
        keys.append(key)
        if key not in results:
            results.begin()
            row = results.add(key, measured(launcher, files, settings))
            say(key, *(shown(row[name] and row[name]["clock"], 3) for name in names))
    if not settings.only:
        results.keep_only(keys)
    print_table([results.rows[key] for key in keys], names)


if __name__ == "__main__":
    main()
