#!/usr/bin/env python3
"""Times bddcheck by its number of workers, in turn, on large diagrams, and writes results/workers.json.

usage: bench/workers.py PROGRAM [FOLDER] [--before PROGRAM] [--workers N,N ..] [--seconds N] [--repeats K] [--rest SECONDS] [--busy N] [--only PART] [--anew]

Of the pairs NAME/ in FOLDER, as for peers.py, it takes mul9, mul10, pairs18 and pairs20, or makes such pairs by circuits.py if they
are not there (an array of rows against a Wallace tree, and sums of products); and it makes two more:

mul12   an array of rows against a Wallace tree, 12 bits
wave22  equal netlists whose run is nearly one wave: the disjunction of two sums of 11 products over variables of their own, all first
        factors before all second ones, which comes to nearly 2^23 requests

Each is run by its order file, or in declared order, and some by the bare command, which tries orders within budgets. Each is run K
times (5), or until one column has taken 20 seconds, and each time by each number of workers (1, 2, 4), one after the other and SECONDS
(0.5) apart, since a host may take processors away after some seconds of full load. A run has N (120) seconds on the clock. It prints a
table in Markdown: one worker's seconds on the clock, the least and the median, then for each other column both as ratios to these, the
same for processor time, the peak of memory, and how many pairs are undecided. The last lines are the means. --before measures another
program beside the first one, with the same numbers of workers. With --busy N other processes run all the while, which never wait; then
nothing is written.
"""
from __future__ import annotations

import argparse
import contextlib
import pathlib
import subprocess
import sys
import tempfile
from collections.abc import Iterator

import circuits
from measure import Column, Launcher, Run, by_turns, figures, geometric_mean, say, shown, table
from peers import one_after_the_other
from results import Results, Row, numbers, parser_of, program_of

MADE = {
    "mul9": ("multiplier", 9),
    "mul10": ("multiplier", 10),
    "mul12": ("multiplier", 12),
    "pairs18": ("products", 18),
    "pairs20": ("products", 20),
}
# Each pair with the way in which it is run.
RUNS = [
    ("mul9", "order file"),
    ("mul10", "order file"),
    ("pairs18", "order file"),
    ("pairs20", "order file"),
    ("wave22", "order file"),
    ("mul12", "declared"),
    ("mul10", "bare command"),
    ("pairs20", "bare command"),
    ("mul12", "bare command"),
]


def write_wave(folder: pathlib.Path, size: int) -> pathlib.Path:
    """A pair of equal netlists whose last gate is one wave over all variables."""
    folder.mkdir()
    names = one_after_the_other("xy", size)
    terms = [f"a{i}" for i in range(size)]
    lines = [f"INPUT({name})" for name in names] + ["OUTPUT(o)"]
    lines += [f"a{i} = AND(x{i}, y{i})" for i in range(size)]
    lines += [f"s = OR({', '.join(terms[:size // 2])})", f"t = OR({', '.join(terms[size // 2:])})", "o = OR(s, t)"]
    for netlist in ("a.bench", "b.bench"):
        (folder / netlist).write_text("\n".join(lines) + "\n")
    (folder / "order").write_text("\n".join(names) + "\n")
    return folder


def folder_of(name: str, scratch: pathlib.Path, given: pathlib.Path | None) -> pathlib.Path:
    """The pair's folder: the one that was given, or one that is made."""
    if given and (given / name / "order").exists():
        return given / name
    if (scratch / name).exists():
        return scratch / name
    if name.startswith("wave"):
        return write_wave(scratch / name, int(name[4:]))
    family, size = MADE[name]
    letters = "xy" if family == "products" else "ab"
    return circuits.write_folder(scratch / name, family, size, one_after_the_other(letters, size))


def words_of(program: str, workers: int, way: str, folder: pathlib.Path) -> list[object]:
    ways: dict[str, list[object]] = {
        "order file": ["--order-file", folder / "order"],
        "declared": ["--order", "declared"],
        "bare command": [],
    }
    return [program, "--workers", workers, *ways[way], folder / "a.bench", folder / "b.bench"]


def has_report(run: Run) -> bool:
    """That there is a report, in which pairs may be undecided."""
    return run.status in (0, 3) and "EQUAL" in run.output


@contextlib.contextmanager
def others(count: int) -> Iterator[None]:
    """So many processes that never wait."""
    running = [subprocess.Popen([sys.executable, "-c", "while True: pass"]) for _ in range(count)]
    try:
        yield
    finally:
        for one in running:
            one.kill()
            one.wait()


def measured(launcher: Launcher, folder: pathlib.Path, way: str, settings: argparse.Namespace) -> Row:
    columns = []
    for _, program, workers in settings.columns:
        bounds = {"seconds": workers * settings.seconds, "clock": settings.seconds}
        columns.append(Column(words_of(program, workers, way, folder), bounds, has_report))
    runs = by_turns(launcher, columns, settings.repeats, fewest=1, enough=20.0, rest=settings.rest)
    reports = [run.output for done in runs for run in done if has_report(run)]
    if any(report != reports[0] for report in reports):
        sys.exit(f"{folder.name}, {way}: the reports differ")
    row = {name: figures(column, done) for (name, _, _), column, done in zip(settings.columns, columns, runs)}
    return {**row, "undecided": sum(line.startswith("UNDECIDED") for line in reports[0].splitlines()) if reports else None}


def ratios(row: Row, names: list[str], measure: str) -> Iterator[tuple[float, float] | None]:
    """Each column's least and median by those of the first column."""
    first = row[names[0]]
    for name in names[1:]:
        one = row[name]
        yield (one[measure] / first[measure], one[f"median_{measure}"] / first[f"median_{measure}"]) if one and first else None


def cells_of(row: Row, names: list[str]) -> list[str]:
    def pair(numbers: tuple[float, float] | None, digits: int = 2) -> str:
        return "-" if numbers is None else ", ".join(shown(number, digits) for number in numbers)

    first = row[names[0]]
    cells = [row["key"], pair(first and (first["clock"], first["median_clock"]), 3)]
    for measure in ("clock", "processor"):
        cells += map(pair, ratios(row, names, measure))
    cells += [shown(row[name] and row[name]["megabytes"], 0) for name in names]
    return cells + ["-" if row["undecided"] is None else str(row["undecided"]), str(row["others"])]


def print_table(rows: list[Row], names: list[str]) -> None:
    head = ["pair", f"{names[0]} s"] + [f"{name} / {names[0]}" for name in names[1:]] + [f"work of {name}" for name in names[1:]]
    head += [f"MB of {name}" for name in names]
    print(table(head + ["undecided", "others busy"], [cells_of(row, names) for row in rows]))
    for way in sorted({row["way"] for row in rows}):
        found = [[each and each[0] for each in ratios(row, names, "clock")] for row in rows if row["way"] == way]
        means = [f"{name} {shown(geometric_mean(column))}" for name, column in zip(names[1:], zip(*found))]
        print(f"\n{way}: least on the clock over {names[0]}, geometric mean: {'; '.join(means)}")


def read_options() -> argparse.Namespace:
    parser = parser_of(__doc__, seconds=120, repeats=5)
    parser.add_argument("folder", metavar="FOLDER", nargs="?", type=pathlib.Path, help="This folder has folders of pairs.")
    parser.add_argument("--before", metavar="PROGRAM", help="This program is measured beside the first one.")
    parser.add_argument("--workers", type=numbers, default=[1, 2, 4], help="These are the numbers of workers; the default is 1,2,4.")
    parser.add_argument("--rest", type=float, default=0.5, help="So many seconds are between two runs; the default is 0.5.")
    parser.add_argument("--busy", type=int, default=0, help="So many other processes run all the while, which never wait.")
    parser.add_argument("--only", default="", help="Only pairs with this text in their names are measured.")
    settings = parser.parse_args()
    programs = [("", settings.program)] + ([("before, ", settings.before)] if settings.before else [])
    settings.columns = [(f"{when}{workers}", program, workers) for when, program in programs for workers in settings.workers]
    return settings


def main() -> None:
    settings = read_options()
    names = [name for name, _, _ in settings.columns]
    said = {"workers": settings.workers, "seconds": settings.seconds, "repeats": settings.repeats, "rest": settings.rest}
    before = {"before": program_of(settings.before)["program's checksum"]} if settings.before else {}
    with tempfile.TemporaryDirectory() as place, others(settings.busy):
        scratch = pathlib.Path(place)
        what = "Large diagrams by the number of workers, in a named order and by the bare command: seconds and peak memory"
        settings.into = scratch if settings.busy else settings.into
        results = Results("workers", what, settings, {**said, **before})
        launcher, keys = Launcher(), []
        for name, way in RUNS:
            key = f"{name}, {way}"
            if settings.only not in key:
                continue
            keys.append(key)
            if key not in results:
                folder = folder_of(name, scratch, settings.folder)
                results.begin()
                row = results.add(key, {"pair": name, "way": way, **measured(launcher, folder, way, settings)})
                say(*cells_of(row, names))
        if not settings.only:
            results.keep_only(keys)
        print_table([results.rows[key] for key in keys], names)


if __name__ == "__main__":
    main()
