#!/usr/bin/env python3
"""Measures bddcheck by several numbers of workers against BuDDy, a depth-first BDD package, and writes results/peers.json.

usage: bench/peers.py PROGRAM [FOLDER ..] [--workers N,N ..] [--seconds N] [--repeats K] [--rest SECONDS] [--only PART] [--no-generated] [--anew]

A FOLDER has folders NAME/ with a.bench, b.bench and order, the names of all variables in the order that both programs take; the names
of inputs and outputs agree. Pairs of its own are generated beside them, by circuits.py: parity by a chain and by a tree, sums of
products with all first factors before all second ones, chains of 20,000 gates, adders and multipliers. --only takes the pairs whose
name has PART in it.

Each pair is run K times (7), and each time by each number of workers (1, 2, 4) and by BuDDy, one after the other, so that a change of
the machine's load meets all of them; --rest waits before each run. Of each the least time on the clock, the least processor time and
the least peak of memory count. A run is stopped at N (60) seconds of processor time, and what was stopped or refused once is not run
again. Both programs must call the same outputs equal. It prints a table in Markdown for each of the three measures, with ratios to
BuDDy, their geometric means and the worst of them.

It needs cc, g++ and BuDDy (Debian: libbdd-dev); the product needs none of these.
"""
from __future__ import annotations

import argparse
import pathlib
import subprocess
import sys
import tempfile
from collections.abc import Iterable, Iterator
from typing import Any

import circuits
from measure import HERE, Column, Launcher, Run, by_turns, figures, geometric_mean, ratio, say, shown, table
from results import Results, Row, first_line, numbers, package, parser_of

MEASURES = [
    ("clock", "Seconds on the clock", 3),
    ("processor", "Seconds of processor time, all threads together", 3),
    ("megabytes", "Peak memory in MB", 1),
]
BUDDY = "BuDDy"


def compiled_driver(folder: pathlib.Path) -> str:
    """The driver over BuDDy."""
    driver = folder / "depth_first"
    subprocess.run(["g++", "-O2", "-o", driver, HERE / "depth_first.cpp", "-lbdd"], check=True)
    return str(driver)


def verdicts(output: str) -> list[list[str]]:
    """What a program says of each output, without assignments and sums."""
    lines = [line.split()[:2] for line in output.splitlines()]
    return sorted(line for line in lines if line and line[0] in ("EQUAL", "DIFFER"))


def is_right(run: Run) -> bool:
    return run.status in (0, 1)


def words_of(program: str, workers: int, folder: pathlib.Path) -> list[object]:
    return [program, "--workers", workers, "--order-file", *(folder / name for name in ("order", "a.bench", "b.bench"))]


def measured(folder: pathlib.Path, launcher: Launcher, driver: str, settings: argparse.Namespace) -> Row:
    """The figures of each column: the program by each number of workers, and BuDDy."""
    commands = [words_of(settings.program, workers, folder) for workers in settings.workers]
    commands.append([driver, *(folder / name for name in ("a.bench", "b.bench", "order"))])
    columns = [Column(words, {"seconds": settings.seconds}, is_right) for words in commands]
    runs = by_turns(launcher, columns, settings.repeats, enough=10.0, rest=settings.rest)
    answers = [verdicts(run.output) for done in runs for run in done if is_right(run)]
    if any(answer != answers[0] for answer in answers):
        sys.exit(f"{folder.name}: not all runs call the same outputs equal")
    names = [*map(str, settings.workers), BUDDY]
    return {name: figures(column, done) for name, column, done in zip(names, columns, runs)}


# Generated pairs.


def interleaved(letters: str, size: int) -> list[str]:
    return [f"{letter}{i}" for i in range(size) for letter in letters]


def one_after_the_other(letters: str, size: int) -> list[str]:
    return [f"{letter}{i}" for letter in letters for i in range(size)]


# name: family and size of circuits.py, and the order of the variables.
GENERATED = {
    "products-10": ("products", 10, one_after_the_other("xy", 10)),
    "products-14": ("products", 14, one_after_the_other("xy", 14)),
    "products-17": ("products", 17, one_after_the_other("xy", 17)),
    "products-512": ("products", 512, interleaved("xy", 512)),
    "chain-xor": ("xors", 20000, one_after_the_other("x", circuits.CHAIN_INPUTS)),
    "chain-and-or": ("steps", 20000, one_after_the_other("x", circuits.CHAIN_INPUTS)),
    "adder-256": ("adder", 256, interleaved("ab", 256)),
    "multiplier-8": ("multiplier", 8, one_after_the_other("ab", 8)),
    "multiplier-11": ("multiplier", 11, one_after_the_other("ab", 11)),
    "alu-16": ("alu", 16, [f"f{i}" for i in range(3)] + interleaved("ab", 16)),
}


def generate(folder: pathlib.Path, name: str) -> pathlib.Path:
    family, size, order = GENERATED[name]
    return circuits.write_folder(folder / name, family, size, order)


def pairs(folder: pathlib.Path, settings: argparse.Namespace) -> Iterator[pathlib.Path]:
    for given in settings.folders:
        for place in sorted(given.iterdir()):
            if (place / "order").exists() and settings.only in place.name:
                yield place
    if settings.generated:
        for name in GENERATED:
            if settings.only in name:
                yield generate(folder, name)


# The tables.


def value(row: Row, column: str, measure: str) -> Any:
    return row[column][measure] if row[column] else None


def rows_of(rows: Iterable[Row], names: list[str], measure: str, digits: int) -> Iterator[list[str]]:
    ratios = []
    for row in rows:
        ratios.append([ratio(value(row, name, measure), value(row, BUDDY, measure)) for name in names[:-1]])
        cells = [shown(value(row, name, measure), digits) for name in names]
        yield [row["key"], *cells, *map(shown, ratios[-1])]
    columns = list(zip(*ratios))
    blank = [""] * len(names)
    yield ["geometric mean", *blank, *(shown(geometric_mean(column)) for column in columns)]
    yield ["worst", *blank, *(shown(max((one for one in column if one), default=None)) for column in columns)]


def print_tables(rows: Iterable[Row], settings: argparse.Namespace) -> None:
    names = [*map(str, settings.workers), BUDDY]
    heads = [f"{name} worker{'s' * (name != '1')}" for name in names[:-1]] + [BUDDY]
    print(
        f"The least of {settings.repeats} runs of each, one after the other; `-`: refused, or over {settings.seconds} s of processor time."
    )
    for measure, title, digits in MEASURES:
        print(f"\n{title}:\n")
        print(table(["pair", *heads, *(f"{head} / {BUDDY}" for head in heads[:-1])], rows_of(rows, names, measure, digits)))


def read_options() -> argparse.Namespace:
    parser = parser_of(__doc__, seconds=60, repeats=7)
    parser.add_argument("folders", metavar="FOLDER", nargs="*", type=pathlib.Path, help="This folder has folders of pairs.")
    parser.add_argument("--workers", type=numbers, default=[1, 2, 4], help="These are the numbers of workers; the default is 1,2,4.")
    parser.add_argument("--rest", type=float, default=0.0, help="So many seconds are between two runs; the default is 0.")
    parser.add_argument("--only", default="", help="Only pairs with this text in their names are measured.")
    parser.add_argument("--no-generated", dest="generated", action="store_false", help="Only the pairs in folders are measured.")
    return parser.parse_args()


def main() -> None:
    settings = read_options()
    launcher = Launcher()
    with tempfile.TemporaryDirectory() as name:
        folder = pathlib.Path(name)
        driver = compiled_driver(folder)
        peers = {BUDDY: f"{first_line([driver, '--version'], r'[0-9.]+')} (package libbdd-dev {package('libbdd-dev')})"}
        said = {"workers": settings.workers, "seconds": settings.seconds, "repeats": settings.repeats, "rest": settings.rest}
        what = "One order file for both programs: seconds and peak memory by the number of workers, and of BuDDy"
        results = Results("peers", what, settings, said, peers)
        keys = []
        for place in pairs(folder, settings):
            keys.append(place.name)
            if place.name not in results:
                results.begin()
                row = results.add(place.name, measured(place, launcher, driver, settings))
                say(place.name, *(shown(value(row, column, "clock"), 3) for column in (*map(str, settings.workers), BUDDY)))
        if not keys:
            sys.exit("no pair to measure")
        if not settings.only:
            results.keep_only(keys)
    print_tables([results.rows[key] for key in keys], settings)


if __name__ == "__main__":
    main()
