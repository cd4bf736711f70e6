#!/usr/bin/env python3
"""Times the reader on chains of NOT gates of doubling sizes, up to 1,000,000 signals, and writes results/reader.json.

usage: bench/reader.py PROGRAM [--abc] [--texts TEXT ..] [--seconds N] [--repeats K] [--anew]

Each chain is given to bddcheck as the first netlist, with a second one that is refused at its first line. So the first is read whole,
and no gate is built. A reader that is linear in the text, or nearly so, takes about twice the time for twice the signals, whether each
gate is written after its operand (forward) or before it (backward). It prints a table in Markdown.

With --abc the last column has the seconds of abc's command read_bench on the same text. abc walks below its outputs by recursion, so it
runs with a stack without limit.

With --texts the chains are left out, and each of these texts is read in their place: so many copies of it, with names of their own in
each, as make 4 MB, since the reading of a small text takes less time than the start of a program. Nothing is written then.
"""
from __future__ import annotations

import argparse
import pathlib
import re
import sys
import tempfile
from collections.abc import Callable, Iterator

import chains
from designs import ABC, abc_version
from measure import Column, Launcher, by_turns, figures, say, shown, table
from results import Results, Row, parser_of

TEXT_BYTES = 4_000_000
SIZES = [999999 >> shift for shift in range(3, -1, -1)]


def measured(launcher: Launcher, path: pathlib.Path, bad: pathlib.Path, settings: argparse.Namespace) -> Row:
    bounds = {"seconds": settings.seconds}
    columns = [Column([settings.program, path, bad], bounds, lambda run: run.status == 2)]
    if settings.abc:
        words = ["sh", "-c", 'ulimit -s unlimited && exec "$0" -c "read_bench $1"', ABC, path]
        columns.append(Column(words, bounds, lambda run: run.status == 0 and "failed" not in run.output))
    runs = by_turns(launcher, columns, settings.repeats)
    row = {"megabytes": round(path.stat().st_size / 1e6, 2)}
    return {**row, **{name: figures(column, done) for name, column, done in zip(("bddcheck", "abc"), columns, runs)}}


def copies(text: str) -> str:
    """As many copies of the text as make TEXT_BYTES, the names of each with its number after them."""
    whole = []
    for number in range(TEXT_BYTES // len(text) + 1):
        named = re.sub(r"[^\s(),=#]+(?=\s*[,)=])", lambda name: f"{name.group()}_{number}", re.sub(r"#[^\n]*", "", text))
        whole.append(named)
    return "\n".join(whole)


def texts(folder: pathlib.Path, settings: argparse.Namespace) -> Iterator[tuple[str, Callable[[], pathlib.Path]]]:
    """The name of each text that is read, and a function that writes it and gives its path."""
    if settings.texts:
        for text in map(pathlib.Path, settings.texts):
            path = folder / "copies.bench"
            yield f"{text.parent.name}/{text.name}", lambda: (path.write_text(copies(text.read_text())), path)[1]
        return
    for order in ("forward", "backward"):
        for count in SIZES:
            yield f"{order} {count + 1}", lambda: write_chain(folder, order, count)


def write_chain(folder: pathlib.Path, order: str, count: int) -> pathlib.Path:
    lines = chains.gates(count)
    chains.write_chain(folder, order, count, lines if order == "forward" else lines[::-1])
    return folder / f"{order}_{count}.bench"


def main() -> None:
    parser = parser_of(__doc__, seconds=60, repeats=3)
    parser.add_argument("--abc", action="store_true", help="The texts are read by abc as well.")
    parser.add_argument("--texts", metavar="TEXT", nargs="+", help="Copies of these netlists are read, in place of chains.")
    settings = parser.parse_args()
    peers = {"abc": abc_version()} if settings.abc else {}
    with tempfile.TemporaryDirectory() as name:
        folder = pathlib.Path(name)
        bad = folder / "bad.bench"
        bad.write_text("INPUT\n")
        what = "Seconds and peak memory of reading one text, and of abc's read_bench"
        settings.into = folder if settings.texts else settings.into
        results = Results("reader", what, settings, {"repeats": settings.repeats}, peers)
        launcher, rows = Launcher(), []
        for key, write in texts(folder, settings):
            if key not in results:
                path = write()
                results.begin()
                results.add(key, measured(launcher, path, bad, settings))
                say(key)
            row = results.rows[key]
            ours, abc = row["bddcheck"], row.get("abc")
            if not ours:
                sys.exit(f"{key}: not read, or not refused at the second netlist")
            seconds = ours["processor"]
            cells = [key, shown(row["megabytes"]), shown(seconds, 3), shown(seconds / row["megabytes"], 3), shown(ours["megabytes"], 0)]
            rows.append(cells + ([shown(abc and abc["processor"], 3)] if settings.abc else []))
    print(table(["text", "MB", "s", "s / MB", "memory MB"] + ["s of abc"] * settings.abc, rows))


if __name__ == "__main__":
    main()
