#!/usr/bin/env python3
"""Measures what the threads of several workers do and wait for; writes results/threads.json.

usage: bench/threads.py PROGRAM FOLDER .. [--bare] [--workers N] [--repeats K] [--anew]

Each FOLDER has a pair, a.bench and b.bench, and their order. It is run K times (5) by N workers (4), in its order or, with --bare, by
the bare command, and the figures are those of the fastest run, in a table in Markdown: milliseconds on the clock, those in which
threads run beside the caller's (how often they are started in parentheses), how many processors are busy in these, of how many
milliseconds of processor time, how many milliseconds the threads are off a processor, for locks and other processes, how many
microseconds one waits for its first step, and the pages that they touch first.

It compiles threads.c, which is preloaded, with cc.
"""
from __future__ import annotations

import os
import pathlib
import subprocess
import tempfile
import time

from measure import HERE, shown, table
from results import Results, Row, parser_of
from workers import words_of


def noted(program: str, workers: int, way: str, folder: pathlib.Path, scratch: pathlib.Path) -> tuple[float, list[list[str]]]:
    """The milliseconds of a run, and the lines that threads.c wrote of it."""
    note = scratch / "note"
    note.write_text("")
    added = {"LD_PRELOAD": str(scratch / "threads.so"), "BDD_THREADS": str(note)}
    start = time.monotonic()
    words = [str(word) for word in words_of(program, workers, way, folder)]
    subprocess.run(words, env=os.environ | added, stdout=subprocess.DEVNULL, check=True)
    clock = (time.monotonic() - start) * 1000
    return clock, [line.split() for line in note.read_text().splitlines()]


def figures_of(clock: float, lines: list[list[str]]) -> Row:
    threads = [list(map(float, words)) for kind, *words in lines if kind == "thread"]
    rounds = [list(map(float, words)) for kind, *words in lines if kind == "together"]
    row = {
        "clock": clock,
        "with threads": sum(passed for passed, _ in rounds),
        "busy": sum(own for _, own in rounds) + sum(on for _, _, on, _ in threads),
        "off": sum(ran - on for _, ran, on, _ in threads),
        "start": 1000 * sum(waited for waited, *_ in threads) / max(1, len(threads)),
    }
    counts = {"rounds": len(rounds), "threads": len(threads), "pages": sum(int(faults) for *_, faults in threads)}
    return {**{name: round(value, 1) for name, value in row.items()}, **counts}


def cells_of(row: Row) -> list[str]:
    parts = f"{shown(row['with threads'], 0)} ({row['rounds']})"
    busy = shown(row["busy"] / max(row["with threads"], 1e-9), 2)
    return [row["key"], shown(row["clock"], 0), parts, busy, *(shown(row[name], 0) for name in ("busy", "off", "start")), str(row["pages"])]


def main() -> None:
    parser = parser_of(__doc__, seconds=60, repeats=5)
    parser.add_argument(
        "folders", metavar="FOLDER", nargs="+", type=pathlib.Path, help="This folder has a pair: a.bench, b.bench and perhaps an order."
    )
    parser.add_argument("--workers", type=int, default=4, help="Each pair is compared by so many workers; the default is 4.")
    parser.add_argument("--bare", action="store_true", help="The pairs are compared by the bare command, and not by their order files.")
    settings = parser.parse_args()
    what = "Threads beside the caller's, of the fastest run: milliseconds, microseconds of a start, starts and pages"
    said = {"workers": settings.workers, "repeats": settings.repeats}
    results = Results("threads", what, settings, said)
    way = "bare command" if settings.bare else "order file"
    keys = [f"{folder.name}, {way}" for folder in settings.folders]
    with tempfile.TemporaryDirectory() as name:
        scratch = pathlib.Path(name)
        subprocess.run(["cc", "-O2", "-shared", "-fPIC", "-o", scratch / "threads.so", HERE / "threads.c", "-ldl"], check=True)
        for key, folder in zip(keys, settings.folders):
            if key not in results:
                results.begin()
                runs = [noted(settings.program, settings.workers, way, folder, scratch) for _ in range(settings.repeats)]
                results.add(key, figures_of(*min(runs, key=lambda run: run[0])))
    rows = [cells_of(results.rows[key]) for key in keys]
    print(table(["pair", "ms", "with threads", "busy", "processor ms", "off", "start us", "new pages"], rows))


if __name__ == "__main__":
    main()
