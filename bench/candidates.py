#!/usr/bin/env python3
"""Times designs by the bare command against the single orders that it tries, and writes results/candidates.json.

usage: bench/candidates.py PROGRAM FOLDER .. [--seconds N] [--longer N] [--minutes N] [--lanes N] [--memory MB] [--letters ABC] [--only PART] [--anew]

A FOLDER has folders NAME/ with a.bench, b.bench and, in some, c.bench. Each of b and c (or of the LETTERS) is compared with a:

first   by one worker, by the bare command and in each of the three orders that it tries, in turn, each within N (10) seconds on the
        clock; short runs are repeated, up to three times, and the least counts. LANES (1) comparisons are measured at once, each lane on
        one processor of its own, of which every second one is taken. With more than one lane the longest of these runs by the bare
        command are made once more while nothing else runs, and a line says how much less time they take.
then    by four workers, by the bare command and in the order that was the best one by one worker, in turn, one comparison at a time.
last    each comparison of b that the bare command or all three orders have left is run by one worker within LONGER (60) seconds, in the
        three orders, by the bare command, and by `--order best` within 2^22 nodes if the whole has not decided it; four of these runs
        at once, so only their verdicts count. After these the bare command with four workers has LONGER seconds by itself, where it
        has left pairs, first those that some order decides.

After MINUTES (20) no run is begun. The tables in Markdown have the seconds on the clock and of processor time, what decided in the bare
command (`whole` is an attempt at the whole netlists, with its budget), and what is undecided; the lines below have the geometric means
of the bare command's seconds by those of the best order, how many the whole decides, and the pairs that some order decides and the bare
command with four workers leaves.
"""
from __future__ import annotations

import argparse
import os
import pathlib
import re
import threading
import time
from collections.abc import Iterable
from concurrent.futures import ThreadPoolExecutor
from typing import Any

from designs import comparisons, counted, has_report, pairs_in
from measure import Column, Launcher, Run, by_turns, figures, geometric_mean, ratio, say, shown, table
from results import Results, Row, parser_of

CANDIDATES = ("msb-first", "weights", "force-groups")
MANY = 4
# The last attempts of the bare command at the whole, before it goes by cones, have so many nodes.
WHOLE_BUDGET = 1 << 22
GRACE = 15
# Runs beside others that are repeated by themselves.
REPEATED = 6
LONGEST_REPEATED = 4.0
MEASURABLE = 0.05


class Measurement:
    """What all passes need: the launchers, one for each lane, and when to stop."""

    def __init__(self, settings: argparse.Namespace, results: Results) -> None:
        self.settings, self.results = settings, results
        self.end = time.monotonic() + 60 * settings.minutes
        self.launchers = [Launcher() for _ in range(MANY)]
        self.free, self.lock = list(range(MANY)), threading.Lock()

    def is_over(self) -> bool:
        return bool(time.monotonic() > self.end)

    def in_lanes(self, lanes: int, work: Any, items: Iterable[Any]) -> None:
        """Does `work(launcher, item)` for all items, so many at once, each on one processor if it is more than one."""
        stride = max(1, (os.cpu_count() or 1) // lanes)

        def one(item: Any) -> None:
            if self.is_over():
                return
            with self.lock:
                place = self.free.pop(0)
            every = os.sched_getaffinity(0)
            try:
                if lanes > 1:
                    os.sched_setaffinity(0, {place * stride % (os.cpu_count() or 1)})
                work(self.launchers[place], item)
            finally:
                os.sched_setaffinity(0, every)
                with self.lock:
                    self.free.insert(0, place)
                    self.free.sort()

        with ThreadPoolExecutor(lanes) as pool:
            for done in [pool.submit(one, item) for item in items]:
                done.result()

    def add(self, key: str, part: str, row: Row) -> None:
        with self.lock:
            kept = {name: value for name, value in self.results.rows.get(key, {}).items() if name not in ("key", "others")}
            self.results.add(key, {**kept, part: row})

    def has(self, key: str, part: str) -> bool:
        return bool(key in self.results and part in self.results.rows[key])


def is_whole(run: Run) -> bool:
    return run.status in (0, 1) and any(counted(run.output))


def bare(settings: argparse.Namespace, files: list[pathlib.Path], workers: int, seconds: int) -> Column:
    words = [settings.program, "--verbose", "--workers", workers, "--seconds", seconds, *files]
    bounds = {"seconds": workers * (seconds + GRACE), "clock": seconds + GRACE, "megabytes": settings.memory}
    return Column(words, bounds, has_report)


def single(settings: argparse.Namespace, files: list[pathlib.Path], order: str, workers: int, seconds: int) -> Column:
    words = [settings.program, "--order", order, "--workers", workers, "--seconds", seconds, *files]
    bounds = {"seconds": workers * (seconds + GRACE), "clock": seconds + GRACE, "megabytes": settings.memory}
    return Column(words, bounds, is_whole)


def decided_by(said: str) -> str:
    """What decided in the bare command, by the lines of --verbose: an attempt at the whole, or what came after it."""
    if found := re.findall(r"^bddcheck: order ([\w-]+) decided within (\d+) nodes$", said, re.M):
        return f"whole, {found[-1][0]}, {found[-1][1]}"
    if "was judged by its cones" in said or "undecided by cones" in said:
        return "cones"
    return "merging" if "merging, budget" in said else "-"


def seen(column: Column, runs: list[Run], files: list[pathlib.Path]) -> Row:
    """The figures of a column's runs, with its verdicts and what decided."""
    last = runs[-1]
    counts = counted(last.output) if has_report(last) else [0, 0, 0, pairs_in(files[0])]
    found: Row = figures(column, runs) or {"clock": None, "processor": None}
    found |= dict(zip(("equal", "differ", "only", "undecided"), counts))
    found["not least"] = last.output.count("(may not be the least)")
    return found | {"by": decided_by(last.errors), "status": last.status, "stopped at": round(last.clock, 2)}


def measure_first(at: Measurement, key: str, files: list[pathlib.Path], launcher: Launcher) -> None:
    settings = at.settings
    columns = [bare(settings, files, 1, settings.seconds)]
    columns += [single(settings, files, order, 1, settings.seconds) for order in CANDIDATES]
    runs = by_turns(launcher, columns, settings.repeats, fewest=1)
    names = ("auto", *CANDIDATES)
    at.add(key, "one", {name: seen(column, done, files) for name, column, done in zip(names, columns, runs)})
    say(key, *(shown(clock_of(figure), 3) for figure in at.results.rows[key]["one"].values()))


def clock_of(figure: Row | None) -> float | None:
    """The seconds on the clock of a column; none if it was not run, or has no report."""
    clock: float | None = figure["clock"] if figure else None
    return clock


def best_order(row: Row) -> str | None:
    """The order that took least by one worker; none if none was whole."""
    times: dict[str, float] = {order: row["one"][order]["clock"] for order in CANDIDATES if row["one"][order]["clock"] is not None}
    return min(times, key=lambda order: times[order]) if times else None


def measure_many(at: Measurement, key: str, files: list[pathlib.Path], launcher: Launcher) -> None:
    settings = at.settings
    best = best_order(at.results.rows[key])
    columns = [bare(settings, files, MANY, settings.seconds)]
    columns += [single(settings, files, best, MANY, settings.seconds)] if best else []
    runs = by_turns(launcher, columns, settings.repeats, fewest=1, rest=0.1)
    row = {"auto": seen(columns[0], runs[0], files), "best": seen(columns[1], runs[1], files) if best else None}
    at.add(key, "many", row)
    say(key, best, *(shown(clock_of(figure), 3) for figure in row.values()))


def repeat_alone(at: Measurement, files_of: dict[str, list[pathlib.Path]]) -> list[float]:
    """The seconds of some runs that nothing runs beside, by those that they took in their lanes."""
    times = {key: row["one"]["auto"]["clock"] for key, row in at.results.rows.items() if "one" in row and key in files_of}
    chosen = sorted((key for key, clock in times.items() if clock and clock <= LONGEST_REPEATED), key=lambda key: -float(times[key]))[
        :REPEATED
    ]
    found = []
    for key in chosen:
        column = bare(at.settings, files_of[key], 1, at.settings.seconds)
        alone = min(run.clock for run in by_turns(at.launchers[0], [column], at.settings.repeats, fewest=1)[0])
        found.append(alone / times[key])
    return found


def is_by_whole(figure: Row) -> bool:
    return figure["clock"] is not None and figure["undecided"] == 0 and str(figure["by"]).startswith("whole")


def longer_jobs(at: Measurement, key: str, files: list[pathlib.Path]) -> Iterable[tuple[str, str, Column, list[pathlib.Path]]]:
    """The runs of the last pass for a comparison: what one worker has left within the shorter time."""
    settings, one = at.settings, at.results.rows[key]["one"]
    if not best_order(at.results.rows[key]):
        for order in CANDIDATES:
            yield key, order, single(settings, files, order, 1, settings.longer), files
    if one["auto"]["undecided"] or one["auto"]["clock"] is None:
        yield key, "auto", bare(settings, files, 1, settings.longer), files
    if not is_by_whole(one["auto"]):
        column = single(settings, files, "best", 1, settings.longer)
        yield key, "best", Column([column.words[0], "--limit", WHOLE_BUDGET, *column.words[1:]], column.bounds, is_whole), files


def measure_longer(at: Measurement, launcher: Launcher, job: tuple[str, str, Column, list[pathlib.Path]]) -> None:
    key, name, column, files = job
    run = launcher.run(column.words, **column.bounds)
    at.add(key, f"longer {name}", seen(column, [run], files))
    say(key, name, run.status, shown(run.clock))


def is_decided_by_order(row: Row) -> bool:
    return best_order(row) is not None or any((row.get(f"longer {name}") or {}).get("clock") for name in (*CANDIDATES, "best"))


def lost_pairs(row: Row) -> int:
    """The pairs that some order decides and the bare command with four workers leaves."""
    figure = row.get("longer many") or (row.get("many") or {}).get("auto")
    left: int = figure["undecided"] if figure else 0
    return left if is_decided_by_order(row) else 0


def line_of(row: Row) -> list[str]:
    """A comparison's line in the table of times."""
    one, many, best = row["one"], row.get("many") or {}, best_order(row)
    auto, fastest = clock_of(one["auto"]), clock_of(one[best]) if best else None
    by_many = clock_of(many.get("auto"))
    seconds = [auto, *(clock_of(one[order]) for order in CANDIDATES), one["auto"]["processor"]]
    line = [row["key"], *(shown(number, 3) for number in seconds), shown(ratio(auto, fastest))]
    line += [shown(by_many, 3), shown(clock_of(many.get("best")), 3), shown(ratio(by_many, fastest))]
    return [*line, str(one["auto"]["undecided"]), str(many["auto"]["undecided"]) if many else "-", str(one["auto"]["by"])]


def print_times(rows: list[Row]) -> None:
    head = ["comparison", "auto s", *(f"{order} s" for order in CANDIDATES), "auto processor s", "auto / best", f"auto {MANY} s"]
    head += [f"best {MANY} s", f"auto {MANY} / best", "undecided", f"undecided {MANY}", "decided by"]
    print(table(head, map(line_of, rows)))


def print_longer(rows: list[Row], seconds: int) -> None:
    names = ["auto", *CANDIDATES, "best", "many"]
    left = [row for row in rows if any(f"longer {name}" in row for name in names)]

    def cell(row: Row, name: str) -> str:
        figure = row.get(f"longer {name}")
        if figure is None:
            return "-"
        return f"{figure['stopped at']} s" if figure["clock"] is not None and not figure["undecided"] else f"{figure['undecided']} left"

    print(f"\nWithin {seconds} s, four runs at once (the last column by itself):\n")
    heads = ["comparison", "auto", *CANDIDATES, "best, 2^22 nodes", f"auto {MANY}"]
    print(table(heads, [[row["key"], *(cell(row, name) for name in names)] for row in left]))


def mean_over_best(rows: list[Row], part: str, against: str) -> str:
    """The geometric mean of the bare command's seconds by those of the best order, over how many comparisons, and the greatest."""
    found = []
    for row in rows:
        best = best_order(row)
        figure = row["one"][best] if best and against == "one" else (row.get("many") or {}).get("best")
        this, that = clock_of((row.get(part) or {}).get("auto")), clock_of(figure)
        if best and this and that:
            found.append(this / max(that, 0.001))
    return f"{shown(geometric_mean(found))} ({len(found)}, at most {shown(max(found, default=None))})"


def print_means(rows: list[Row]) -> None:
    longer = [row for row in rows if (best := best_order(row)) and row["one"][best]["clock"] >= MEASURABLE]
    print("clock by that of the best order, geometric mean (comparisons, greatest):")
    for what, chosen in (("all", rows), (f"best order takes {MEASURABLE} s or more", longer)):
        print(f"- {what}: one worker {mean_over_best(chosen, 'one', 'one')}")
        print(f"- {what}: {MANY} workers by the best order's with one worker {mean_over_best(chosen, 'many', 'one')}")
        print(f"- {what}: {MANY} workers by the same order's with {MANY} {mean_over_best(chosen, 'many', 'many')}")


def left_by_many(row: Row) -> int:
    """The pairs that the bare command leaves in its longest run: by four workers if they were measured."""
    many, one = row.get("many"), row["one"]["auto"]
    figure = row.get("longer many") or (many["auto"] if many else one)
    left: int = figure["undecided"]
    return left


def print_verdicts(rows: list[Row]) -> None:
    by_whole = [row for row in rows if is_by_whole(row["one"]["auto"]) or clock_of(row.get("longer best")) is not None]
    print(f"- decided by an attempt at the whole, or by `best` within 2^22 nodes: {len(by_whole)} of {len(rows)}")
    left = {row["key"]: left_by_many(row) for row in rows if left_by_many(row)}
    print(f"- the bare command leaves no pair of {len(rows) - len(left)}; it leaves {left}")
    lost = {row["key"]: lost_pairs(row) for row in rows if lost_pairs(row)}
    print(f"- pairs that an order decides and the bare command leaves: {lost or 'none'}")
    least = {row["key"]: row["many"]["auto"]["not least"] for row in rows if "many" in row and row["many"]["auto"]["not least"]}
    print(f"- differences that may not be the least: {least or 'none'}")


def measure_last(at: Measurement, known: list[str], files_of: dict[str, list[pathlib.Path]]) -> None:
    """The bare command with four workers within the longer time, where it has left pairs; first what some order decides."""
    rows = {key: at.results.rows[key] for key in known if key.endswith(" b")}
    left = [key for key, row in rows.items() if "many" in row and row["many"]["auto"]["undecided"] and not at.has(key, "longer many")]
    for key in sorted(left, key=lambda key: not is_decided_by_order(rows[key])):
        if not at.is_over():
            column = bare(at.settings, files_of[key], MANY, at.settings.longer)
            measure_longer(at, at.launchers[0], (key, "many", column, files_of[key]))


def read_options() -> argparse.Namespace:
    parser = parser_of(__doc__, seconds=10, repeats=3)
    parser.add_argument("folders", metavar="FOLDER", nargs="+", type=pathlib.Path, help="This folder has folders of pairs.")
    parser.add_argument(
        "--longer", type=int, default=60, help="What is left has so many seconds; the default is 60, and 0 leaves this out."
    )
    parser.add_argument("--memory", type=int, default=5000, help="A run has so many megabytes; the default is 5000, and 0 is no bound.")
    parser.add_argument("--minutes", type=float, default=20, help="After so many minutes no run is begun; the default is 20.")
    parser.add_argument("--lanes", type=int, default=1, help="So many comparisons by one worker are measured at once, up to 4.")
    parser.add_argument("--letters", default="bc", help="These of each folder's files are compared with a.bench; the default is bc.")
    parser.add_argument("--only", default="", help="Only pairs with this text in their names are measured.")
    return parser.parse_args()


def main() -> None:
    settings = read_options()
    said = {
        "seconds": settings.seconds,
        "longer": settings.longer,
        "repeats": settings.repeats,
        "lanes": settings.lanes,
        "memory": settings.memory,
    }
    what = "Each comparison by the bare command against the single orders that it tries, by one and by four workers"
    at = Measurement(settings, Results("candidates", what, settings, said))
    files_of = dict(comparisons(settings.folders, settings.letters, settings.only))
    left = [key for key in files_of if not at.has(key, "one")]
    at.in_lanes(settings.lanes, lambda launcher, key: measure_first(at, key, files_of[key], launcher), left)
    alone = repeat_alone(at, files_of) if settings.lanes > 1 and left and not at.is_over() else []
    known = [key for key in files_of if at.has(key, "one")]
    left = [key for key in known if not at.has(key, "many")]
    at.in_lanes(1, lambda launcher, key: measure_many(at, key, files_of[key], launcher), left)
    if settings.longer:
        jobs = [job for key in known if key.endswith(" b") for job in longer_jobs(at, key, files_of[key])]
        jobs = [job for job in jobs if not at.has(job[0], f"longer {job[1]}")]
        at.in_lanes(MANY, lambda launcher, job: measure_longer(at, launcher, job), jobs)
        measure_last(at, known, files_of)
    rows = [at.results.rows[key] for key in known]
    print_times(rows)
    print_longer(rows, settings.longer)
    for letter in sorted({row["key"].split()[-1] for row in rows}):
        of_letter = [row for row in rows if row["key"].split()[-1] == letter]
        print(f"\n**{letter}**, {len(of_letter)} comparisons:\n")
        print_means(of_letter)
        print_verdicts(of_letter)
    if alone:
        print(f"\nalone by beside another lane: {shown(geometric_mean(alone))} in the geometric mean of {len(alone)}")
    if len(known) < len(files_of) or at.is_over():
        print(f"\nover {settings.minutes} minutes: {len(known)} of {len(files_of)} comparisons were begun")


if __name__ == "__main__":
    main()
