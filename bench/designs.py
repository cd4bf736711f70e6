#!/usr/bin/env python3
"""Counts the verdicts of a program on folders of designs beside those of abc's cec, and writes results/designs.json.

usage: bench/designs.py PROGRAM FOLDER .. [--seconds N] [--clock] [--letters ABC] [--memory MB] [--options "OPTION .."] [--without-cec] [--hindsight] [--only PART] [--anew]

A FOLDER has folders NAME/ with a.bench, a rewritten b.bench and, in some, a faulty c.bench. Each of b and c (or of the LETTERS) is
compared with a by bddcheck with one worker (by the bare command, or with these OPTIONs, which may name other workers), and by `cec` of
abc without a bound of conflicts, in turn, each within N (10) seconds of processor time, bddcheck also within MB (4,000) megabytes. Short
runs are repeated, up to three times, and the least counts. The table in Markdown has, for each comparison, how many pairs of outputs and
next states were equal, differing, without a partner and undecided, the seconds of both, bddcheck's peak of memory, and what cec says;
the last lines count the pairs with a verdict, and the comparisons that each has decided, and give the geometric mean of the ratios of
bddcheck's seconds to those of cec over the comparisons that both decide, for each letter. Of a run that ends without a report all pairs
count as undecided. The two programs may not contradict each other. cec refuses netlists whose numbers of inputs or registers differ, so
it gets copies to which the inputs that only the other one has were added, unused; registers stay as they are.

With --clock the seconds are those on the clock, and the bare command has its default number of workers and gets `--seconds N`, so that
it reports what it has decided by then.

With --hindsight it measures what the default order costs instead, and writes results/hindsight.json: of each comparison with b that a
single order ends within N seconds of processor time, with one worker, the order that took least and its processor time, that of the
bare command, how many times as much that is, and the budget that decided.
"""
from __future__ import annotations

import argparse
import pathlib
import re
import sys
from collections.abc import Iterator

from measure import Column, Launcher, Run, by_turns, figures, geometric_mean, say, shown, table
from results import Results, Row, first_line, package, parser_of

ABC = "berkeley-abc"
KINDS = ("EQUAL", "DIFFER", "ONLY", "UNDECIDED")
ORDERS = ("msb-first", "weights", "force-groups", "interleave", "force", "index", "depth", "declared")
EASY = 0.05
LARGE = 1 << 19
UNBOUNDED = 2_000_000_000
# With a bound on the clock, a run may use so many processors, and take so many seconds more for what is not stopped.
MOST_WORKERS = 16
GRACE = 20


def counted(report: str) -> list[int]:
    """How many lines of each kind a report has."""
    return [sum(line.startswith(kind + " ") for line in report.splitlines()) for kind in KINDS]


def has_report(run: Run) -> bool:
    return run.status in (0, 1, 3) and any(counted(run.output))


def said_by_cec(run: Run) -> str:
    for words, meaning in (("are equivalent", "equal"), ("NOT EQUIVALENT", "different"), ("Miter computation has failed", "refused")):
        if words in run.output:
            return meaning
    return "undecided"


def has_answer(run: Run) -> bool:
    return said_by_cec(run) in ("equal", "different")


def abc_version() -> str:
    """What abc says of itself when it is started without a command, and its package."""
    return f"{first_line([ABC], r'(?<=ABC )[0-9.]+')} (package {ABC} {package(ABC)})"


def pairs_in(path: pathlib.Path) -> int:
    """As many pairs as a netlist has outputs and registers."""
    return len(re.findall(r"(?mi)^\s*OUTPUT\s*\(|=\s*DFF\s*\(", path.read_text()))


def comparisons(folders: list[pathlib.Path], letters: str = "bc", only: str = "") -> Iterator[tuple[str, list[pathlib.Path]]]:
    """Each design's name with the letter of its second file, and the two files."""
    for design in sorted(path.parent for folder in folders for path in folder.glob("*/a.bench")):
        for other in (design / f"{letter}.bench" for letter in letters):
            if other.exists() and only in design.name:
                yield f"{design.name} {other.stem}", [design / "a.bench", other]


def copies(files: list[pathlib.Path], scratch: pathlib.Path) -> Iterator[pathlib.Path]:
    """The netlists for cec: each with the inputs that only the other one has, unless such a name is a signal here."""
    texts = [path.read_text() for path in files]
    inputs = [re.findall(r"(?mi)^\s*INPUT\s*\(\s*(.*?)\s*\)", text) for text in texts]
    signals = [{*names, *re.findall(r"(?m)^\s*([^\s#=]+)\s*=", text)} for names, text in zip(inputs, texts)]
    for letter, text, mine, theirs in zip("ab", texts, signals, inputs[::-1]):
        added = "".join(f"INPUT({name})\n" for name in theirs if name not in mine)
        path = scratch / f"{letter}.bench"
        path.write_text(added + text)
        yield path


def own_column(files: list[pathlib.Path], settings: argparse.Namespace) -> Column:
    """The run of bddcheck. On the clock it has its seconds from `--seconds`, and some more to write its report."""
    options = settings.options.split()
    if settings.clock:
        words = ["--seconds", settings.seconds, *options]
        bounds = {"seconds": MOST_WORKERS * settings.seconds, "clock": settings.seconds + GRACE}
    else:
        words = options if "--workers" in options else ["--workers", "1", *options]
        bounds = {"seconds": settings.seconds}
    return Column([settings.program, *words, *files], {**bounds, "megabytes": settings.memory}, has_report)


def compared(launcher: Launcher, files: list[pathlib.Path], scratch: pathlib.Path, settings: argparse.Namespace) -> Row:
    columns = [own_column(files, settings)]
    if not settings.without_cec:
        cec = f"cec -T {settings.seconds} -C {UNBOUNDED} {' '.join(map(str, copies(files, scratch)))}"
        columns.append(Column([ABC, "-c", cec], {"seconds": settings.seconds}, has_answer))
    runs = by_turns(launcher, columns, settings.repeats, fewest=1, enough=1.0)
    counts = counted(runs[0][-1].output) if has_report(runs[0][-1]) else [0, 0, 0, pairs_in(files[0])]
    row: Row = dict(zip(("equal", "differ", "only", "undecided"), counts))
    found = [figures(column, done) for column, done in zip(columns, runs)]
    row["bddcheck"], row["cec"] = found if len(found) == 2 else (*found, None)
    row["cec says"] = said_by_cec(runs[1][-1]) if len(found) == 2 else "not run"
    known = {(True, False): "equal", (False, True): "different"}.get((counts[0] == sum(counts), counts[1] > 0))
    if {known, row["cec says"]} == {"equal", "different"}:
        sys.exit(f"{' '.join(map(str, files))}: bddcheck and cec contradict each other")
    return row


def is_decided(row: Row) -> bool:
    return bool(row["bddcheck"]) and not row["undecided"]


def print_verdicts(rows: list[Row], measure: str) -> None:
    cells = []
    for row in rows:
        counts = [str(row[name]) for name in ("equal", "differ", "only", "undecided")]
        seconds = [shown(row[name] and row[name][measure], 3) for name in ("bddcheck", "cec")]
        cells.append([row["key"], *counts, *seconds, shown(row["bddcheck"] and row["bddcheck"]["megabytes"], 0), row["cec says"]])
    print(table(["comparison", "equal", "differ", "only", "undecided", "bddcheck s", "cec s", "bddcheck MB", "cec says"], cells))
    decided = sum(row["equal"] + row["differ"] + row["only"] for row in rows)
    print(f"\n{decided} of {decided + sum(row['undecided'] for row in rows)} pairs have a verdict")
    by_cec = [row["cec says"] for row in rows]
    print(
        f"of {len(rows)} comparisons bddcheck decides {sum(map(is_decided, rows))}, cec {by_cec.count('equal') + by_cec.count('different')}"
    )
    print(f"cec refuses {by_cec.count('refused')}")


def print_ratios(rows: list[Row], measure: str) -> None:
    """The geometric means of bddcheck's seconds by those of cec, for each letter, where both have decided all."""
    both = [row for row in rows if is_decided(row) and row["cec"]]
    for letter in sorted({row["key"].split()[-1] for row in both}):
        of_letter = [row for row in both if row["key"].split()[-1] == letter]
        mean = geometric_mean(row["bddcheck"][measure] / max(row["cec"][measure], 0.001) for row in of_letter)
        print(f"{letter}: both decide {len(of_letter)}, bddcheck's seconds by cec's {shown(mean)} in the geometric mean")


def count_verdicts(settings: argparse.Namespace) -> None:
    measure = "clock" if settings.clock else "processor"
    said = {"seconds": settings.seconds, "memory": settings.memory, "options": settings.options, "repeats": settings.repeats}
    if settings.clock:
        said["of"] = "the clock"
    peers = {"abc": abc_version()}
    what = "Each comparison by the bare command, and by abc's cec: verdicts, seconds, peak memory"
    if not settings.clock:
        what = what.replace("bare command", "bare command with one worker")
    results = Results("designs", what, settings, said, peers)
    launcher, keys = Launcher(), []
    for key, files in comparisons(settings.folders, settings.letters, settings.only):
        keys.append(key)
        if key not in results:
            results.begin()
            row = results.add(key, compared(launcher, files, pathlib.Path(launcher.folder.name), settings))
            say(key, *(shown(row[name] and row[name][measure], 3) for name in ("bddcheck", "cec")), row["cec says"])
    if not settings.only:
        results.keep_only(keys)
    rows = [results.rows[key] for key in keys]
    print_verdicts(rows, measure)
    print_ratios(rows, measure)


def best_order(launcher: Launcher, files: list[pathlib.Path], settings: argparse.Namespace) -> tuple[float, str] | None:
    """The least processor time of the single orders that report all pairs in time, with the order; none if no order does."""
    times = []
    for order in ORDERS:
        one = launcher.run([settings.program, "--order", order, "--workers", "1", *files], settings.seconds)
        if one.status in (0, 1):
            times.append((one.processor, order))
    return min(times, default=None)


def last_budget(said: str) -> int | None:
    """The budget of the attempt that decided; none if cones did."""
    found = re.findall(r"^bddcheck: order [\w-]+ decided within (\d+) nodes$", said, re.M)
    return int(found[-1]) if found else None


def looked_back(launcher: Launcher, files: list[pathlib.Path], settings: argparse.Namespace) -> Row:
    best = best_order(launcher, files, settings)
    if best is None:
        return {"order": None}
    bare = launcher.run([settings.program, "--workers", "1", "--verbose", *files], 20 * settings.seconds)
    if bare.status not in (0, 1):
        sys.exit(f"status {bare.status} of the bare command on {files[0]}, which {best[1]} decides in {best[0]:.3f} s")
    return {"order": best[1], "seconds": round(best[0], 4), "bare": round(bare.processor, 4), "budget": last_budget(bare.errors)}


def look_back(settings: argparse.Namespace) -> None:
    said = {"seconds": settings.seconds}
    what = "Seconds of processor time of the best single order in hindsight and of the bare command, one worker"
    results = Results("hindsight", what, settings, said)
    launcher, keys = Launcher(), []
    for key, files in comparisons(settings.folders, "b", settings.only):
        keys.append(key)
        if key not in results:
            results.begin()
            results.add(key, looked_back(launcher, files, settings))
    if not settings.only:
        results.keep_only(keys)
    rows = [results.rows[key] for key in keys if results.rows[key]["order"]]
    times = {row["key"]: row["bare"] / max(row["seconds"], 0.001) for row in rows}
    cells = [
        [row["key"], row["order"], shown(row["seconds"], 3), shown(row["bare"], 3), shown(times[row["key"]]), str(row["budget"] or "cones")]
        for row in rows
    ]
    print(table(["comparison", "best order", "s", "bare command s", "times", "budget"], cells))
    if rows:
        large = [times[row["key"]] for row in rows if row["budget"] is None or row["budget"] > LARGE]
        more = [row["bare"] - row["seconds"] for row in rows if row["seconds"] <= EASY]
        print(f"\n{len(rows)} of {len(keys)} comparisons: {geometric_mean(times.values()):.2f} times in the geometric mean")
        print(f"{len(large)} of them beyond {LARGE} nodes: at most {shown(max(large, default=None))} times")
        print(f"{len(more)} of them within {EASY} s by an order: up to {shown(max(more, default=None), 3)} s more")


def main() -> None:
    parser = parser_of(__doc__, seconds=10, repeats=3)
    parser.add_argument("folders", metavar="FOLDER", nargs="+", type=pathlib.Path, help="This folder has folders of pairs.")
    parser.add_argument("--clock", action="store_true", help="Seconds are those on the clock, for the bare command with its own workers.")
    parser.add_argument("--letters", default="bc", help="These of each folder's files are compared with a.bench; the default is bc.")
    parser.add_argument(
        "--memory", type=int, default=4000, help="A run of bddcheck has so many megabytes; the default is 4000, and 0 is no bound."
    )
    parser.add_argument("--options", default="", help="These options are those of each run of bddcheck.")
    parser.add_argument("--only", default="", help="Only pairs with this text in their names are measured.")
    parser.add_argument("--without-cec", action="store_true", help="Only bddcheck is run.")
    parser.add_argument("--hindsight", action="store_true", help="The bare command is compared with the best single order.")
    settings = parser.parse_args()
    look_back(settings) if settings.hindsight else count_verdicts(settings)


if __name__ == "__main__":
    main()
