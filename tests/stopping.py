#!/usr/bin/env python3
"""That a run with --seconds ends in time, and that what it reports is what a longer run reports.

usage: tests/stopping.py PROGRAM

Two multipliers of sixteen bits, whose diagrams no run here builds whole, are compared within two seconds, in each way to find an order and
in a named order, by one worker and by four. Each run ends within four seconds. A pair of the two is equal, and a third multiplier, with a
faulty gate, differs if patterns show it: a run that was stopped never reports the opposite. Two multipliers of ten bits are compared
to the end, too, so that the verdicts of a run that was stopped can be compared with those. A run that ends before its time is over is the
same as one without --seconds.
"""
from __future__ import annotations

import json
import pathlib
import sys
import time
from collections.abc import Iterable

import harness
from harness import C17, C17B, C17_DIFFERS, TOP, Run, Tally, run, written
from objects import fits
from workers import made

sys.path.append(str(TOP / "bench"))
import circuits  # noqa: E402

SECONDS, MOST = 2, 4
STOPPED = b"bddcheck: stopped after 2 seconds\n"
LEFT = "bddcheck: the number of undecided pairs is %d; the run was stopped before all attempts had their end, and more --seconds may be enough\n"
FAULT = STOPPED + b"bddcheck: build: stopped before its end\nbddcheck: "
FINDING = ["auto", "cones", "merge"]
SINGLE = ["declared", "msb-first", "best"]


def product(place: str, name: str, bits: int, multiply: circuits.Multiply) -> pathlib.Path:
    return written(place, f"{name}{bits}.bench", made(circuits.multiplier, bits, multiply))


def faulty(place: str, path: pathlib.Path) -> pathlib.Path:
    """The netlist, in which the first OR is an AND."""
    text = path.read_bytes()
    return written(place, "faulty.bench", text.replace(b"= OR(", b"= AND(", 1))


def verdicts(report: bytes) -> dict[str, str]:
    """The verdict of each pair of outputs of a report, by name."""
    said = {}
    for line in report.decode().splitlines():
        word, name = (line.split() + [""])[:2]
        if word in ("EQUAL", "DIFFER", "UNDECIDED"):
            said[name] = word
    return said


def timed(words: Iterable[object]) -> tuple[Run, float]:
    """A run, and how many seconds it took."""
    begun = time.monotonic()
    seen = run(words, seconds=60)
    return seen, time.monotonic() - begun


def are_among(some: dict[str, str], all_: dict[str, str]) -> bool:
    """Whether each verdict is one of these, or none."""
    return some.keys() == all_.keys() and all(word in ("UNDECIDED", all_[name]) for name, word in some.items())


def stopped(program: str, tally: Tally, pair: list[pathlib.Path], wanted: dict[str, str]) -> None:
    """By each way to find an order there is a report, whose verdicts are among those that are wanted."""
    for order in FINDING:
        for workers in (1, 4):
            name = f"{order}, {workers} workers"
            seen, took = timed([program, "--order", order, "--workers", workers, "--seconds", SECONDS, *pair])
            tally.check(f"{name}: it ends in time", took <= MOST, f"{took:.1f} seconds")
            left = sum(word == "UNDECIDED" for word in verdicts(seen.out).values())
            tally.check(f"{name}: it says that it was stopped, and why pairs are left", seen.err == STOPPED + (LEFT % left).encode(), seen)
            tally.check(f"{name}: its verdicts", are_among(verdicts(seen.out), wanted), seen)
            status = 1 if "DIFFER" in verdicts(seen.out).values() else 3
            tally.check(f"{name}: its status", seen.status == status, seen)


def refused(program: str, tally: Tally, pair: list[pathlib.Path]) -> None:
    """In one order, and in the best, there is a fault in place of a report."""
    for order in SINGLE:
        seen, took = timed([program, "--order", order, "--seconds", SECONDS, *pair])
        tally.check(f"{order}: it ends in time", took <= MOST, f"{took:.1f} seconds")
        tally.check(f"{order}: it has a fault", seen.status == 3 and not seen.out and seen.err.startswith(FAULT), seen)


def as_json(program: str, tally: Tally, pair: list[pathlib.Path]) -> None:
    seen, _ = timed([program, "--format", "json", "--seconds", SECONDS, *pair])
    report = json.loads(seen.out)
    schema = json.loads((TOP / "docs" / "report.schema.json").read_text())
    tally.check("json: it says that the run was stopped", report.get("stopped") is True and report["undecided"] > 0, seen)
    tally.check("json: it has the form of the schema", fits(report, schema, schema), seen)


def unstopped(program: str, tally: Tally, place: str) -> None:
    """A run whose time is not over."""
    pair = [written(place, "c17", C17), written(place, "c17b", C17B)]
    tally.same("a run that ends", run([program, "--seconds", 600, *pair]), 1, C17_DIFFERS, b"")
    for words in (["--format", "json"], ["--order", "cones"], ["--order", "best"], ["--verbose"]):
        seen = run([program, *words, "--seconds", 600, *pair])
        tally.check(f"a run that ends by {words}", seen == run([program, *words, *pair]), seen)


def main() -> None:
    program, tally = harness.program_of(__doc__), Tally("stopping")
    with harness.folder() as place:
        pair = [product(place, way.__name__, 16, way) for way in (circuits.array, circuits.wallace)]
        equal = {f"p{i}": "EQUAL" for i in range(32)}
        stopped(program, tally, pair, equal)
        refused(program, tally, pair)
        as_json(program, tally, pair)
        wrong = [pair[0], faulty(place, pair[1])]
        seen, took = timed([program, "--seconds", SECONDS, *wrong])
        said = verdicts(seen.out)
        tally.check("a faulty gate: it ends in time", took <= MOST, f"{took:.1f} seconds")
        tally.check("a faulty gate: it is found", seen.status == 1 and "DIFFER" in said.values(), seen)
        short = [product(place, way.__name__, 10, way) for way in (circuits.array, circuits.wallace)]
        whole = run([program, *short], seconds=600)
        tally.check("ten bits: a run to the end", whole.status == 0, whole)
        seen, took = timed([program, "--seconds", 1, *short])
        tally.check("ten bits: its verdicts", are_among(verdicts(seen.out), verdicts(whole.out)), seen)
        unstopped(program, tally, place)
    tally.finish()


if __name__ == "__main__":
    main()
