#!/usr/bin/env python3
"""Refuses growths and starts of threads to library calls, by the built programs of tests.

usage: tests/growths.py FOLDER [--jobs J]

FOLDER is the one of the crates. The library refuse.c is compiled by cc and preloaded to the program that `rt test` leaves
in the crate's out/. Of each test below the N-th growth or start is refused for N = 1, 2, .. until some runs in a row meet
no refusal. Each run must end in time: the test has passed, or it has failed with want of memory or of a worker; never an
assertion, a fault or a hang. A test whose program is missing or older than a source is skipped.
"""
from __future__ import annotations

import os
import pathlib
import re

import harness
from harness import Run, Tally, run
from refusals import compiled

# Crates, and their tests by name.
TESTS = [
    # `expand_all`: one request by four threads, and two requests by two.
    ("wave_tests", "expanded::merged_roots"),
    ("wave_tests", "refused::refused_expansion"),
    # `reduce` over one request that two roots ask for.
    ("wave_tests", "refused::refused_reduction"),
    # Three operations over three levels: by a core, on the caller's thread and with workers. What was there is found after a refusal,
    # and the same wave then gives the right diagrams.
    ("wave_tests", "refused::refused_wave"),
    # A wave within its bound and one past it, by four threads: if a start is refused, the answers are the same.
    ("wave_tests", "bounds::bound_without_a_thread"),
]
# How a test says that it was refused something.
REFUSED = re.compile(rb"\b(error|memory|a variable|a variable is refused|out of memory): (AllocError|AllocFailed|OutOfMemory|NoWorker)\b")
HANGS = 60
# Schedules differ, so that one run may ask for less than the next.
IN_A_ROW = 5
MOST = 5_000


def is_newer_than_sources(program: pathlib.Path, crates: pathlib.Path) -> bool:
    """Whether the program is there, and no source is newer."""
    if not program.is_file():
        return False
    built = program.stat().st_mtime
    sources = (file for file in crates.glob("*/[!o]*/**/*") if file.is_file())
    return all(file.stat().st_mtime <= built for file in sources)


def run_refused(program: pathlib.Path, test: str, library: str, place: str, at: int) -> tuple[Run, bool]:
    """A run with the N-th growth or start refused, and whether it met that."""
    note = os.path.join(place, f"note.{os.getpid()}")
    seen = run([program, test], b"", HANGS, {"LD_PRELOAD": library, "REFUSE": "gs", "AT": str(at), "MET": note})
    has_met = os.path.exists(note)
    if has_met:
        os.unlink(note)
    return seen, has_met


def fault_of(seen: Run, has_met: bool) -> str | None:
    """What is wrong with a run, or None."""
    said = seen.out + seen.err
    if seen.status == 0 and b"test result: ok" in said:
        return None
    if has_met and seen.status is not None and REFUSED.search(said) and b"assertion failed" not in said:
        return None
    return str(seen)


def try_test(program: pathlib.Path, test: str, library: str, place: str) -> tuple[int, int, int, str | None]:
    """How many runs of a test there were, how many met a refusal, how many of these passed, and what was wrong."""
    tried = met = passed = row = 0
    for at in range(1, MOST):
        seen, has_met = run_refused(program, test, library, place, at)
        tried, met, passed = tried + 1, met + has_met, passed + (has_met and seen.status == 0)
        row = 0 if has_met else row + 1
        fault = fault_of(seen, has_met)
        if fault:
            return tried, met, passed, f"at {at}: {fault}"
        if row == IN_A_ROW:
            return tried, met, passed, None
    return tried, met, passed, "each run met a refusal"


def main() -> None:
    parser = harness.parser_of(__doc__)
    parser.add_argument("crates", metavar="FOLDER", type=pathlib.Path, help="This is the folder of the crates.")
    parser.add_argument("--jobs", type=int, default=2, help="So many tests are tried at the same time; the default is 2.")
    settings = parser.parse_args()
    tally, tasks = Tally("growths"), []
    with harness.folder() as place, harness.pool(settings.jobs) as pool:
        library = compiled(place)
        for crate, test in TESTS:
            program = settings.crates.resolve() / crate / "out" / f"{crate}_tests"
            if is_newer_than_sources(program, settings.crates):
                tasks.append((test, pool.submit(try_test, program, test, library, place)))
            else:
                tally.skip(f"{test}: there is no program of these sources in {crate}, where `rt test` leaves it")
        for test, task in tasks:
            tried, met, passed, fault = task.result()
            tally.check(f"{test}: {tried} runs", fault is None and met > 0, fault or "nothing was refused")
            tally.figures(f"{test}: {tried} runs, {met} met a refusal, {passed} of these passed")
    tally.finish()


if __name__ == "__main__":
    harness.ended(main)
