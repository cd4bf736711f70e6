"""Runs programs within bounds of time and memory, and reports what they took."""
from __future__ import annotations

import math
import pathlib
import statistics
import subprocess
import sys
import tempfile
import time
from collections.abc import Callable, Iterable, Sequence
from dataclasses import dataclass
from typing import Any

HERE = pathlib.Path(__file__).resolve().parent


@dataclass
class Run:
    """What one run took: seconds on the clock, seconds of processor time of all threads, and megabytes at the peak of memory.

    The status is negative if a signal ended the run: -9, or -24, if it was stopped at its bound of time.
    """

    clock: float
    processor: float
    megabytes: float
    status: int
    output: str
    errors: str


class Launcher:
    """Runs programs by once.c, one after the other."""

    def __init__(self) -> None:
        self.folder = tempfile.TemporaryDirectory()
        self.once, self.note = (pathlib.Path(self.folder.name) / name for name in ("once", "note"))
        subprocess.run(["cc", "-O2", "-o", self.once, HERE / "once.c"], check=True)

    def run(self, words: Sequence[object], seconds: float, clock: float | None = None, megabytes: int = 0) -> Run:
        """One run within so many seconds of processor time, and on the clock (four times as many if that is not given)."""
        bounds = [self.note, math.ceil(seconds), math.ceil(clock or 4 * seconds), megabytes]
        child = subprocess.run([str(word) for word in [self.once, *bounds, *words]], capture_output=True, check=True)
        clock, processor, kib, status = map(int, self.note.read_text().split())
        texts = (text.decode(errors="replace") for text in (child.stdout, child.stderr))
        return Run(clock / 1e6, processor / 1e6, kib / 1024, status, *texts)


@dataclass
class Column:
    """What is run in turn with others: a command, its bounds as `Launcher.run` takes them, and whether a run has a right answer."""

    words: Sequence[object]
    bounds: dict[str, Any]
    is_right: Callable[[Run], bool]


def by_turns(
    launcher: Launcher, columns: Sequence[Column], repeats: int, fewest: int = 3, enough: float = 1.0, rest: float = 0.0
) -> list[list[Run]]:
    """Runs the columns in turn, one after the other, and again, up to `repeats` times; gives the runs of each.

    A column whose run has no right answer is not run again. After `fewest` turns it is enough if the runs of some column have taken
    `enough` seconds on the clock together.
    """
    runs: list[list[Run]] = [[] for _ in columns]
    for turn in range(repeats):
        if turn >= fewest and max(sum(run.clock for run in one) for one in runs) > enough:
            break
        for column, done in zip(columns, runs):
            if done and not column.is_right(done[-1]):
                continue
            time.sleep(rest)
            done.append(launcher.run(column.words, **column.bounds))
    return runs


def figures(column: Column, runs: list[Run]) -> dict[str, Any] | None:
    """The least and the median of each measure over the runs of a column; none if its last run has no right answer."""
    if not runs or not column.is_right(runs[-1]):
        return None
    found: dict[str, Any] = {"runs": len(runs)}
    for measure, digits in (("clock", 4), ("processor", 4), ("megabytes", 1)):
        numbers = [getattr(run, measure) for run in runs]
        found[measure] = round(min(numbers), digits)
        found[f"median_{measure}"] = round(statistics.median(numbers), digits)
    return found


def needed_nodes(
    launcher: Launcher, program: object, words: Sequence[object], seconds: float, most: int = (1 << 32) - 1, part: float = 0
) -> int | None:
    """The least node limit with which a run ends with its report, or one that is at most a `part` of it too large.

    None if that is more than `most`, or if a run within it takes more than its seconds.
    """

    def is_within(nodes: int) -> bool:
        return launcher.run([program, "--limit", nodes, *words], seconds).status in (0, 1)

    few, many = 0, min(1 << 10, most)
    while not is_within(many):
        if many == most:
            return None
        few, many = many, min(4 * many, most)
    while many - few > max(1, part * many):
        middle = (few + many) // 2
        few, many = (few, middle) if is_within(middle) else (middle, many)
    return many


def geometric_mean(numbers: Iterable[float | None]) -> float | None:
    known = [number for number in numbers if number]
    return math.exp(sum(map(math.log, known)) / len(known)) if known else None


def shown(number: float | None, digits: int = 2) -> str:
    return "-" if number is None else f"{number:.{digits}f}"


def ratio(this: float | None, that: float | None) -> float | None:
    """The first number by the second, if both are known."""
    return None if this is None or not that else this / that


def table(head: list[str], rows: Iterable[list[str]]) -> str:
    """The rows as a table in Markdown."""
    lines = [head, ["---"] + ["---:"] * (len(head) - 1), *rows]
    return "\n".join("| " + " | ".join(line) + " |" for line in lines)


def say(*words: object) -> None:
    print(*words, file=sys.stderr, flush=True)
