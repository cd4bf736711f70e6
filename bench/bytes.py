#!/usr/bin/env python3
"""Measures which functions asked for the memory that bddcheck has at its peak, by node and by request; writes results/bytes.json.

usage: bench/bytes.py PROGRAM [FOLDER ..] [--waves N,N ..] [--threshold PERCENT] [--anew]

Each FOLDER has a pair, a.bench and b.bench, and their order. For each N (18) the netlist of workers.py whose run is nearly one wave of
2^(N + 1) requests is compared with itself. Both are run by one worker. The number of nodes is the least limit that is not refused. The
table in Markdown has each function that asked for PERCENT (1) of the heap or more: its bytes, also by node and, of a wave, by request,
and after a function of the library the functions that call it.

It needs valgrind and objdump (Debian: valgrind, binutils); the product needs neither.
"""
from __future__ import annotations

import argparse
import collections
import pathlib
import re
import subprocess
import tempfile
from collections.abc import Iterable

from measure import Launcher, needed_nodes, shown, table
from results import Results, Row, first_line, numbers, parser_of
from workers import write_wave

ALLOCATORS = ("rattle_alloc", "rattle_realloc")
LIBRARY = ("std_", "std::", "core::", "indexmap::")
# By function those that call it.
Callers = dict[str, set[str]]


def callers_in(program: str) -> Callers:
    """The functions that call each function, by the program's code."""
    code = subprocess.run(["objdump", "-d", "--no-show-raw-insn", program], stdout=subprocess.PIPE, text=True, check=True).stdout
    callers: Callers = collections.defaultdict(set)
    inside = ""
    for line in code.splitlines():
        if head := re.match(r"[0-9a-f]+ <(.*)>:$", line):
            inside = head.group(1)
        elif call := re.search(r"\t(?:call|jmp)\s+[0-9a-f]+ <([^+]*?)>$", line):
            callers[call.group(1)].add(inside)
    return callers


def users_of(name: str, callers: Callers) -> list[str]:
    """The function itself, or of a library's the nearest ones above it that are none."""
    found, seen, below = set(), {name}, [name]
    while below:
        one = below.pop()
        if not one.startswith(LIBRARY):
            found.add(one)
            continue
        below += callers[one] - seen
        seen |= callers[one]
    return sorted(found)


def plain(name: str) -> str:
    """A function's name without its type arguments."""
    return re.sub(r"::<.*", "", name)


def holders(words: list[str], note: pathlib.Path, threshold: float) -> collections.Counter[str]:
    """The bytes at the peak by the function that asked for them."""
    massif = ["valgrind", "-q", "--tool=massif", "--depth=2", f"--threshold={threshold}", f"--massif-out-file={note}"]
    massif += [f"--alloc-fn={name}" for name in ALLOCATORS]
    subprocess.run([*massif, *words], stdout=subprocess.DEVNULL, check=True)
    peak = next(part for part in note.read_text().split("\nsnapshot=") if "heap_tree=peak" in part)
    found = collections.Counter[str]()
    for size, name in re.findall(r"^ n\d+: (\d+) 0x\w+: (.*?) \(in ", peak, re.M):
        found[name] += int(size)
    return found


def wave(scratch: pathlib.Path, size: int) -> tuple[list[str], int]:
    """The netlist of one wave as words of a run, and how many requests it has."""
    netlist = str(write_wave(scratch / f"wave{size}", size) / "a.bench")
    return ["--order", "declared", netlist, netlist], 2 << size


def pair(folder: pathlib.Path) -> tuple[list[str], None]:
    """A pair's words, and no number of requests."""
    return ["--order-file", *(str(folder / name) for name in ("order", "a.bench", "b.bench"))], None


def measured(
    launcher: Launcher,
    program: str,
    scratch: pathlib.Path,
    words: list[str],
    requests: int | None,
    callers: Callers,
    settings: argparse.Namespace,
) -> Row:
    nodes = needed_nodes(launcher, program, words, settings.seconds, part=0.001)
    held = holders([program, "--workers", "1", *words], scratch / "note", settings.threshold)
    parts = []
    for name, size in held.most_common():
        users = ", ".join(sorted({plain(user) for user in users_of(name, callers)} - {plain(name)}))
        parts.append([plain(name), users, size])
    return {"nodes": nodes, "requests": requests, "bytes": parts}


def print_table(rows: Iterable[Row]) -> None:
    cells = []
    for row in rows:
        for name, users, size in row["bytes"]:
            by_request = shown(size / row["requests"], 1) if row["requests"] else "-"
            cells.append([row["key"], name, users, str(size), shown(size / row["nodes"], 1), by_request])
    print(table(["run", "function", "called by", "bytes", "by node", "by request"], cells))


def main() -> None:
    parser = parser_of(__doc__, seconds=60, repeats=1)
    parser.add_argument(
        "folders", metavar="FOLDER", nargs="*", type=pathlib.Path, help="This folder has a pair: a.bench, b.bench and perhaps an order."
    )
    parser.add_argument("--waves", type=numbers, default=[18], help="Waves of so many products are measured; the default is 18.")
    parser.add_argument("--threshold", type=float, default=1.0, help="Functions with less of 100 are left out; the default is 1.")
    settings = parser.parse_args()
    callers, launcher = callers_in(settings.program), Launcher()
    what = "Bytes on the heap at its peak by the function that asked for them, with its callers; one worker"
    peers = {"valgrind": first_line(["valgrind", "--version"], r"[0-9.]+")}
    results = Results("bytes", what, settings, {"threshold": settings.threshold}, peers)
    with tempfile.TemporaryDirectory() as name:
        scratch, keys = pathlib.Path(name), []
        runs: list[tuple[str, list[str], int | None]] = [(folder.name, *pair(folder)) for folder in settings.folders]
        runs += [(f"wave{size}", *wave(scratch, size)) for size in settings.waves]
        for key, words, requests in runs:
            keys.append(key)
            if key not in results:
                results.begin()
                results.add(key, measured(launcher, settings.program, scratch, words, requests, callers, settings))
        results.keep_only(keys)
    print_table(results.rows.values())


if __name__ == "__main__":
    main()
