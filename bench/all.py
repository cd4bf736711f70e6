#!/usr/bin/env python3
"""Measures everything that docs/PERFORMANCE.md has, and draws its plots.

usage: bench/all.py PROGRAM CIRCUITS DESIGNS [FOLDER ..] [--only PART,PART ..] [--idle] [--anew]

CIRCUITS is a folder of pairs NAME/ with a.bench, b.bench and their order, as for peers.py, and DESIGNS and each FOLDER one of designs
NAME/ with a.bench, b.bench and, in some, c.bench, as for designs.py. On four processors that do nothing else it takes some 25 minutes;
each script bounds its runs. First come, one after the other, the parts whose figures need a machine that does nothing else:

workers   large diagrams by 1, 2 and 4 workers, in named orders and by the bare command
cones     one worker and four by cones, on those of CONES below that are in the folders
threads   what the threads of four workers do and wait for
peers     1, 2 and 4 workers against BuDDy
turns     each design by the bare command, 4 workers against 1
designs   the verdicts on designs and their times, beside abc's cec

and then, side by side, those that count, or take processor time of one worker only:

hindsight nodes reader bytes instructions

A part goes on after the results that it has, if program, machine and settings are the same. With --idle the parts of the first group
measure again what was measured beside other work; --anew measures all again. The tables go to standard output, and how long each part
took to standard error. The status is 1 if a part failed.
"""
from __future__ import annotations

import argparse
import concurrent.futures
import pathlib
import subprocess
import sys
import time
from typing import Any

HERE = pathlib.Path(__file__).resolve().parent
CONES = ["rr128", "rv32_ex_pipe", "add128_ripple_csel", "alu64", "constmul16", "ff4000"]
WIDE = ["mul9", "mul10", "pairs18", "pairs20"]
SIDE_BY_SIDE = 3
# By name the script of a part and its arguments.
Parts = dict[str, list[Any]]


def parts_of(settings: argparse.Namespace) -> tuple[Parts, Parts]:
    """The two groups of parts, each with its script and arguments."""
    folders = [settings.designs, *settings.folders]

    def circuits(names: list[str]) -> list[pathlib.Path]:
        return [settings.circuits / name for name in names if (settings.circuits / name / "order").exists()]

    cones = [folder / name for name in CONES for folder in folders if (folder / name / "a.bench").exists()]
    timed: Parts = {
        "workers": ["workers.py", settings.circuits],
        "cones": ["cones.py", *cones],
        "threads": ["threads.py", *circuits(WIDE)],
        "peers": ["peers.py", settings.circuits],
        "turns": ["turns.py", *folders],
        "designs": ["designs.py", *folders],
    }
    counted: Parts = {
        "hindsight": ["designs.py", *folders, "--hindsight", "--seconds", "2"],
        "nodes": ["orders.py", settings.circuits],
        "reader": ["reader.py", "--abc"],
        "bytes": ["bytes.py", *circuits(["mul10"])],
        "instructions": ["instructions.py", *circuits(["mul10", "pairs20"])],
    }
    return timed, counted


def measured(name: str, script: str, arguments: list[Any], is_timed: bool, settings: argparse.Namespace) -> bool:
    """Whether a part was measured. Its tables are printed together when it is over."""
    begun = time.monotonic()
    added = ["--anew"] * settings.anew + ["--idle"] * (settings.idle and is_timed)
    words = [str(word) for word in [HERE / script, settings.program, *arguments, *added]]
    done = subprocess.run(words, stdout=subprocess.PIPE, stderr=subprocess.PIPE, text=True)
    print(f"\n## {name}\n\n{done.stdout}", flush=True)
    minutes = (time.monotonic() - begun) / 60
    print(f"all.py: {name}: {minutes:.1f} minutes, status {done.returncode}", file=sys.stderr, flush=True)
    if done.returncode:
        print(done.stderr[-2000:], file=sys.stderr, flush=True)
    return done.returncode == 0


def main() -> None:
    parser = argparse.ArgumentParser(description=__doc__, formatter_class=argparse.RawDescriptionHelpFormatter)
    parser.add_argument("program", type=pathlib.Path, help="This is the bddcheck that is measured.")
    parser.add_argument("circuits", type=pathlib.Path, help="This folder has folders of pairs with their order files.")
    parser.add_argument("designs", type=pathlib.Path, help="This folder has folders of pairs of designs.")
    parser.add_argument("folders", nargs="*", type=pathlib.Path, help="This folder has more folders of pairs of designs.")
    parser.add_argument("--only", type=lambda text: text.split(","), help="Only these parts are measured, with commas between them.")
    parser.add_argument("--idle", action="store_true", help="What was measured beside other work is measured again.")
    parser.add_argument("--anew", action="store_true", help="What the files of results have is measured again.")
    settings = parser.parse_args()
    timed, counted = parts_of(settings)
    if unknown := set(settings.only or []) - {*timed, *counted}:
        sys.exit(f"no such part: {', '.join(sorted(unknown))}")

    def wanted(group: Parts) -> list[tuple[Any, ...]]:
        return [(name, *words) for name, words in group.items() if not settings.only or name in settings.only]

    fine = [measured(name, script, words, True, settings) for name, script, *words in wanted(timed)]
    with concurrent.futures.ThreadPoolExecutor(SIDE_BY_SIDE) as pool:
        running = [pool.submit(measured, name, script, words, False, settings) for name, script, *words in wanted(counted)]
        fine += [one.result() for one in running]
    fine.append(subprocess.run([HERE / "plots.py"]).returncode == 0)
    sys.exit(0 if all(fine) else 1)


if __name__ == "__main__":
    main()
