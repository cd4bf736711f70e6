#!/usr/bin/env python3
"""Counts the processor minutes that the proofs on this machine take, crate by crate, until it is stopped by SIGTERM or SIGINT.

usage: tools/processor_minutes.py

Every three seconds it reads /proc for the processes of the prover. The name of the crate is among the words of such a process:
the proofs of the crate, of its tests and of its planted bugs are counted together. What a process took after it was last read is
missed, so a figure may be too low by some seconds for each process. Lastly it prints a line with the minutes of each crate, the largest
first, and one with how many processors were busy on average in each ten minutes, by whatever process.
"""
from __future__ import annotations

import argparse
import os
import pathlib
import signal
import sys
import time
from types import FrameType

PROVER = "rattle"
SECONDS_BETWEEN = 3
SECONDS_OF_A_SPAN = 600
TICKS = os.sysconf("SC_CLK_TCK")


class Stopped(Exception):
    """A signal asks for the figures."""


def stop(number: int, frame: FrameType | None) -> None:
    raise Stopped


def crate_of(words: list[str]) -> str | None:
    """The crate that a process of the prover works on."""
    if "--crate-name" in words[:-1]:
        return words[words.index("--crate-name") + 1]
    return None


def seconds_of(process: pathlib.Path) -> tuple[str, float]:
    """The name of a process, and the processor seconds that it and those of its children that have ended took."""
    name, _, rest = (process / "stat").read_text().partition("(")[2].rpartition(")")
    fields = rest.split()
    return name, sum(map(int, fields[11:15])) / TICKS


def busy_ticks() -> int:
    """The ticks that all processors together have worked since the machine was started."""
    fields = [int(word) for word in pathlib.Path("/proc/stat").read_text().splitlines()[0].split()[1:9]]
    return sum(fields) - fields[3] - fields[4]


def read_provers(seen: dict[tuple[str, str], float]) -> None:
    """Notes what each process of the prover has taken so far."""
    for process in pathlib.Path("/proc").glob("[0-9]*"):
        try:
            name, seconds = seconds_of(process)
            if name == PROVER:
                crate = crate_of((process / "cmdline").read_bytes().decode(errors="replace").split("\0"))
                if crate:
                    seen[crate, process.name] = seconds
        except (OSError, IndexError, ValueError):
            continue  # It has ended meanwhile.


def main() -> int:
    parser = argparse.ArgumentParser(description=__doc__, formatter_class=argparse.RawDescriptionHelpFormatter)
    parser.parse_args()
    seen: dict[tuple[str, str], float] = {}
    spans: list[float] = []
    begun, ticks = time.monotonic(), busy_ticks()
    for number in (signal.SIGTERM, signal.SIGINT):
        signal.signal(number, stop)
    try:
        while True:
            read_provers(seen)
            time.sleep(SECONDS_BETWEEN)
            if time.monotonic() - begun >= SECONDS_OF_A_SPAN:
                now, worked = time.monotonic(), busy_ticks()
                spans.append((worked - ticks) / TICKS / (now - begun))
                begun, ticks = now, worked
    except Stopped:
        pass
    crates: dict[str, float] = {}
    for (crate, _), seconds in seen.items():
        crates[crate] = crates.get(crate, 0) + seconds / 60
    largest = sorted(crates, key=lambda crate: -crates[crate])
    print("minutes of a processor by crate: " + ", ".join(f"{crate} {crates[crate]:.1f}" for crate in largest))
    print("processors busy in each ten minutes: " + " ".join(f"{span:.1f}" for span in spans))
    return 0


if __name__ == "__main__":
    sys.exit(main())
