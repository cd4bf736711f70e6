#!/usr/bin/env python3
"""Ended or stopped in mid-run, the program leaves no partial report.

usage: tests/signals.py PROGRAM
"""
from __future__ import annotations

import os
import signal
import subprocess
import time
from typing import BinaryIO

import harness
from harness import C17, C17B, C17_DIFFERS, Run, Tally, written
from refusals import products


def heed_interrupts() -> None:
    """What a shell starts in the background ignores SIGINT, and so would the program."""
    signal.signal(signal.SIGINT, signal.SIG_DFL)


def long_run(program: str, workers: int, place: str, out: BinaryIO) -> subprocess.Popen[bytes]:
    """A run that takes seconds; it is seen to be at work before this returns."""
    wide = written(place, "wide", products(21))
    words = [program, "--order", "declared", "--workers", str(workers), str(wide), str(wide)]
    child = subprocess.Popen(words, stdout=out, stderr=subprocess.PIPE, preexec_fn=heed_interrupts)
    begun = time.monotonic()
    while processor_time(child.pid) < 0.2 and child.poll() is None and time.monotonic() - begun < 60:
        time.sleep(0.01)
    return child


def processor_time(pid: int) -> float:
    with open(f"/proc/{pid}/stat") as stat:
        fields = stat.read().rsplit(")", 1)[1].split()
    return (int(fields[11]) + int(fields[12])) / os.sysconf("SC_CLK_TCK")


def ended(program: str, tally: Tally, number: signal.Signals, workers: int, place: str) -> None:
    """To a file, since that shows all that was ever written."""
    path = os.path.join(place, "report")
    with open(path, "wb") as out:
        child = long_run(program, workers, place, out)
        was_running = child.poll() is None
        child.send_signal(number)
        try:
            errors = child.communicate(timeout=60)[1]
        except subprocess.TimeoutExpired:
            child.kill()
            errors = child.communicate()[1]
    with open(path, "rb") as report:
        seen = Run(child.returncode, report.read(), errors)
    name = f"{signal.Signals(number).name}, {workers} workers"
    tally.check(f"{name}: it was in mid-run", was_running, seen)
    tally.same(name, seen, -number, b"", b"")


def continued(program: str, tally: Tally, place: str) -> None:
    """Stopped and continued while it waits for input."""
    child = subprocess.Popen([program], stdin=subprocess.PIPE, stdout=subprocess.PIPE, stderr=subprocess.PIPE)
    assert child.stdin
    child.stdin.write(C17)
    child.stdin.flush()
    for _ in range(3):
        time.sleep(0.05)
        child.send_signal(signal.SIGSTOP)
        time.sleep(0.05)
        child.send_signal(signal.SIGCONT)
    out, err = child.communicate(b"%%\n" + C17B, timeout=60)
    tally.same("stopped and continued", Run(child.returncode, out, err), 1, C17_DIFFERS, b"")


def main() -> None:
    program, tally = harness.program_of(__doc__), Tally("signals")
    with harness.folder() as place:
        for number in (signal.SIGINT, signal.SIGTERM):
            for workers in (1, 4):
                ended(program, tally, number, workers, place)
        continued(program, tally, place)
    tally.finish()


if __name__ == "__main__":
    main()
