#!/usr/bin/env python3
"""Large netlists that merging has to decide, in time that is linear in them, and in memory in proportion.

usage: tests/merging.py PROGRAM

Each pair is compared by `--order merge` within a limit of one node, so that outputs are equal only by signals that were merged. One worker
and four workers compare netlists of 100,000 gates: chains, and gates that are all equal; netlists of 5,000 XORs, of which many are not in
both; and netlists of some gates that are equal to an input, although not each window shows it. Four workers compare a pair whose graph has
a million gates, within an address space of 4 GB, and one whose graph has a quarter of them, which has to take at least an eighth of the
processor time.
"""
from __future__ import annotations

import pathlib
import random
import resource
import sys
from collections.abc import Callable

import harness
from harness import TOP, Tally, run, written

sys.path.append(str(TOP / "bench"))
import circuits  # noqa: E402

INPUTS = 64
GATES = 100_000
# Of each netlist of the largest pair; the graph of both has twice as many.
MOST_GATES = 500_000
# A run that takes so many seconds hangs.
HANGS = 600
# The most address space, in bytes.
SPACE = 4 << 30
# A way to make the first or the second netlist of a pair of some size. It gives the signals of the outputs.
Build = Callable[[circuits.Netlist, int, bool], list[str]]


def chained_xors(net: circuits.Netlist, count: int, is_second: bool) -> list[str]:
    """One chain over the inputs, each of which comes many times: from the first on, or from the last on."""
    inputs = net.inputs("x", INPUTS)
    return [(circuits.xors_backward if is_second else circuits.xors)(net, inputs, count)]


def random_xors(net: circuits.Netlist, count: int, is_second: bool) -> list[str]:
    """XORs of two signals shortly before them. If the second of these is an XOR, the second netlist adds its operands one by one."""
    rng = random.Random(count)
    signals, parts = net.inputs("x", INPUTS), dict[str, tuple[str, str]]()
    for _ in range(count):
        one, other = (signals[-1 - place] for place in rng.sample(range(INPUTS), 2))
        if is_second and other in parts:
            begin, end = parts[other]
            made = net.gate("XOR", net.gate("XOR", one, begin), end)
        else:
            made = net.gate("XOR", one, other)
        parts[made] = one, other
        signals.append(made)
    return signals[-8:]


def steps(net: circuits.Netlist, count: int, is_second: bool) -> list[str]:
    """One chain of AND and OR in turn, and the chain of their complements by De Morgan's laws."""
    inputs = net.inputs("x", INPUTS)
    return [(circuits.or_and_steps if is_second else circuits.and_or_steps)(net, inputs, count)]


def equal_gates(net: circuits.Netlist, count: int, is_second: bool) -> list[str]:
    """Gates of one function: the conjunction of two inputs."""
    pair = net.inputs("x", 2)
    if is_second:
        pair = [net.gate("NOT", signal) for signal in pair]
    return [net.gate("NOR" if is_second else "AND", *pair) for _ in range(count)][-8:]


def disguised(net: circuits.Netlist, count: int, is_second: bool) -> list[str]:
    """Gates that are equal to one input, whatever the states of a shift register with feedback by an AND and an XOR are."""
    same = net.input("a")
    inner, outer = ("OR", "AND") if is_second else ("AND", "OR")
    signals = net.inputs("x", INPUTS)
    made = []
    for _ in range(count):
        both = net.gate("AND", signals[-INPUTS // 2], signals[-INPUTS])
        signals.append(net.gate("XOR", signals[-1], both))
        made.append(net.gate(outer, net.gate(inner, same, signals[-1]), net.gate(inner, same, net.gate("NOT", signals[-1]))))
    return made[-8:]


# By name how the netlists of a pair are made, and of which size.
PAIRS: dict[str, tuple[Build, int]] = {
    "a chain of XORs": (chained_xors, GATES),
    "XORs of XORs": (random_xors, GATES // 20),
    "a chain of AND and OR": (steps, GATES),
    "equal gates": (equal_gates, GATES),
    "gates that are equal to an input": (disguised, 100),
}


def made(place: str, build: Build, size: int) -> tuple[list[pathlib.Path], bytes]:
    """The files of a pair, and the report if its outputs are equal."""
    pair, outputs = [], list[str]()
    for is_second in (False, True):
        net = circuits.Netlist()
        outputs = build(net, size, is_second)
        net.outputs("o", outputs)
        pair.append(written(place, f"{build.__name__}_{size}_{int(is_second)}", net.text().encode()))
    said = [f"EQUAL o{number}" for number in range(len(outputs))]
    return pair, harness.lines(*said, f"{len(outputs)} equal, 0 different, 0 unmatched")


def bound() -> None:
    resource.setrlimit(resource.RLIMIT_AS, (SPACE, SPACE))


def processor_time() -> float:
    """How many seconds the runs so far have taken of a processor."""
    used = resource.getrusage(resource.RUSAGE_CHILDREN)
    return used.ru_utime + used.ru_stime


def merged(program: str, tally: Tally, name: str, workers: int, pair: list[pathlib.Path], report: bytes) -> float:
    """Compares a pair, which has to have this report, and returns the processor time that it took."""
    before = processor_time()
    words = [program, "--order", "merge", "--limit", 1, "--workers", workers, *pair]
    tally.same(name, run(words, seconds=HANGS, preexec_fn=bound), 0, report, b"")
    took = processor_time() - before
    tally.figures(f"{name}: {took:.1f} seconds of a processor")
    return took


def main() -> None:
    program, tally = harness.program_of(__doc__), Tally("merging")
    with harness.folder() as place:
        for name, (build, size) in PAIRS.items():
            pair, report = made(place, build, size)
            for workers in (1, 4):
                merged(program, tally, f"{name}, by {workers}", workers, pair, report)
        part, whole = (
            merged(program, tally, f"{2 * size} gates", 4, *made(place, chained_xors, size)) for size in (MOST_GATES // 4, MOST_GATES)
        )
        tally.check("four times as many gates take no more than eight times as long", whole <= 8 * part, (part, whole))
    tally.finish()


if __name__ == "__main__":
    harness.ended(main)
