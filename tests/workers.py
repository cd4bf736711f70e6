#!/usr/bin/env python3
"""That the report is the same by any number of workers, and so are the attempts that are given up.

usage: tests/workers.py PROGRAM [FOLDER ..] [--jobs J] [--seconds N] [--orders ORDER,ORDER ..]

Each pair is compared in the orders `auto`, `best`, `cones` and `merge` by 1, 2, 3, 4, 7 and 16 workers. The status, the report and what
--verbose says of each attempt have to be those of one worker, byte for byte. The pairs are some of examples/ and some that
bench/circuits.py writes, of which the multipliers of ten bits have waves that call workers in; if a FOLDER is given, they are instead
those of its folders NAME/: a.bench with b.bench and, if it is there, with c.bench. A run of such a pair that takes N (120) seconds is
stopped; if one worker takes as long, the pair is not tried in this order, and is counted. Without a FOLDER a multiplier of 12 by 11 bits
is compared in the default order too, within 1632 MB: its cones leave pairs undecided, and only the last attempts of the whole decide
them. Of the pairs of an array whose rows are written together those of one row are judged, and one that is wrong. And pairs whose attempts
end at their limits are compared by four workers with an address space of 1 GB more than the memory that is named: multipliers within 192 MB
and 512 MB, whose diagrams have more nodes, and within 4 GB a pair of which one wave has more requests. No growth may be refused.
"""
from __future__ import annotations

import itertools
import pathlib
import random
import resource
import sys
from collections.abc import Callable, Iterable, Iterator
from dataclasses import dataclass

import harness
from harness import C17, C17B, TOP, Tally, netlist, run, written

sys.path.append(str(TOP / "bench"))
import circuits  # noqa: E402

WORKERS = [1, 2, 3, 4, 7, 16]
EXAMPLES = [("adder8_ripple", "adder8_lookahead"), ("adder8_ripple", "adder8_wrong"), ("s27", "s27_wrong"), ("pairs", "pairs")]


def made(build: Callable[..., object], *words: object) -> bytes:
    """The text of a circuit that bench/circuits.py builds."""
    net = circuits.Netlist()
    build(net, *words)
    return net.text().encode()


def array(rows: int, columns: int, kinds: tuple[str, str], wrong: str | None = None) -> bytes:
    """Rows of registers that are written together: the next state of each is a majority of three inputs, by two kinds of gates. That of the
    register of the name that is wrong has another kind."""
    lines = [f"INPUT(d{column})" for column in range(columns + 2)]
    for name, column in ((f"{row}_{column}", column) for row in range(rows) for column in range(columns)):
        a, b, c = (f"d{column + more}" for more in range(3))
        inner, outer = kinds
        lines += [f"q{name} = DFF(n{name})"]
        lines += [f"{letter}{name} = {inner}({one}, {other})" for letter, one, other in (("x", a, b), ("y", b, c), ("z", a, c))]
        lines += [f"n{name} = {'NOR' if name == wrong else outer}(x{name}, y{name}, z{name})"]
    return netlist("; ".join(lines))


def own_pairs(place: str) -> Iterator[tuple[str, list[pathlib.Path]]]:
    """The pairs that are tried without a folder, by name."""
    texts = [
        ("c17", C17, C17B),
        ("parity", made(circuits.parity, 24, circuits.chain), made(circuits.parity, 24, circuits.tree)),
        ("alu", made(circuits.alu, 16, circuits.and_or_alu), made(circuits.alu, 16, circuits.tree_alu)),
        ("multiplier of 7 bits", made(circuits.multiplier, 7, circuits.array), made(circuits.multiplier, 7, circuits.wallace)),
        ("multiplier of 10 bits", made(circuits.multiplier, 10, circuits.array), made(circuits.multiplier, 10, circuits.wallace)),
        ("no output", netlist("INPUT(a)"), netlist("INPUT(a)")),
        ("array", array(12, 8, ("AND", "OR")), array(12, 8, ("NAND", "NAND"), "7_3")),
    ]
    for number, (name, first, second) in enumerate(texts):
        yield name, [written(place, f"{number}a", first), written(place, f"{number}b", second)]
    for names in EXAMPLES:
        yield " ".join(names), [TOP / "examples" / f"{name}.bench" for name in names]


def folder_pairs(folders: Iterable[pathlib.Path]) -> Iterator[tuple[str, list[pathlib.Path]]]:
    for folder in folders:
        for place in sorted(path.parent for path in folder.glob("*/a.bench")):
            for second in ("b.bench", "c.bench"):
                if (place / second).exists():
                    yield f"{place.name} {second[0]}", [place / "a.bench", place / second]


def seen(program: str, order: str, workers: int, pair: list[pathlib.Path], seconds: float) -> tuple[int | None, bytes, list[bytes]]:
    """A run: its status, its report and what it says of its attempts."""
    one = run([program, "--order", order, "--workers", workers, "--verbose", *pair], seconds=seconds)
    kept = (b": order ", b"cones", b"merging", b"patterns")
    return one.status, one.out, [line for line in one.err.split(b"\n") if any(word in line for word in kept)]


@dataclass
class Found:
    """What differs by the number of workers, and whether one worker took too long."""

    name: str
    differs: list[str]
    too_long: bool = False


def compared(program: str, name: str, order: str, pair: list[pathlib.Path], seconds: float) -> Found:
    first = seen(program, order, 1, pair, seconds)
    if first[0] is None:
        return Found(f"{name} by {order}", [], True)
    # Busy processors may take several workers longer than one.
    others = {workers: seen(program, order, workers, pair, 4 * seconds) for workers in WORKERS[1:]}
    return Found(f"{name} by {order}", [f"{workers} workers: {other}, one: {first}" for workers, other in others.items() if other != first])


def judged_once(program: str, place: str, tally: Tally) -> None:
    """Whether pairs that have the same cones are judged once, each with its own name and verdict."""
    pair = [written(place, "rows", array(12, 8, ("AND", "OR"))), written(place, "rows_wrong", array(12, 8, ("NAND", "NAND"), "7_3"))]
    one = run([program, "--verbose", "--order", "cones", *pair])
    equal = [f"EQUAL NEXT q{row}_{column}" for row in range(12) for column in range(8) if (row, column) != (7, 3)]
    lines = one.out.decode().splitlines()
    tally.check("rows of an array: each register has its line", [line for line in lines if line.startswith("EQUAL ")] == equal, one)
    tally.check(
        "rows of an array: the wrong one differs", one.status == 1 and sum(line.startswith("DIFFER NEXT q7_3 ") for line in lines) == 1, one
    )
    said = (b"bddcheck: 87 of 96 pairs have the same cones as another pair, and take its verdict\n", b"0 of 9 pairs are undecided by cones")
    tally.check("rows of an array: nine pairs are judged", all(line in one.err for line in said), one)


def decided_at_last(program: str, place: str, tally: Tally) -> None:
    """Whether the last attempts decide what each attempt before them has left."""

    def product(net: circuits.Netlist, multiply: circuits.Multiply) -> None:
        net.outputs("p", multiply(net, net.inputs("a", 12), net.inputs("b", 11))[:23])

    pair = [written(place, f"last{way.__name__}", made(product, way)) for way in (circuits.array, circuits.wallace)]
    one = run([program, "--verbose", "--memory", "1632M", *pair], seconds=600)
    tally.check("a pair that only the last attempts decide: each is equal", one.status == 0 and one.out.count(b"EQUAL ") == 23, one)
    notes = one.err.split(b"\n")
    left = [line for line in notes if b"undecided by cones" in line]
    decided = [line for line in notes if b"decided within" in line]
    tally.check(
        "a pair that only the last attempts decide: its cones left some", bool(left) and not left[-1].startswith(b"bddcheck: 0 of"), one
    )
    tally.check(
        "a pair that only the last attempts decide: one attempt decided, after them",
        len(decided) == 1 and notes.index(decided[0]) > notes.index(left[-1]),
        one,
    )


def multipliers(bits: int) -> list[bytes]:
    return [made(circuits.multiplier, bits, way) for way in (circuits.array, circuits.wallace)]


def crossed(net: circuits.Netlist, variables: int, forms: int, last: str) -> None:
    """Sums modulo two of products of the variables by twos, each sum by other twos; then the sums of each two of these, which are of one
    rank and so of one wave; and a chain of these gates, the last of which is of the kind that is given."""
    rng = random.Random(variables)
    inputs, sums = net.inputs("x", variables), []
    for _ in range(forms):
        mixed = rng.sample(inputs, variables)
        sums.append(net.gate("XOR", *[net.gate("AND", *two) for two in zip(mixed[::2], mixed[1::2])]))
    terms = [net.gate("XOR", *two) for two in itertools.combinations(sums, 2)]
    result = sums[0]
    for number, term in enumerate(terms, 1):
        result = net.gate(last if number == len(terms) else ("AND", "OR")[number % 2], result, term)
    net.output("o", result)


@dataclass
class Within:
    """What is compared within an address space of so many bytes and 1 GB."""

    size: int
    # How --memory has them.
    word: str
    pair: list[bytes]
    # Within how many nodes attempts are given up.
    nodes: int
    # What a report may have for its status, and has in its last line.
    statuses: tuple[int, ...]
    counts: bytes
    # How many bytes of the machine's memory have to be free.
    free: int = 0


def rows_within() -> Iterator[Within]:
    """The least first."""
    for size, word, bits, nodes in ((192 << 20, "192M", 10, 986895), (512 << 20, "512M", 11, 2631720)):
        yield Within(size, word, multipliers(bits), nodes, (0, 3), b" 0 different, 0 unmatched")
    # The sums of two have, in each order that is tried, some 80 to 110 million requests, and all diagrams below them less than a
    # million nodes. So attempts end when two requests for each node of their budgets are expanded: three within 2^22 nodes at 8.4 million,
    # three by cones at 10.5 million and the last four at 42 million, for which the memory is meant. All attempts come to some 240 million,
    # as many as 28 runs of wave22 in bench/workers.py, of which one takes 0.9 seconds by four workers on four idle processors. A pattern
    # shows the difference, which is not known to be the least.
    pair = [made(crossed, 36, 24, last) for last in ("AND", "OR")]
    yield Within(1 << 32, "4G", pair, 21053761, (1,), b"0 equal, 1 different, 0 unmatched", 6 << 30)


def free_memory() -> int:
    """How many bytes of memory the machine has to give."""
    for line in pathlib.Path("/proc/meminfo").read_text().splitlines():
        if line.startswith("MemAvailable:"):
            return int(line.split()[1]) << 10
    return 0


def within_memory(program: str, place: str, tally: Tally) -> None:
    """Whether the memory that is named and 1 GB are enough for attempts that end at their limit."""
    for row in rows_within():
        most = row.size + (1 << 30)
        if free_memory() < row.free:
            tally.skip(f"within {row.word}: less than {row.free >> 30} GB of the machine's memory are free")
            continue
        pair = [written(place, f"within{row.word}_{number}", text) for number, text in enumerate(row.pair)]
        one = run(
            [program, "--verbose", "--workers", 4, "--memory", row.word, *pair],
            seconds=600,
            preexec_fn=lambda most=most: resource.setrlimit(resource.RLIMIT_AS, (most, most)),
        )
        tally.check(f"within {row.word} and 1 GB there is a report", one.status in row.statuses and row.counts in one.out, one)
        tally.check(f"within {row.word} attempts end at the limit", f" {row.nodes} nodes".encode() in one.err, one)
        tally.figures(f"within {row.word}: {resource.getrusage(resource.RUSAGE_CHILDREN).ru_maxrss >> 10} MB at the most")


def main() -> None:
    parser = harness.parser_with_program(__doc__)
    folders = "The pairs in these folders are compared, in place of those that this script makes."
    parser.add_argument("folders", metavar="FOLDER", nargs="*", type=pathlib.Path, help=folders)
    parser.add_argument("--jobs", type=int, default=2, help="So many pairs are compared at the same time; the default is 2.")
    parser.add_argument("--seconds", type=float, default=120, help="A run by one worker may take so long; the default is 120.")
    orders = "The pairs are compared in these orders, with commas between them; the default is auto,best,cones,merge."
    parser.add_argument("--orders", type=lambda text: text.split(","), default=["auto", "best", "cones", "merge"], help=orders)
    settings = parser.parse_args()
    tally, too_long = Tally("workers"), []
    with harness.folder() as place, harness.pool(settings.jobs) as pool:
        pairs = list(folder_pairs(settings.folders) if settings.folders else own_pairs(place))
        tasks = [
            pool.submit(compared, settings.program, name, order, pair, settings.seconds)
            for name, pair in pairs
            for order in settings.orders
        ]
        for task in tasks:
            found = task.result()
            if found.too_long:
                too_long.append(found.name)
            else:
                tally.check(found.name, not found.differs, "; ".join(found.differs)[:2000])
        if not settings.folders:
            judged_once(settings.program, place, tally)
            decided_at_last(settings.program, place, tally)
            within_memory(settings.program, place, tally)
    if too_long:
        tally.figures(f"one worker took longer than {settings.seconds:.0f} s, so these were not tried: {', '.join(too_long)}")
    tally.finish()


if __name__ == "__main__":
    harness.ended(main)
