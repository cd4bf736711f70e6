#!/usr/bin/env python3
"""That --print-order prints the orders msb-first, weights and force-groups by the words of their definitions, byte for byte.

usage: tests/orders.py PROGRAM [FOLDER ..] [--seed N] [--cases N]

The orders are those of `order_reference.py`. The pairs are some of examples/, circuits that bench/circuits.py writes, circuits in which
some inputs select and XOR gates join others, and N (200) drawn ones, which have names with numbers of all kinds. If a FOLDER is given,
they are instead those of its folders NAME/: a.bench with b.bench.
"""
from __future__ import annotations

import pathlib
import random
import sys
from collections.abc import Iterator

import fuzz
import harness
import order_reference
from harness import TOP, Tally, netlist, run, written

sys.path.append(str(TOP / "bench"))
import circuits  # noqa: E402

EXAMPLES = [("adder8_ripple", "adder8_lookahead"), ("s27", "s27_wrong"), ("c17", "c17b"), ("pairs", "pairs13"), ("wire", "buffer")]
SIZES = {"adder": [8, 33], "multiplier": [4, 9], "parity": [24], "alu": [4, 16], "products": [9], "xors": [40], "steps": [50]}


def chosen_words(size: int, words: int) -> bytes:
    """A word of some is chosen by inputs that count, each bit by gates of its own."""
    net = circuits.Netlist()
    select = net.inputs("s", (words - 1).bit_length())
    inverse = [net.gate("NOT", s) for s in select]
    for bit in range(size):
        parts = []
        for word in range(words):
            code = [(select if word >> i & 1 else inverse)[i] for i in range(len(select))]
            parts.append(net.gate("AND", net.input(f"d{word}_{bit}"), *code))
        net.output(f"o[{bit}]", net.gate("OR", *parts))
    return net.text().encode()


def matched_key(size: int, entries: int) -> bytes:
    """A key is compared with entries: its bits are in as many pairs as there are entries."""
    net = circuits.Netlist()
    key = net.inputs("k", size)
    hits = []
    for entry in range(entries):
        bits = [net.gate("XNOR", bit, net.input(f"e{entry}[{i}]")) for i, bit in enumerate(key)]
        hits.append(net.gate("AND", *bits, net.input(f"valid{entry}")))
    net.output("hit", net.gate("OR", *hits))
    return net.text().encode()


def written_exclusive_ors(size: int) -> bytes:
    """Equality of two words, whose exclusive ors are NAND gates, and whose bits count down in one of them."""
    net = circuits.Netlist()
    bits = []
    for i in range(size):
        a, b = net.input(f"a{i}"), net.input(f"b{size - 1 - i}")
        both = net.gate("NAND", a, b)
        bits.append(net.gate("NAND", net.gate("NAND", a, both), net.gate("NAND", b, both)))
    net.output("differ", net.gate("OR", *bits))
    return net.text().encode()


def own_pairs(place: pathlib.Path) -> Iterator[tuple[str, list[pathlib.Path]]]:
    for first, second in EXAMPLES:
        yield first, [TOP / "examples" / f"{name}.bench" for name in (first, second)]
    for family, sizes in SIZES.items():
        for size in sizes:
            yield f"{family} {size}", circuits.write_pair(place, family, size)
    made = {
        "a chosen word": (chosen_words(8, 4), chosen_words(8, 4)),
        "words of two sizes": (chosen_words(3, 8), chosen_words(5, 2)),
        "a matched key": (matched_key(8, 8), matched_key(8, 3)),
        "exclusive ors of NAND gates": (written_exclusive_ors(9), matched_key(4, 2)),
        "nothing": (b"", b""),
        "a wide gate": (
            netlist("; ".join(f"INPUT(i{i})" for i in range(300)) + "; OUTPUT(o); o = OR(" + ", ".join(f"i{i}" for i in range(300)) + ")"),
            b"",
        ),
    }
    for number, (name, texts) in enumerate(made.items()):
        yield name, [written(place, f"made{number}{side}.bench", text) for side, text in zip("ab", texts)]


def drawn_pairs(place: pathlib.Path, seed: str, cases: int) -> Iterator[tuple[str, list[pathlib.Path]]]:
    for case in range(cases):
        rng = random.Random(f"{seed}:{case}")
        texts = [fuzz.laid_out(rng, side, True) for side in fuzz.pair_of_netlists(rng, "name", 12)]
        yield f"--seed {seed}, case {case}", [written(place, f"drawn{side}.bench", text) for side, text in zip("ab", texts)]


def folder_pairs(folders: list[pathlib.Path]) -> Iterator[tuple[str, list[pathlib.Path]]]:
    for folder in folders:
        for inside in sorted(folder.iterdir()):
            yield inside.name, [inside / "a.bench", inside / "b.bench"]


def compared(program: str, tally: Tally, name: str, paths: list[pathlib.Path]) -> None:
    first, second = paths
    pair = order_reference.Pair.of_texts(first.read_bytes(), second.read_bytes())
    for word, order in order_reference.ORDERS.items():
        wanted = harness.lines(*order(pair))
        tally.same(f"{name}, {word}", run([program, "--print-order", "--order", word, *paths]), 0, wanted, b"")


def main() -> None:
    parser = harness.parser_with_program(__doc__)
    folders = "The pairs in these folders are compared, in place of those that this script makes."
    parser.add_argument("folders", metavar="FOLDER", nargs="*", type=pathlib.Path, help=folders)
    seed = "The netlists are drawn by this text; without it a number is chosen."
    parser.add_argument("--seed", default=str(random.randrange(10**6)), help=seed)
    parser.add_argument("--cases", type=int, default=200, help="So many pairs are drawn; the default is 200.")
    settings = parser.parse_args()
    tally = Tally("orders")
    with harness.folder() as folder:
        place = pathlib.Path(folder)
        pairs = folder_pairs(settings.folders) if settings.folders else own_pairs(place)
        for name, paths in pairs:
            compared(settings.program, tally, name, paths)
        for name, paths in drawn_pairs(place, settings.seed, 0 if settings.folders else settings.cases):
            compared(settings.program, tally, name, paths)
    tally.finish()


if __name__ == "__main__":
    harness.ended(main)
