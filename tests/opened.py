#!/usr/bin/env python3
"""Whether tools/open_bits.py is right of the bits that a design leaves open: random modules of gates with such bits, against a judge that
evaluates all assignments. A bit that something depends on must be seen; of the others, the figures say how many are found unseen.

usage: tests/opened.py [--seed N]
"""
from __future__ import annotations

import random
import sys
from collections.abc import Callable
from dataclasses import dataclass, field

from harness import TOP, Tally, parser_of

sys.path.insert(0, str(TOP / "tools"))
import open_bits  # noqa: E402
from open_bits import Bit, Gate, OpenBits, Place  # noqa: E402
from rtl2bench import CELLS, cell_table, variable_tables  # noqa: E402

MODULES = 3000
# Cells that choose are drawn more often, since those leave bits open.
KINDS = [*CELLS, *["$_MUX_"] * 6, *["$_AND_", "$_OR_"] * 3]


def drawn(random_of: random.Random) -> tuple[dict[Bit, Gate], set[Bit], int]:
    """A module: its gates, the bits that outputs read, and how many inputs it has. Some operands are open; some modules have a `case`."""
    inputs = random_of.randint(1, 5)
    bits: list[Bit] = list(range(inputs))
    gates: dict[Bit, Gate] = {}

    def add(kind: str, ports: dict[str, Bit]) -> Bit:
        out = len(gates) + inputs
        gates[out] = Gate(CELLS[kind], ports)
        bits.append(out)
        return out

    if random_of.random() < 0.5:
        add_case(random_of, add, inputs)
    for _ in range(random_of.randint(1, 14)):
        kind = random_of.choice(KINDS)
        ports = {word: random_of.choice(bits[-8:] + bits) for step in CELLS[kind] for word in step.split()[1:] if word.isalpha()}
        if random_of.random() < 0.15:
            ports[random_of.choice(sorted(set(ports) - {"S"}))] = random_of.choice("xxz01")
        add(kind, ports)
    ends = {bits[-1], *random_of.sample(sorted(gates), min(len(gates), random_of.randint(1, 2)))}
    return gates, ends, inputs


def add_case(random_of: random.Random, add: Callable[[str, dict[str, Bit]], Bit], inputs: int) -> None:
    """The gates of a `case` over the first inputs, of which the branch of one value may be missing."""
    width = random_of.randint(1, min(3, inputs))
    decoded: list[Bit] = []
    for value in range((1 << width) - (random_of.random() < 0.3)):
        literals: list[Bit] = [bit if value >> bit & 1 else add("$_NOT_", {"A": bit}) for bit in range(width)]
        decoded.append(literals[0] if width == 1 else add("$_AND_", {"A": literals[0], "B": literals[1]}))
        if width == 3:
            decoded[-1] = add("$_AND_", {"A": decoded[-1], "B": literals[2]})
    any_of, chosen = decoded[0], random_of.randrange(inputs)
    for branch in decoded[1:]:
        any_of = add("$_OR_", {"A": any_of, "B": branch})
    add("$_MUX_", {"A": "x", "B": chosen, "S": any_of})


def depends(gates: dict[Bit, Gate], ends: set[Bit], inputs: int, place: Place) -> bool:
    """Whether an output is another function if the operand at the place is 0 than if it is 1. Other open operands are variables."""
    others = [(out, port) for out, gate in gates.items() for port, bit in gate.ports.items() if bit in ("x", "z") and (out, port) != place]
    variables = variable_tables(inputs + len(others))
    whole = (1 << (1 << (inputs + len(others)))) - 1
    seen = []
    for value in (0, whole):
        tables: dict[Bit, int] = {**dict(enumerate(variables[:inputs])), "0": 0, "1": whole}
        opened = {**dict(zip(others, variables[inputs:])), place: value}
        for out, gate in gates.items():
            ports = {port: opened[out, port] if (out, port) in opened else tables[bit] for port, bit in gate.ports.items()}
            tables[out] = cell_table(gate.steps, ports, whole)
        seen.append([tables[end] for end in sorted(ends)])
    return seen[0] != seen[1]


@dataclass
class Counts:
    """Bits on which something depends, others, and those of the others that were found; and cases that are wrong."""

    seen: int = 0
    unseen: int = 0
    found: int = 0
    wrong: list[tuple[int, Place]] = field(default_factory=list)


def tried(seed: str, modules: int) -> Counts:
    """What is_seen says of the open bits of so many modules."""
    counts = Counts()
    for number in range(modules):
        gates, ends, inputs = drawn(random.Random(f"{seed} {number}"))
        places = [(out, port) for out, gate in gates.items() for port, bit in gate.ports.items() if bit in ("x", "z")]
        bits = OpenBits(gates, ends)
        for place in places if len(places) + inputs <= 14 else []:
            is_seen = bits.is_seen([place])
            if depends(gates, ends, inputs, place):
                counts.seen += 1
                counts.wrong += [] if is_seen else [(number, place)]
            else:
                counts.unseen += 1
                counts.found += not is_seen
    return counts


def main() -> None:
    parser = parser_of(__doc__)
    parser.add_argument("--seed", default="0", help="The modules are drawn by this text; the default is 0.")
    seed = parser.parse_args().seed
    tally, counts = Tally("opened"), tried(seed, MODULES)
    tally.check("each bit on which something depends is seen", not counts.wrong, counts.wrong[:5])
    tally.check("enough bits were tried of both kinds", min(counts.seen, counts.unseen) > MODULES // 4, counts)
    tally.check("most bits on which nothing depends are found", counts.found > counts.unseen * 0.9, counts)
    tally.figures(f"{counts.seen} bits on which something depends; of {counts.unseen} others {counts.found} were found, by the seed {seed}")
    open_bits.MOST_FOLLOWED, open_bits.MOST_EXPANDED, open_bits.MOST_LEAVES_OF_ONE = 3, 2, (2,)
    counts = tried(seed, MODULES // 2)
    tally.check("the same if few gates are followed and expanded", not counts.wrong, counts.wrong[:5])
    tally.check("fewer are found then, but some", 0 < counts.found < counts.unseen, counts)
    tally.finish()


if __name__ == "__main__":
    main()
