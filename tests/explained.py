#!/usr/bin/env python3
"""What --explain and --causes say of random netlists and copies of them with a gate or two changed, against values that are computed here.

usage: tests/explained.py PROGRAM [--seed N]
"""
from __future__ import annotations

import json
import random
import re
from collections.abc import Callable, Iterator, Mapping
from typing import Any

import harness
import reading
from harness import Tally, lines, run

FOLDS: dict[str, Callable[[list[int]], bool]] = {
    "AND": all,
    "OR": any,
    "XOR": lambda bits: sum(bits) % 2 == 1,
    "NAND": lambda bits: not all(bits),
    "NOR": lambda bits: not any(bits),
    "XNOR": lambda bits: sum(bits) % 2 == 0,
}


# What is asked for besides.
OPTIONS: list[list[str]] = [
    [],
    ["--order", "best"],
    ["--order", "depth"],
    ["--order", "cones"],
    ["--order", "index"],
    ["--workers", "1"],
]


class Net:
    """A netlist: inputs, outputs, registers with what they take next, and gates in the order of the text, each after its operands."""

    def __init__(self, inputs: list[str], outputs: list[str], registers: dict[str, str], gates: dict[str, tuple[str, list[str]]]) -> None:
        self.inputs, self.outputs, self.registers, self.gates = inputs, outputs, registers, gates

    def statements(self) -> Iterator[str]:
        yield from (f"INPUT({name})" for name in self.inputs)
        yield from (f"OUTPUT({name})" for name in self.outputs)
        yield from (f"{name} = DFF({taken})" for name, taken in self.registers.items())
        yield from (f"{name} = {word}({', '.join(operands)})" for name, (word, operands) in self.gates.items())

    def text(self) -> str:
        return "".join(line + "\n" for line in self.statements())

    def line_of(self, name: str) -> int:
        """The line of a gate."""
        return 1 + len(self.inputs) + len(self.outputs) + len(self.registers) + list(self.gates).index(name)

    def values(self, at: Mapping[str, int]) -> dict[str, int]:
        known = dict(at)
        for name, (word, operands) in self.gates.items():
            known[name] = int(FOLDS[word]([known[operand] for operand in operands]))
        return known

    def rank(self, name: str) -> int:
        return 1 + max(map(self.rank, self.gates[name][1])) if name in self.gates else 0

    def below(self, root: str) -> set[str]:
        return reading.below(self.gates, root)


def random_net(rng: random.Random) -> Net:
    variables = [f"i{k}" for k in range(rng.randrange(2, 6))]
    held = [f"q{k}" for k in range(rng.randrange(0, 3))]
    names = [*variables, *held]
    gates: dict[str, tuple[str, list[str]]] = {}
    for k in range(rng.randrange(3, 14)):
        gates[f"g{k}"] = rng.choice(list(FOLDS)), rng.choices(names[-8:], k=rng.randrange(1, 4))
        names.append(f"g{k}")
    outputs = rng.sample(list(gates), k=min(3, len(gates)))
    return Net(variables, outputs, {name: rng.choice(list(gates)) for name in held}, gates)


def changed(rng: random.Random, net: Net) -> Net:
    """A copy with some gates of another kind, some by another name, and a statement more in front."""
    gates = dict(net.gates)
    for name in rng.sample(list(gates), k=min(len(gates), rng.choice([1, 1, 2, 5]))):
        gates[name] = rng.choice(list(FOLDS)), gates[name][1]
    inner = [name for name in gates if name not in net.outputs and name not in net.registers.values()]
    other = {name: f"n_{name}" for name in rng.sample(inner, k=rng.randrange(0, len(inner) + 1) // 2)}
    renamed = {other.get(name, name): (word, [other.get(one, one) for one in operands]) for name, (word, operands) in gates.items()}
    return Net([*net.inputs, "more"] if rng.random() < 0.5 else net.inputs, net.outputs, net.registers, renamed)


def inner(first: Net, second: Net, root: str, partner: str, at: Mapping[str, int]) -> list[str]:
    """The inner signals of the pair of these signals that differ at an assignment, by rank."""
    seen, other = first.values(at), second.values(at)
    below, below_other = first.below(root), second.below(partner)
    shared = [name for name in first.gates if name in below and name in second.gates and name in below_other]
    return sorted((name for name in shared if seen[name] != other[name] and not (name == root and name == partner)), key=first.rank)


def explanation(first: Net, second: Net, label: str, root: str, partner: str, at: Mapping[str, int]) -> list[str]:
    """The lines that explain the pair of these signals at an assignment."""
    seen, other = first.values(at), second.values(at)
    differing = inner(first, second, root, partner, at)
    reported = [f"EXPLAIN {label} inner signals that differ: {len(differing)}"]
    reported += [
        f"  {name} first={seen[name]} second={other[name]} line {first.line_of(name)} line {second.line_of(name)}" for name in differing
    ]
    if differing:
        low = differing[0]
        counts = []
        for net, top in ((first, root), (second, partner)):
            cone = [name for name in net.gates if name in net.below(top)]
            counts.append(f"{sum(name not in net.below(low) for name in cone)} of {len(cone)}")
        reported.append(f"  {counts[0]} gates in the first netlist and {counts[1]} in the second are outside the cone of {low}")
    return reported


def label_of(line: str) -> str:
    """What a line of a report is on."""
    return re.sub(r"^[A-Z]+ ", "", line).split(" at ")[0]


def difference(first: Net, second: Net, line: str) -> tuple[str, str, dict[str, int]]:
    """The two signals that differ by a line of a report, and the assignment there."""
    label = label_of(line)
    bits = dict(word.split("=") for word in line.split(" at ")[1].split())
    at = {name: int(bit) for name, bit in bits.items() if name not in ("first", "second")}
    name = label.removeprefix("NEXT ")
    one, other = (net.registers[name] if label != name else name for net in (first, second))
    return one, other, at


def wanted(first: Net, second: Net, label: str, report: list[str]) -> list[str]:
    """What comes after the report for this pair, by its line there."""
    line = next(line for line in report if label_of(line) == label)
    if line.startswith("EQUAL"):
        return [f"EXPLAIN {label}: equal"]
    return explanation(first, second, label, *difference(first, second, line))


def causes(first: Net, second: Net, report: list[str]) -> list[dict[str, Any]]:
    """The first inner signals of the pairs that differ, each with its lines and its pairs."""
    pairs: dict[str, list[dict[str, str]]] = {}
    for line in report:
        low = inner(first, second, *difference(first, second, line))[:1] if line.startswith("DIFFER") else []
        name = label_of(line).removeprefix("NEXT ")
        for signal in low:
            pairs.setdefault(signal, []).append({"of": "output" if name == label_of(line) else "next state", "name": name})
    return [{"signal": name, "lines": [first.line_of(name), second.line_of(name)], "pairs": found} for name, found in pairs.items()]


def with_causes(report: bytes, found: list[dict[str, Any]]) -> bytes:
    """A report in JSON with these causes."""
    return report[:-2] + f',"causes":{json.dumps(found, separators=(",", ":"))}}}\n'.encode()


def main() -> None:
    parser = harness.parser_with_program(__doc__)
    parser.add_argument("--seed", default="1", help="The netlists are drawn by this text; the default is 1.")
    given = parser.parse_args()
    rng, tally = random.Random(given.seed), Tally("explained")
    differing = several = shared = 0
    with harness.folder() as place:
        for turn in range(500):
            first = random_net(rng)
            second = changed(rng, first)
            paths = [harness.written(place, name, net.text().encode()) for name, net in (("first", first), ("second", second))]
            labels = [*first.outputs, *(f"NEXT {name}" for name in first.registers)]
            asked = rng.choices(labels, k=rng.randrange(1, 4))
            words = rng.choice(OPTIONS)
            plain = run([given.program, *words, *paths])
            seen = run([given.program, *words, *(f"--explain={label}" for label in asked), *paths])
            report = plain.out.decode().splitlines()
            behind = [line for label in asked for line in wanted(first, second, label, report)]
            differing += sum("first=" in line for line in behind)
            tally.same(f"seed {given.seed}, turn {turn}, {words}, {asked}", seen, plain.status, plain.out + lines(*behind), b"")
            found = causes(first, second, report)
            several, shared = several + (len(found) > 1), shared + any(len(cause["pairs"]) > 1 for cause in found)
            plain = run([given.program, "--format", "json", *words, *paths])
            seen = run([given.program, "--format", "json", "--causes", *words, *paths])
            tally.same(f"seed {given.seed}, turn {turn}, {words}, causes", seen, plain.status, with_causes(plain.out, found), b"")
            picks = [f"--only={label}" for label in asked]
            found = causes(first, second, run([given.program, *picks, *paths]).out.decode().splitlines())
            plain = run([given.program, "--format", "json", *picks, *paths])
            seen = run([given.program, "--format", "json", "--causes", *picks, *paths])
            tally.same(f"seed {given.seed}, turn {turn}, {picks}, causes", seen, plain.status, with_causes(plain.out, found), b"")
    tally.check("inner signals differ in many of them", differing > 100, differing)
    tally.check("some have several causes, and many a cause of several pairs", several > 5 and shared > 20, (several, shared))
    tally.finish()


if __name__ == "__main__":
    harness.ended(main)
