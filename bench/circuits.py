#!/usr/bin/env python3
"""Writes pairs of bench netlists that compute the same in two ways.

usage: bench/circuits.py FOLDER

For each family and size there are FOLDER/FAMILY_SIZE_a.bench and FOLDER/FAMILY_SIZE_b.bench:

adder       two numbers of SIZE bits: carry by ripple, and carry by look-ahead in blocks of four
multiplier  two numbers of SIZE bits: an array of rows, and a Wallace tree
parity      SIZE inputs: a chain, and a balanced tree of XOR gates
alu         eight functions of two numbers of SIZE bits: one adder with an AND-OR selection, and two
            look-ahead adders with a tree of multiplexers

Only peers.py takes these:

products    the sum of SIZE products of two inputs: by one OR, and by a tree of NAND and OR gates
xors        SIZE gates in a chain over 64 inputs, in two orders of the inputs
steps       SIZE gates in a chain over 64 inputs, AND and OR in turn, and the same by De Morgan's laws
"""
from __future__ import annotations

import argparse
import pathlib
from collections.abc import Callable

FAMILIES = {
    "adder": [8, 16, 32, 64],
    "multiplier": [4, 5, 6, 7],
    "parity": [16, 64, 256, 1024],
    "alu": [4, 8, 16, 32],
}


class Netlist:
    """A netlist in the making. A gate is known by the name of its signal."""

    def __init__(self) -> None:
        self.ports: list[str] = []
        self.gates: list[str] = []

    def input(self, name: str) -> str:
        self.ports.append(f"INPUT({name})")
        return name

    def inputs(self, letter: str, size: int) -> list[str]:
        return [self.input(f"{letter}{i}") for i in range(size)]

    def gate(self, kind: str, *operands: str) -> str:
        name = f"n{len(self.gates)}"
        self.gates.append(f"{name} = {kind}({', '.join(operands)})")
        return name

    def output(self, name: str, signal: str) -> None:
        self.ports.append(f"OUTPUT({name})")
        self.gates.append(f"{name} = BUFF({signal})")

    def outputs(self, letter: str, signals: list[str]) -> None:
        for i, signal in enumerate(signals):
            self.output(f"{letter}{i}", signal)

    def text(self) -> str:
        return "\n".join(self.ports + self.gates) + "\n"


# The ways to build a circuit from the signals of its inputs. `Add` gives the bits of a sum and the name of its carry, which is empty if
# there is none.
Sum = tuple[list[str], str]
Add = Callable[[Netlist, list[str], list[str]], Sum]
Multiply = Callable[[Netlist, list[str], list[str]], list[str]]
Join = Callable[[Netlist, list[str]], str]
JoinTwo = Callable[[Netlist, list[str], list[str]], str]
SelectFunction = Callable[[Netlist, list[str], list[str], list[str]], list[str]]
Link = Callable[[Netlist, list[str], int], str]


def half_adder(net: Netlist, a: str, b: str) -> tuple[str, str]:
    """Sum and carry."""
    return net.gate("XOR", a, b), net.gate("AND", a, b)


def full_adder(net: Netlist, a: str, b: str, c: str) -> tuple[str, str]:
    """Sum and carry."""
    half = net.gate("XOR", a, b)
    both = net.gate("AND", a, b)
    return net.gate("XOR", half, c), net.gate("OR", both, net.gate("AND", half, c))


def ripple(net: Netlist, a: list[str], b: list[str], carry: str = "") -> Sum:
    """The bits of a + b, lowest first, and the carry at the end."""
    bits = []
    for x, y in zip(a, b):
        bit, carry = full_adder(net, x, y, carry) if carry else half_adder(net, x, y)
        bits.append(bit)
    return bits, carry


def carry_terms(net: Netlist, generate: list[str], propagate: list[str], carry: str, place: int) -> str:
    """The carry after `place` of a block, as one OR of ANDs over the block's own carry-in."""
    terms = []
    for start in range(place, -1, -1):
        passed = propagate[start + 1 : place + 1]
        terms.append(net.gate("AND", generate[start], *passed) if passed else generate[start])
    if carry:
        terms.append(net.gate("AND", carry, *propagate[: place + 1]))
    return net.gate("OR", *terms) if len(terms) > 1 else terms[0]


def look_ahead(net: Netlist, a: list[str], b: list[str], carry: str = "") -> Sum:
    """As `ripple`, with the carries of each block of four from its carry-in at once."""
    bits = []
    for start in range(0, len(a), 4):
        pairs = list(zip(a[start : start + 4], b[start : start + 4]))
        propagate = [net.gate("XOR", x, y) for x, y in pairs]
        generate = [net.gate("AND", x, y) for x, y in pairs]
        carries = [carry_terms(net, generate, propagate, carry, i) for i in range(len(pairs))]
        for half, before in zip(propagate, [carry, *carries]):
            bits.append(net.gate("XOR", half, before) if before else half)
        carry = carries[-1]
    return bits, carry


def adder(net: Netlist, size: int, add: Add) -> None:
    a, b = net.inputs("a", size), net.inputs("b", size)
    bits, carry = add(net, a, b)
    net.outputs("s", bits)
    net.output("c", carry)


def array(net: Netlist, a: list[str], b: list[str]) -> list[str]:
    """The product's bits: each row of partial products is added to the sum of those above."""
    rows = [[net.gate("AND", x, y) for x in a] for y in b]
    bits, above = [rows[0][0]], rows[0][1:]
    for row in rows[1:]:
        sums, carry = [], ""
        for i, bit in enumerate(row):
            parts = [bit, *above[i : i + 1], *([carry] if carry else [])]
            bit, carry = added(net, parts)
            sums.append(bit)
        bits.append(sums[0])
        above = [*sums[1:], carry]
    return bits + above


def added(net: Netlist, parts: list[str]) -> tuple[str, str]:
    """Sum and carry of two or three bits."""
    return full_adder(net, *parts) if len(parts) == 3 else half_adder(net, *parts)


def wallace_round(net: Netlist, columns: list[list[str]]) -> list[list[str]]:
    """One round of full and half adders over the columns of a Wallace tree."""
    after: list[list[str]] = [[] for _ in range(len(columns) + 1)]
    for place, column in enumerate(columns):
        for i in range(0, len(column), 3):
            part = column[i : i + 3]
            if len(part) == 1 or (len(part) == 2 and len(column) == 2):
                after[place] += part
                continue
            bit, carry = added(net, part)
            after[place].append(bit)
            after[place + 1].append(carry)
    return after if after[-1] else after[:-1]


def wallace(net: Netlist, a: list[str], b: list[str]) -> list[str]:
    """The product's bits: columns of partial products are thinned in rounds, and the last two rows added."""
    columns: list[list[str]] = [[] for _ in range(len(a) + len(b) - 1)]
    for i, x in enumerate(a):
        for j, y in enumerate(b):
            columns[i + j].append(net.gate("AND", x, y))
    while max(map(len, columns)) > 2:
        columns = wallace_round(net, columns)
    bits: list[str] = []
    carry = ""
    for column in columns:
        parts = column + ([carry] if carry else [])
        carry = ""
        if len(parts) == 1:
            bits += parts
        else:
            bit, carry = added(net, parts)
            bits.append(bit)
    return bits + ([carry] if carry else [])


def multiplier(net: Netlist, size: int, multiply: Multiply) -> None:
    a, b = net.inputs("a", size), net.inputs("b", size)
    net.outputs("p", multiply(net, a, b)[: 2 * size])


def chain(net: Netlist, signals: list[str]) -> str:
    result = signals[0]
    for signal in signals[1:]:
        result = net.gate("XOR", result, signal)
    return result


def tree(net: Netlist, signals: list[str]) -> str:
    while len(signals) > 1:
        pairs = zip(signals[::2], signals[1::2])
        signals = [net.gate("XOR", x, y) for x, y in pairs] + signals[len(signals) // 2 * 2 :]
    return signals[0]


def parity(net: Netlist, size: int, join: Join) -> None:
    net.output("p", join(net, net.inputs("x", size)))


LOGIC = ["AND", "OR", "XOR", "NAND", "NOR", "XNOR"]


def and_or_alu(net: Netlist, a: list[str], b: list[str], code: list[str]) -> list[str]:
    """One adder, whose second operand is complemented to subtract; the function is chosen by a decoded code."""
    inverse = [net.gate("NOT", bit) for bit in code]
    chosen = [net.gate("AND", *[(code if number >> i & 1 else inverse)[i] for i in range(3)]) for number in range(8)]
    sums, _ = ripple(net, a, [net.gate("XOR", y, chosen[1]) for y in b], chosen[1])
    adds = net.gate("OR", chosen[0], chosen[1])
    bits = []
    for x, y, added in zip(a, b, sums):
        terms = [net.gate("AND", adds, added)]
        for number, kind in enumerate(LOGIC):
            terms.append(net.gate("AND", chosen[number + 2], net.gate(kind, x, y)))
        bits.append(net.gate("OR", *terms))
    return bits


def choose(net: Netlist, bit: str, zero: str, one: str) -> str:
    return net.gate("OR", net.gate("AND", net.gate("NOT", bit), zero), net.gate("AND", bit, one))


def tree_alu(net: Netlist, a: list[str], b: list[str], code: list[str]) -> list[str]:
    """An adder and a subtracter; the function is chosen by a tree of multiplexers."""
    sums, _ = look_ahead(net, a, b)
    one = net.gate("NAND", code[0], net.gate("NOT", code[0]))
    differences, _ = look_ahead(net, a, [net.gate("NOT", y) for y in b], one)
    bits = []
    for x, y, added, taken in zip(a, b, sums, differences):
        values = [added, taken, *[net.gate(kind, x, y) for kind in LOGIC]]
        for bit in code:
            values = [choose(net, bit, *values[i : i + 2]) for i in range(0, len(values), 2)]
        bits += values
    return bits


def alu(net: Netlist, size: int, build: SelectFunction) -> None:
    code = net.inputs("f", 3)
    a, b = net.inputs("a", size), net.inputs("b", size)
    net.outputs("r", build(net, a, b, code))


def products(net: Netlist, size: int, join: JoinTwo) -> None:
    x, y = net.inputs("x", size), net.inputs("y", size)
    net.output("o", join(net, x, y))


def one_or(net: Netlist, x: list[str], y: list[str]) -> str:
    return net.gate("OR", *[net.gate("AND", a, b) for a, b in zip(x, y)])


def nand_tree(net: Netlist, x: list[str], y: list[str]) -> str:
    """NAND over complemented products by twos, and OR gates above in a tree."""
    terms = [net.gate("NAND", a, b) for a, b in zip(x, y)]
    terms = [net.gate("NAND", *terms[i : i + 2]) for i in range(0, len(terms), 2)]
    while len(terms) > 1:
        terms = [net.gate("OR", *terms[i : i + 2]) for i in range(0, len(terms), 2)]
    return terms[0]


CHAIN_INPUTS = 64


def long_chain(net: Netlist, size: int, link: Link) -> None:
    net.output("o", link(net, net.inputs("x", CHAIN_INPUTS), size))


def xors(net: Netlist, inputs: list[str], size: int) -> str:
    return chain(net, [inputs[i % len(inputs)] for i in range(size + 1)])


def xors_backward(net: Netlist, inputs: list[str], size: int) -> str:
    return chain(net, [inputs[i % len(inputs)] for i in range(size, -1, -1)])


def and_or_steps(net: Netlist, inputs: list[str], size: int) -> str:
    result = inputs[0]
    for i in range(1, size + 1):
        result = net.gate(("AND", "OR")[i % 2], result, inputs[i * 7 % len(inputs)])
    return result


def or_and_steps(net: Netlist, inputs: list[str], size: int) -> str:
    """As `and_or_steps`: each gate is the complement of that one's."""
    inverse = [net.gate("NOT", x) for x in inputs]
    result = inverse[0]
    for i in range(1, size + 1):
        result = net.gate(("OR", "AND")[i % 2], result, inverse[i * 7 % len(inputs)])
    return net.gate("NOT", result)


# By family the function that makes inputs and outputs, and the two ways that it takes.
BUILDERS: dict[str, tuple[Callable[..., None], Callable[..., object], Callable[..., object]]] = {
    "adder": (adder, ripple, look_ahead),
    "multiplier": (multiplier, array, wallace),
    "parity": (parity, chain, tree),
    "alu": (alu, and_or_alu, tree_alu),
    "products": (products, one_or, nand_tree),
    "xors": (long_chain, xors, xors_backward),
    "steps": (long_chain, and_or_steps, or_and_steps),
}


def write_pair(folder: pathlib.Path, family: str, size: int) -> list[pathlib.Path]:
    """The paths of the two netlists."""
    build, first, second = BUILDERS[family]
    paths = []
    for letter, way in (("a", first), ("b", second)):
        net = Netlist()
        build(net, size, way)
        paths.append(folder / f"{family}_{size}_{letter}.bench")
        paths[-1].write_text(net.text())
    return paths


def write_folder(folder: pathlib.Path, family: str, size: int, order: list[str]) -> pathlib.Path:
    """A folder with the two netlists, as a.bench and b.bench, and the names of the order, a line for each."""
    folder.mkdir(parents=True)
    for path, kept in zip(write_pair(folder, family, size), ("a.bench", "b.bench")):
        path.rename(folder / kept)
    (folder / "order").write_text("\n".join(order) + "\n")
    return folder


def main() -> None:
    parser = argparse.ArgumentParser(description=__doc__, formatter_class=argparse.RawDescriptionHelpFormatter)
    parser.add_argument("folder", type=pathlib.Path, help="The folder of the netlists, which is made if it is not there.")
    folder = parser.parse_args().folder
    folder.mkdir(parents=True, exist_ok=True)
    for family, sizes in FAMILIES.items():
        for size in sizes:
            write_pair(folder, family, size)


if __name__ == "__main__":
    main()
