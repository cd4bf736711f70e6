#!/usr/bin/env python3
"""Writes designs of two kinds in steps of size: translation buffers with priorities, and decoders of BCH codes.

usage: bench/kinds.py FOLDER

Each is a folder FOLDER/NAME/ with a.bench, b.bench, which computes the same in another way, and `order`, an order of the variables that
was made by hand:

tlbE_K   a key of K bits is compared with the tags of E entries, each with a valid bit and two bits of data. The outputs are the data of
         the first entry that matches, and whether one does. By a chain of priorities and an OR of ANDs, and by a tree of entries, of
         which the left one wins. The order has each bit of the key with those of all tags after it, the highest bit first, then entry by
         entry its valid bit and data.
rowE_K   the same with the tags and data of each entry under names of their own, so that bits of equal weight have equal numbers.
mmuE_K   as tlbE_K, with an address space of four bits that is compared, too. Each entry has a bit that makes it match in every space, and
         one that leaves out the lower half of the key. The order has the lower half of the key first, then these bits of all entries, the
         upper half, the address space and the bits that make it superfluous, and valid bits and data as before.
bchN     the corrected data bits of a BCH code of length N that corrects two errors. By a search that puts each place of the word into
         the error locator polynomial, and by an inverse of the first syndrome. The order goes by the elements of the field that the places
         stand for, as binary numbers.
"""
from __future__ import annotations

import argparse
import pathlib
from collections.abc import Callable

from circuits import Netlist, choose

BUFFERS = [(4, 8), (4, 16), (6, 12), (8, 8), (8, 12), (8, 20), (12, 12)]
SPACED = [(4, 8), (6, 12), (8, 12)]
DATA = 2
SPACE = 4
# By the degree of the field its primitive polynomial.
FIELDS = {4: 0b10011, 5: 0b100101, 6: 0b1000011}
Bits = list[str]


class Buffer:
    """The inputs of a translation buffer. Without address spaces the lists of these are empty."""

    def __init__(self, net: Netlist, entries: int, width: int, has_rows: bool, has_spaces: bool) -> None:
        def array(word: str, size: int) -> list[Bits]:
            names = [[f"{word}{e}[{i}]" if has_rows else f"{word}[{e * size + i}]" for i in range(size)] for e in range(entries)]
            return [[net.input(name) for name in row] for row in names]

        self.key = [net.input(f"key[{i}]") for i in range(width)]
        self.valid = [net.input(f"valid[{e}]") for e in range(entries)]
        self.tags, self.data = array("tag", width), array("data", DATA)
        self.space = [net.input(f"space[{i}]") for i in range(SPACE)] if has_spaces else []
        self.spaces = array("of", SPACE) if has_spaces else [[] for _ in range(entries)]
        self.every = [net.input(f"every[{e}]") for e in range(entries)] if has_spaces else []
        self.wide = [net.input(f"wide[{e}]") for e in range(entries)] if has_spaces else []

    def order(self) -> list[str]:
        """The order by hand."""

        def compared(key: Bits, tags: list[Bits], places: range) -> list[str]:
            return [name for i in reversed(places) for name in (key[i], *(tag[i] for tag in tags))]

        half = len(self.key) // 2 if self.space else 0
        names = compared(self.key, self.tags, range(half)) + self.wide
        names += compared(self.key, self.tags, range(half, len(self.key)))
        names += compared(self.space, self.spaces, range(len(self.space))) + self.every
        return names + [name for valid, data in zip(self.valid, self.data) for name in (valid, *data)]


def match_by_and(net: Netlist, buffer: Buffer, entry: int) -> str:
    """Whether an entry matches: an AND over all that is compared."""
    same = [net.gate("XNOR", x, y) for x, y in zip(buffer.key, buffer.tags[entry])]
    if buffer.space:
        half = len(same) // 2
        same[:half] = [net.gate("OR", buffer.wide[entry], bit) for bit in same[:half]]
        spaces = [net.gate("XNOR", x, y) for x, y in zip(buffer.space, buffer.spaces[entry])]
        same += [net.gate("OR", buffer.every[entry], bit) for bit in spaces]
    return net.gate("AND", buffer.valid[entry], *same)


def match_by_or(net: Netlist, buffer: Buffer, entry: int) -> str:
    """The same: no part of what is compared has a bit that differs."""
    bits = [net.gate("XOR", x, y) for x, y in zip(buffer.key, buffer.tags[entry])]
    parts = [net.gate("NOT", buffer.valid[entry])]
    if buffer.space:
        half = len(bits) // 2
        parts.append(net.gate("AND", net.gate("NOT", buffer.wide[entry]), net.gate("OR", *bits[:half])))
        spaces = [net.gate("XOR", x, y) for x, y in zip(buffer.space, buffer.spaces[entry])]
        parts.append(net.gate("AND", net.gate("NOT", buffer.every[entry]), net.gate("OR", *spaces)))
        bits = bits[half:]
    return net.gate("NOR", net.gate("OR", *bits), *parts)


def chain_of_priorities(net: Netlist, buffer: Buffer) -> tuple[str, Bits]:
    """Whether an entry matches, and the data of the first one: each entry is taken if it matches and none before it does."""
    matches = [match_by_and(net, buffer, entry) for entry in range(len(buffer.tags))]
    taken, before = [matches[0]], matches[0]
    for match in matches[1:]:
        taken.append(net.gate("AND", match, net.gate("NOT", before)))
        before = net.gate("OR", before, match)
    data = []
    for i in range(DATA):
        data.append(net.gate("OR", *[net.gate("AND", one, row[i]) for one, row in zip(taken, buffer.data)]))
    return before, [net.gate("AND", before, bit) for bit in data]


def tree_of_entries(net: Netlist, buffer: Buffer) -> tuple[str, Bits]:
    """The same: of two neighbours the left one's data if it matches, else the right one's, and so on for the winners."""
    parts = [(match_by_or(net, buffer, entry), row) for entry, row in enumerate(buffer.data)]
    while len(parts) > 1:
        winners = []
        for (hit, row), (other_hit, other_row) in zip(parts[::2], parts[1::2]):
            bits = [choose(net, hit, other, bit) for bit, other in zip(row, other_row)]
            winners.append((net.gate("OR", hit, other_hit), bits))
        parts = winners + parts[len(parts) // 2 * 2 :]
    hit, row = parts[0]
    return hit, [net.gate("AND", hit, bit) for bit in row]


def write_buffer(folder: pathlib.Path, entries: int, width: int, has_rows: bool = False, has_spaces: bool = False) -> None:
    ways: list[Callable[[Netlist, Buffer], tuple[str, Bits]]] = [chain_of_priorities, tree_of_entries]
    for letter, way in zip("ab", ways):
        net = Netlist()
        buffer = Buffer(net, entries, width, has_rows, has_spaces)
        hit, data = way(net, buffer)
        net.output("hit", hit)
        for i, bit in enumerate(data):
            net.output(f"q[{i}]", bit)
        (folder / f"{letter}.bench").write_text(net.text())
        (folder / "order").write_text("\n".join(buffer.order()) + "\n")


class Field:
    """Elements of a finite field, as numbers and as lists of signals, the lowest bit first."""

    def __init__(self, net: Netlist, degree: int) -> None:
        self.net, self.degree, self.powers = net, degree, [1]
        for _ in range((1 << degree) - 2):
            twice = self.powers[-1] << 1
            self.powers.append(twice ^ FIELDS[degree] if twice >> degree else twice)

    def times(self, a: int, b: int) -> int:
        if not a or not b:
            return 0
        logarithm = self.powers.index(a) + self.powers.index(b)
        return self.powers[logarithm % ((1 << self.degree) - 1)]

    def parity(self, signals: Bits) -> str:
        """The exclusive or of a tree. Of no signal it is the empty name."""
        while len(signals) > 1:
            pairs = zip(signals[::2], signals[1::2])
            signals = [self.net.gate("XOR", x, y) for x, y in pairs] + signals[len(signals) // 2 * 2 :]
        return signals[0] if signals else ""

    def linear(self, x: Bits, images: list[int]) -> Bits:
        """The sum of those numbers whose bit of x is 1."""
        return [self.parity([bit for bit, image in zip(x, images) if image >> i & 1]) for i in range(self.degree)]

    def scaled(self, x: Bits, factor: int) -> Bits:
        return self.linear(x, [self.times(factor, 1 << i) for i in range(len(x))])

    def squared(self, x: Bits) -> Bits:
        return self.linear(x, [self.times(1 << i, 1 << i) for i in range(len(x))])

    def sum(self, x: Bits, y: Bits) -> Bits:
        return [self.net.gate("XOR", a, b) for a, b in zip(x, y)]

    def product(self, x: Bits, y: Bits) -> Bits:
        terms: list[Bits] = [[] for _ in range(self.degree)]
        for i, a in enumerate(x):
            for j, b in enumerate(y):
                term, image = self.net.gate("AND", a, b), self.times(1 << i, 1 << j)
                for place in range(self.degree):
                    if image >> place & 1:
                        terms[place].append(term)
        return [self.parity(each) for each in terms]

    def inverse(self, x: Bits) -> Bits:
        """The power 2^degree - 2; of zero it is zero."""
        power, result = self.squared(x), self.squared(x)
        for _ in range(self.degree - 2):
            power = self.squared(power)
            result = self.product(result, power)
        return result


def by_search(field: Field, first: Bits, third: Bits, place: int) -> str:
    """Whether a place is in error: s x^2 + s^2 x + s^3 + t is 0 there, of the syndromes s and t, of which s is not 0."""
    x = field.powers[place]
    cube = field.product(field.squared(first), first)
    value = field.sum(field.scaled(first, field.times(x, x)), field.scaled(field.squared(first), x))
    rest = field.sum(cube, third)
    return field.net.gate("NOR", *field.sum(value, rest), field.net.gate("NOR", *first))


def by_inverse(field: Field, first: Bits, third: Bits, place: int) -> str:
    """The same: y^2 + y is 1 + t / s^3 for y = x / s."""
    inverse = field.inverse(first)
    y = field.scaled(inverse, field.powers[place])
    square = field.squared(inverse)
    wanted = field.product(third, field.product(square, inverse))
    wanted = [field.net.gate("NOT", wanted[0]), *wanted[1:]]
    return field.net.gate("NOR", *field.sum(field.sum(field.squared(y), y), wanted), field.net.gate("NOR", *first))


class Shared(Netlist):
    """A netlist in which a gate that is asked for again is not made again."""

    def __init__(self) -> None:
        super().__init__()
        self.made: dict[tuple[str, ...], str] = {}

    def gate(self, kind: str, *operands: str) -> str:
        key = (kind, *operands)
        if key not in self.made:
            self.made[key] = super().gate(kind, *operands)
        return self.made[key]


def write_decoder(folder: pathlib.Path, degree: int) -> None:
    for letter, way in (("a", by_search), ("b", by_inverse)):
        net = Shared()
        field = Field(net, degree)
        length = len(field.powers)
        word = [net.input(f"r[{i}]") for i in range(length)]
        first = field.linear(word, field.powers)
        third = field.linear(word, [field.powers[3 * i % length] for i in range(length)])
        for i in range(2 * degree, length):
            net.output(f"c[{i}]", net.gate("XOR", word[i], way(field, first, third, i)))
        (folder / f"{letter}.bench").write_text(net.text())
    by_element = sorted(range(length), key=lambda i: field.powers[i])
    (folder / "order").write_text("".join(f"r[{i}]\n" for i in by_element))


def made(folder: pathlib.Path) -> pathlib.Path:
    folder.mkdir(parents=True, exist_ok=True)
    return folder


def main() -> None:
    parser = argparse.ArgumentParser(description=__doc__, formatter_class=argparse.RawDescriptionHelpFormatter)
    parser.add_argument("folder", type=pathlib.Path, help="The folder of the designs, which is made if it is not there.")
    folder = parser.parse_args().folder
    for entries, width in BUFFERS:
        write_buffer(made(folder / f"tlb{entries}_{width}"), entries, width)
        write_buffer(made(folder / f"row{entries}_{width}"), entries, width, has_rows=True)
    for entries, width in SPACED:
        write_buffer(made(folder / f"mmu{entries}_{width}"), entries, width, has_spaces=True)
    for degree in FIELDS:
        write_decoder(made(folder / f"bch{(1 << degree) - 1}"), degree)


if __name__ == "__main__":
    main()
