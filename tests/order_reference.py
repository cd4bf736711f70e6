"""The orders msb-first, weights and force-groups by an implementation of its own, from the words of their definitions in
crates/group_order/specs.

No code is shared with the product. A netlist is read by `reading`, and a variable goes by its name. `orders.py` compares what the
program prints with them.
"""
from __future__ import annotations

import argparse
import itertools
import pathlib
from collections.abc import Sequence
from dataclasses import dataclass
from fractions import Fraction
from typing import TYPE_CHECKING

import reading

if TYPE_CHECKING:
    from judging import Paired

CAP_OF_NUMBERS = 10**18
CAP_OF_VISITS = 1_000_000
ROOT_WEIGHT = 2**60
# FORCE counts places in parts of a place, and shares in parts of a whole.
PLACE = 2**16
SHARE = 2**24


@dataclass
class Side:
    """A netlist: its gates by name, its roots, and the rank of each signal."""

    net: reading.Netlist
    variables: set[str]
    roots: list[str]
    rank: dict[str, int]
    rising: list[str]

    @staticmethod
    def of(net: reading.Netlist) -> Side:
        variables = set(net.inputs) | set(net.registers)
        rank = dict.fromkeys(variables, 0)
        for start in net.gates:
            todo = [start]
            while todo:
                signal = todo[-1]
                below = [s for s in net.gates[signal][1] if s not in rank] if signal not in rank else []
                if below:
                    todo.extend(below)
                    continue
                if signal not in rank:
                    rank[signal] = 1 + max(rank[s] for s in net.gates[signal][1])
                todo.pop()
        rising = sorted(net.gates, key=rank.__getitem__)
        return Side(net, variables, net.outputs + list(net.registers.values()), rank, rising)

    def operands(self, gate: str) -> list[str]:
        return self.net.gates[gate][1]


class Pair:
    """Two netlists, or three with a condition, and the variables of all, as they are declared. A variable has one name in all of them."""

    def __init__(self, nets: Sequence[reading.Netlist], variables: list[str]) -> None:
        self.sides = [Side.of(net) for net in nets]
        self.variables = variables
        self.level = {name: level for level, name in enumerate(variables)}

    @staticmethod
    def of_texts(first: bytes, second: bytes) -> Pair:
        nets = [reading.read(text) for text in (first, second)]
        inputs = [name for net in nets for name in net.inputs]
        registers = [name for net in nets for name in net.registers]
        return Pair(nets, list(dict.fromkeys(inputs + registers)))

    @staticmethod
    def of(paired: Paired) -> Pair:
        """The pair of netlists whose variables have a naming: judging's."""
        nets = [named(paired, net) for net in (paired.first, paired.second, paired.given) if net]
        return Pair(nets, list(dict.fromkeys([*paired.declared(), *paired.of_condition()])))


def named(paired: Paired, net: reading.Netlist) -> reading.Netlist:
    """A netlist whose variables have their paired names. A gate has a name that no variable has."""
    called = {s: paired.name(net, s) for s in [*net.inputs, *net.registers]} | {s: "= " + s for s in net.gates}
    gates = {called[s]: (word, [called[o] for o in operands]) for s, (word, operands) in net.gates.items()}
    registers = {called[s]: called[next_state] for s, next_state in net.registers.items()}
    return reading.Netlist([called[s] for s in net.inputs], [called[s] for s in net.outputs], gates, registers)


def number_of(name: str) -> int | None:
    """The number at the end of a name, signs after it passed over; None without one. Long numbers are cut to one greatest."""
    end = len(name)
    while end and not name[end - 1].isalnum():
        end -= 1
    begin = end
    while begin and name[begin - 1].isdigit():
        begin -= 1
    return min(int(name[begin:end]), CAP_OF_NUMBERS) if begin < end else None


def by_number(pair: Pair, falling: bool) -> list[str]:
    """Names without a number first, then by their numbers; equal ones as they are declared."""

    def key(name: str) -> tuple[int, int]:
        number = number_of(name)
        return (0, 0) if number is None else (1, -number if falling else number)

    return sorted(pair.variables, key=key)


# ---- selectors


def uses(side: Side) -> dict[str, int]:
    """How many operands of gates with two operands or more are each variable, directly or by gates of one operand."""
    stands = {name: name for name in side.variables}
    count = dict.fromkeys(side.variables, 0)
    for gate in side.rising:
        operands = side.operands(gate)
        if len(operands) == 1:
            if operands[0] in stands:
                stands[gate] = stands[operands[0]]
            continue
        for operand in operands:
            if operand in stands:
                count[stands[operand]] += 1
    return count


def selectors(pair: Pair) -> set[str]:
    """The variables above the first widest gap in the upper half of all fan-outs, if one is twice the next at least."""
    counts = [uses(side) for side in pair.sides]
    fan_out = {name: max(count.get(name, 0) for count in counts) for name in pair.variables}
    sizes = sorted(fan_out.values(), reverse=True)
    best = None
    for high, low in list(zip(sizes, sizes[1:]))[: len(sizes) // 2]:
        ratio = Fraction(high, max(low, 1))
        if ratio >= 2 and (best is None or ratio > best[0]):
            best = (ratio, high)
    return {name for name in pair.variables if best and fan_out[name] >= best[1]}


# ---- groups


def value(word: str, bits: Sequence[bool]) -> bool:
    """What a gate computes."""
    if word in ("AND", "NAND"):
        result = all(bits)
    elif word in ("OR", "NOR"):
        result = any(bits)
    elif word in ("XOR", "XNOR"):
        result = sum(bits) % 2 == 1
    else:
        result = bits[0]
    return result != (word in ("NAND", "NOR", "XNOR", "NOT"))


# A function of one variable or of two: its variables, and its value by theirs.
Small = tuple[tuple[str, ...], dict[tuple[bool, ...], bool]]


def joined_by_xor(side: Side) -> set[tuple[str, ...]]:
    """The pairs of variables of which some gate over just these two is the exclusive or, or its complement."""
    small: dict[str, Small] = {name: ((name,), {(False,): False, (True,): True}) for name in side.variables}
    found: set[tuple[str, ...]] = set()
    for gate in side.rising:
        word, operands = side.net.gates[gate]
        below: set[str] = set()
        is_small = True
        for operand in operands:
            is_small = operand in small
            below.update(small[operand][0] if is_small else ())
            if not is_small or len(below) > 2:
                break
        if not is_small or len(below) > 2:
            continue
        names = tuple(sorted(below))
        table: dict[tuple[bool, ...], bool] = {}
        for row in itertools.product((False, True), repeat=len(names)):
            at = dict(zip(names, row))
            table[row] = value(word, [small[s][1][tuple(at[n] for n in small[s][0])] for s in operands])
        small[gate] = (names, table)
        if len(names) == 2 and len({table[row] != (row[0] != row[1]) for row in table}) == 1:
            found.add(names)
    return found


def groups(pair: Pair) -> dict[str, list[str]]:
    """Of each variable its group: what pairs without hubs join."""
    pairs = set().union(*(joined_by_xor(side) for side in pair.sides))
    degree = dict.fromkeys(pair.variables, 0)
    for names in pairs:
        for name in names:
            degree[name] += 1
    hubs = {name for name, count in degree.items() if count > 2 and 3 * count >= len(pairs)}
    group = {name: [name] for name in pair.variables}
    for one, other in pairs:
        if one in hubs or other in hubs or group[one] is group[other]:
            continue
        group[one].extend(group[other])
        for name in group[other]:
            group[name] = group[one]
    return group


def grouped(pair: Pair, order: list[str]) -> list[str]:
    """Each group at the place of its first variable in the order, and in itself as in the order."""
    group = groups(pair)
    first: dict[int, int] = {}
    for place, name in enumerate(order):
        first.setdefault(id(group[name]), place)
    return sorted(order, key=lambda name: first[id(group[name])])


def steered(pair: Pair, order: list[str]) -> list[str]:
    chosen = selectors(pair)
    return [name for name in order if name in chosen] + [name for name in order if name not in chosen]


# ---- the three orders


def msb_first(pair: Pair) -> list[str]:
    return steered(pair, grouped(pair, by_number(pair, falling=True)))


class Weighing:
    """Dynamic weight assignment: which variables are placed, and how often gates were visited."""

    def __init__(self, pair: Pair) -> None:
        self.pair, self.visits = pair, 0
        self.order: list[str] = []
        self.placed: set[str] = set()

    def side(self, side: Side) -> None:
        dead = {name for name in side.variables if name in self.placed}
        for root in sorted(side.roots, key=lambda root: -side.rank[root]):
            cone: set[str] = set()
            todo = [root]
            while todo:
                signal = todo.pop()
                if signal not in cone and signal not in dead:
                    cone.add(signal)
                    todo.extend(() if signal in side.variables else side.operands(signal))
            self.root(side, root, dead, cone)
            dead |= cone

    def root(self, side: Side, root: str, dead: set[str], cone: set[str]) -> None:
        gates = sorted((s for s in cone if s not in side.variables), key=lambda s: -side.rank[s])
        live = sorted((s for s in cone if s in side.variables), key=self.pair.level.__getitem__)
        while live:
            for gate in reversed(gates):
                if all(operand in dead for operand in side.operands(gate)):
                    dead.add(gate)
            gates = [gate for gate in gates if gate not in dead]
            weight = self.weights(side, root, dead, gates)
            live.sort(key=lambda name: (-weight.get(name, 0), self.pair.level[name]))
            # A gate counts once, and once more for each 32 operands that were not placed by an earlier root.
            self.visits += sum(1 + sum(operand in cone for operand in side.operands(gate)) // 32 for gate in gates)
            taken = live if self.visits >= CAP_OF_VISITS else live[:1]
            live = live[len(taken) :]
            dead.update(taken)
            self.placed.update(taken)
            self.order.extend(taken)

    def weights(self, side: Side, root: str, dead: set[str], gates: list[str]) -> dict[str, int]:
        weight = {root: ROOT_WEIGHT}
        for gate in gates:
            alive = [operand for operand in side.operands(gate) if operand not in dead]
            for operand in alive:
                weight[operand] = weight.get(operand, 0) + weight.get(gate, 0) // len(alive)
        return weight


def weights(pair: Pair) -> list[str]:
    weighing = Weighing(pair)
    for side in sorted(pair.sides[:2], key=lambda side: len(side.net.gates)):
        weighing.side(side)
    rest = [name for name in pair.variables if name not in weighing.placed]
    return grouped(pair, weighing.order + rest)


class Force:
    """FORCE whose edges have no selectors. Vertices are the variables by rising number, then the gates of both netlists."""

    def __init__(self, pair: Pair, begun: list[str], chosen: set[str]) -> None:
        self.count = len(begun)
        vertex = {name: place for place, name in enumerate(begun)}
        self.rank, self.edges = [0] * self.count, []
        for side in pair.sides:
            own = {name: vertex[name] for name in side.variables}
            for gate in side.net.gates:
                own[gate] = len(self.rank)
                self.rank.append(side.rank[gate])
            for gate in side.net.gates:
                self.edges.append([own[s] for s in side.operands(gate) + [gate] if s not in chosen or s not in side.variables])

    def begin(self) -> list[int]:
        """Each gate right after the last variable below it."""
        by_rank = sorted(range(len(self.rank)), key=self.rank.__getitem__)
        last = list(range(self.count)) + [0] * len(self.edges)
        for vertex in by_rank[self.count :]:
            last[vertex] = max(last[other] for other in self.edges[vertex - self.count])
        return sorted(by_rank, key=last.__getitem__)

    def step(self, place: list[int], degree: list[int]) -> list[int]:
        total = [0] * len(place)
        for edge in self.edges:
            centre = sum(place[vertex] for vertex in edge) * (SHARE // len(edge)) // SHARE
            for vertex in edge:
                total[vertex] += centre
        return [t * (SHARE // d) // SHARE if d else p for t, d, p in zip(total, degree, place)]

    def order(self) -> list[int]:
        """The variables' vertices, from the last one back."""
        degree = [0] * len(self.rank)
        for edge in self.edges:
            for vertex in edge:
                degree[vertex] += 1
        order = self.begin()
        for _round in range(2):
            place = [0] * len(order)
            for i, vertex in enumerate(order):
                place[vertex] = i * PLACE
            for _step in range(max(10, min(40, 524_288 // (len(order) + 1)))):
                place = self.step(place, degree)
            order = sorted(order, key=place.__getitem__)
        return [vertex for vertex in reversed(order) if vertex < self.count]


def force_groups(pair: Pair) -> list[str]:
    chosen, begun = selectors(pair), by_number(pair, falling=False)
    moved = [begun[vertex] for vertex in Force(pair, begun, chosen).order()]
    return grouped(pair, [name for name in begun if name in chosen] + [name for name in moved if name not in chosen])


ORDERS = {"msb-first": msb_first, "weights": weights, "force-groups": force_groups}


def main() -> None:
    parser = argparse.ArgumentParser(description=__doc__, formatter_class=argparse.RawDescriptionHelpFormatter)
    for which in ("first", "second"):
        parser.add_argument(which, type=pathlib.Path, help=f"This is the file of the {which} netlist.")
    parser.add_argument("order", choices=list(ORDERS), help="This is the order whose names are printed.")
    given = parser.parse_args()
    for variable in ORDERS[given.order](Pair.of_texts(given.first.read_bytes(), given.second.read_bytes())):
        print(variable)


if __name__ == "__main__":
    main()
