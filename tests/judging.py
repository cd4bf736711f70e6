"""What a comparison in one order must find, by truth tables: the variables, their order, the verdicts and the needed nodes.

No code is shared with the product, and nothing here is a decision diagram: a function of n variables is a number of 2^n bits.
"""
from __future__ import annotations

import re
from collections.abc import Callable, Collection, Iterable, Mapping, Sequence
from dataclasses import dataclass

import order_reference
from reading import Netlist

MOST_VARIABLES = 4096
COUNTS_DIFFER = "the netlists have different numbers of inputs, outputs or registers"


class Refusal(Exception):
    """A fault line without its end, and the status."""

    def __init__(self, text: str, status: int = 2) -> None:
        super().__init__(text)
        self.status = status


def distinct(names: Iterable[str]) -> list[str]:
    return list(dict.fromkeys(names))


# Variables and their orders.


class Paired:
    """Two netlists under one naming of variables: by position the second's sources are called as the first's."""

    def __init__(self, first: Netlist, second: Netlist, match: str, given: Netlist | None) -> None:
        self.first, self.second, self.given = first, second, given
        self.by_position = match == "position"
        if self.by_position and counts(first) != counts(second):
            raise Refusal("order: " + COUNTS_DIFFER)
        sources = [*second.inputs, *second.registers], [*first.inputs, *first.registers]
        self.called = dict(zip(*sources)) if self.by_position else {}

    def name(self, net: Netlist, signal: str) -> str:
        return self.called.get(signal, signal) if net is self.second else signal

    def names(self, net: Netlist, signals: Iterable[str]) -> list[str]:
        return [self.name(net, signal) for signal in signals]

    def declared(self) -> list[str]:
        return distinct(
            [
                *self.names(self.first, self.first.inputs),
                *self.names(self.second, self.second.inputs),
                *self.names(self.first, self.first.registers),
                *self.names(self.second, self.second.registers),
            ]
        )

    def by_depth(self) -> list[str]:
        met = []
        for net in (self.first, self.second):
            met += self.names(net, leaves(net, [*net.outputs, *net.registers.values()]))
        return distinct(met + self.declared())

    def interleaved(self) -> list[str]:
        """A variable that a walk meets for the first time goes right after the one that the walk met before it, or to the front."""
        order: list[str] = []
        for net in (self.first, self.second):
            rank = ranks(net).__getitem__
            for root in falling([*net.outputs, *net.registers.values()], rank):
                last: str | None = None
                for name in self.names(net, leaves(net, [root], rank)):
                    if name not in order:
                        order.insert(order.index(last) + 1 if last is not None else 0, name)
                    last = name
        return distinct(order + self.declared())

    def of_condition(self) -> list[str]:
        return [*self.given.inputs, *self.given.registers] if self.given else []

    def extended(self, names: Collection[str]) -> list[str]:
        """Those of the names that are variables, then the others as declared, a condition's last."""
        variables = [*self.declared(), *self.of_condition()]
        return distinct([*(name for name in names if name in variables), *variables])

    def by_index(self) -> list[str]:
        """By the number at the end of a name; a condition's variables are among the others."""
        return sorted(distinct([*self.declared(), *self.of_condition()]), key=index_key)

    def by_force(self) -> list[str]:
        """The order after the rounds of FORCE, the last variable first; the edges are the gates of all netlists, a condition's too."""
        variables = self.by_index()
        number = {name: i for i, name in enumerate(variables)}
        rank = [0] * len(variables)
        edges: list[list[int]] = []
        for net in filter(None, (self.first, self.second, self.given)):
            vertex = {s: number[self.name(net, s)] for s in [*net.inputs, *net.registers]}
            vertex |= {s: len(rank) + i for i, s in enumerate(net.gates)}
            edges += [[vertex[s] for s in [*operands, out]] for out, (_, operands) in net.gates.items()]
            known = ranks(net)
            rank += [known[s] for s in net.gates]
        return [variables[v] for v in reversed(moved(len(variables), edges, rank)) if v < len(variables)]


def counts(net: Netlist) -> tuple[int, int, int]:
    return len(net.inputs), len(net.outputs), len(net.registers)


MOST_NUMBER = 10**18


def index_key(name: str) -> int:
    """0 if no number is at the end of a name, else one more than it; after it there may be other characters, but no letter."""
    found = re.fullmatch(r".*?([0-9]+)[^0-9A-Za-z]*", name)
    return 1 + min(int(found[1]), MOST_NUMBER) if found else 0


# FORCE (Aloul, Markov and Sakallah 2003). Vertices are numbers, the variables first, then the gates; the edge of a gate has its operands
# and, last, the gate.

PARTS, WHOLE = 65_536, 16_777_216


def moved(variables: int, edges: list[list[int]], rank: list[int]) -> list[int]:
    """The vertices in their order after two rounds, which begin with each gate right after the last variable below it."""
    by_rank = sorted(range(len(rank)), key=rank.__getitem__)
    last = list(range(variables)) + [0] * len(edges)
    for vertex in by_rank:
        if vertex >= variables:
            last[vertex] = max(last[operand] for operand in edges[vertex - variables][:-1])
    return settled(edges, settled(edges, sorted(by_rank, key=last.__getitem__)))


def mean(total: int, count: int) -> int:
    """In whole numbers, by a share that is rounded down."""
    return total * (WHOLE // count) // WHOLE


def settled(edges: list[list[int]], order: list[int]) -> list[int]:
    """One round. In each of its steps each vertex goes to the mean of its edges' centres; one without edges keeps its place. After the
    steps the vertices are sorted by their places, equal ones in the order before the round."""
    place = {vertex: PARTS * i for i, vertex in enumerate(order)}
    for _ in range(max(10, min(40, 524_288 // (len(order) + 1)))):
        centres: dict[int, list[int]] = {vertex: [] for vertex in order}
        for edge in edges:
            centre = mean(sum(place[vertex] for vertex in edge), len(edge))
            for vertex in edge:
                centres[vertex].append(centre)
        place |= {vertex: mean(sum(drawing), len(drawing)) for vertex, drawing in centres.items() if drawing}
    return sorted(order, key=place.__getitem__)


def falling(signals: Iterable[str], rank: Callable[[str], int]) -> list[str]:
    """By falling rank, equal ranks from left to right."""
    return sorted(signals, key=rank, reverse=True)


def ranks(net: Netlist) -> dict[str, int]:
    """The length of the longest chain of gates below each signal."""
    known = {signal: 0 for signal in [*net.inputs, *net.registers]}
    while len(known) < len(net.inputs) + len(net.registers) + len(net.gates):
        for signal, (_, operands) in net.gates.items():
            if signal not in known and all(operand in known for operand in operands):
                known[signal] = 1 + max(known[operand] for operand in operands)
    return known


def leaves(net: Netlist, roots: Sequence[str], rank: Callable[[str], int] | None = None) -> list[str]:
    """The sources below the roots, each at its first place: operands from left to right, or by falling rank."""
    met, seen, path = [], set(), list(reversed(roots))
    while path:
        signal = path.pop()
        if signal in seen:
            continue
        seen.add(signal)
        if signal in net.gates:
            operands = net.gates[signal][1]
            path.extend(reversed(falling(operands, rank) if rank else operands))
        else:
            met.append(signal)
    return met


def by_rule(rule: Callable[[order_reference.Pair], list[str]]) -> Callable[[Paired], list[str]]:
    """An order of order_reference.py, of paired netlists."""
    return lambda paired: rule(order_reference.Pair.of(paired))


# The orders by their words. A new order is one line here, from the paired netlists to a list of names. Without a limit `best` takes its
# first candidate, msb-first, and `auto`, `cones` and `merge` report as by declared order.
ORDERS: dict[str, Callable[[Paired], list[str]]] = {
    "declared": Paired.declared,
    "depth": Paired.by_depth,
    "best": by_rule(order_reference.msb_first),
    "interleave": Paired.interleaved,
    "index": Paired.by_index,
    "force": Paired.by_force,
    "msb-first": by_rule(order_reference.msb_first),
    "weights": by_rule(order_reference.weights),
    "force-groups": by_rule(order_reference.force_groups),
    "auto": Paired.declared,
    "cones": Paired.declared,
    "merge": Paired.declared,
}


def levels(paired: Paired, order: str | list[str]) -> list[str]:
    """The names of the variables in level order. `order` is a word, or a list of names."""
    variables = distinct([*paired.declared(), *paired.of_condition()])
    if len(variables) > MOST_VARIABLES:
        raise Refusal(f"order: more than {MOST_VARIABLES} variables")
    if isinstance(order, str):
        return distinct([*ORDERS[order](paired), *paired.of_condition()])
    for i, name in enumerate(order):
        if name not in variables or name in order[:i]:
            raise Refusal(f"order: name {i + 1} of the list does not fit")
    if len(order) < len(variables):
        raise Refusal(f"order: name {len(order) + 1} of the list does not fit")
    return order


# Functions. Bit i of a table is the value at the assignment whose level 0 is the highest bit of i.


def variable_tables(count: int) -> list[int]:
    size = 1 << count
    tables = []
    for level in range(count):
        run = 1 << (count - 1 - level)
        table, width = ((1 << run) - 1) << run, 2 * run
        while width < size:
            table |= table << width
            width *= 2
        tables.append(table)
    return tables


def support(tables: Iterable[int], count: int) -> set[int]:
    """The levels on which one of these functions depends."""
    ones = variable_tables(count)
    parted = [
        (table & ones[level], table & (ones[level] >> (1 << (count - 1 - level))), level) for table in tables for level in range(count)
    ]
    return {level for high, low, level in parted if high >> (1 << (count - 1 - level)) != low}


FOLDS: dict[str, Callable[[int, int], int]] = {
    "AND": lambda a, b: a & b,
    "NAND": lambda a, b: a & b,
    "OR": lambda a, b: a | b,
    "NOR": lambda a, b: a | b,
    "XOR": lambda a, b: a ^ b,
    "XNOR": lambda a, b: a ^ b,
}
COMPLEMENTED = {"NAND", "NOR", "XNOR", "NOT"}


class Functions:
    """The tables of all signals of a netlist, of the folds that build them, and the pairs that these are asked of."""

    def __init__(self, net: Netlist, paired: Paired, tables: Mapping[str, int], whole: int) -> None:
        self.whole = whole
        self.folds: list[int] = []
        self.asked: list[tuple[int, int]] = []
        self.known = {s: tables[paired.name(net, s)] for s in [*net.inputs, *net.registers]}
        waiting = dict(net.gates)
        while waiting:
            for signal, (word, operands) in list(waiting.items()):
                if all(operand in self.known for operand in operands):
                    self.known[signal] = self.gate(word, [self.known[operand] for operand in operands])
                    del waiting[signal]

    def gate(self, word: str, values: list[int]) -> int:
        result = values[0]
        for i, value in enumerate(values[1:], 2):
            self.asked.append((result, value))
            result = FOLDS[word](result, value)
            if i == len(values) and word in COMPLEMENTED:
                result ^= self.whole
            self.folds.append(result)
        if len(values) == 1 and word in COMPLEMENTED:
            result ^= self.whole
            self.folds.append(result)
        return result


def node_count(functions: Iterable[int], count: int) -> int:
    """The nodes of the shared reduced ordered diagrams of functions of so many variables."""

    def kept(tables: Iterable[int], bits: int) -> set[int]:
        """One table for a function and its complement, since by complement edges they share a node."""
        return {min(t, t ^ bits) for t in tables}

    at_level, nodes = kept(functions, (1 << (1 << count)) - 1), 0
    for level in range(count):
        half = 1 << (count - 1 - level)
        low_bits = (1 << half) - 1
        parts = [(table & low_bits, table >> half) for table in at_level]
        nodes += sum(low != high for low, high in parts)
        at_level = kept((part for pair in parts for part in pair), low_bits)
    return nodes


def reached(pair: tuple[int, int], count: int) -> int:
    """An upper bound of the requests that a fold of two functions of so many variables reaches: the pairs of their cofactors of which
    one depends on the level, and the first pair."""
    at_level, requests = {pair}, 1
    for level in range(count):
        half = 1 << (count - 1 - level)
        low_bits = (1 << half) - 1
        parts = [((f & low_bits, g & low_bits), (f >> half, g >> half)) for f, g in at_level]
        requests += sum(low != high for low, high in parts)
        at_level = {part for low_and_high in parts for part in low_and_high}
    return requests


@dataclass
class Pair:
    """Two outputs, or the next states of two registers, which have a label: their name, signals, and line; and their tables, with that of the
    condition."""

    label: str
    name: str
    first: str
    second: str
    line: str
    tables: tuple[int, ...] = ()


@dataclass
class Unpaired:
    """An output or a register of one of the netlists, FIRST or SECOND, without a partner."""

    side: str
    label: str
    name: str


@dataclass
class Judged:
    """What the report says, how many nodes are needed for it, of which pairs of functions folds are asked, and on which variables the two
    functions of a pair that differs depend, by its label."""

    pairs: list[Pair]
    unmatched: list[Unpaired]
    nodes: int
    asked: list[tuple[int, int]]
    count: int
    supports: dict[str, set[str]]

    def requests(self) -> int:
        """An upper bound of the requests of each wave."""
        return sum(reached(pair, self.count) for pair in self.asked)


def paired_outputs(first: list[str], second: list[str], by_position: bool) -> tuple[list[tuple[str, str]], list[str], list[str]]:
    """The pairs of two lists of names, and those without a partner."""
    if by_position:
        return list(zip(first, second)), [], []
    pairs = [(name, name) for name in first if name in second]
    return pairs, [name for name in first if name not in second], [name for name in second if name not in first]


def judge(paired: Paired, order: str | list[str], sizes: bool) -> Judged:
    names = levels(paired, order)
    count = len(names)
    whole = (1 << (1 << count)) - 1
    tables = dict(zip(names, variable_tables(count)))
    nets = [paired.first, paired.second, *filter(None, [paired.given])]
    first, second, *given = known = [Functions(net, paired, tables, whole) for net in nets]
    built = [*tables.values(), *(fold for functions in known for fold in functions.folds)]
    asked = [pair for functions in known for pair in functions.asked]
    condition = given[0].known[paired.given.outputs[0]] if paired.given else whole
    compared, supports = [], {}

    def line(what: str, name: str, f: int, g: int) -> str:
        if given:
            asked.extend([(f, condition), (g, condition)])
        f, g = f & condition, g & condition
        compared.extend([f, g])
        if f == g:
            return f"EQUAL {what}{name}" + (f" size {node_count([f], count)}" if sizes else "")
        supports[f"{what}{name}"] = {names[level] for level in support([f, g], count)}
        place = ((f ^ g) & -(f ^ g)).bit_length() - 1
        bits = [f"{v}={place >> (count - 1 - i) & 1}" for i, v in enumerate(names)]
        reported = f"DIFFER {what}{name} at {' '.join([*bits, f'first={f >> place & 1}', f'second={g >> place & 1}'])}"
        return reported + (f" sizes {node_count([f], count)} {node_count([g], count)}" if sizes else "")

    pairs: list[Pair] = []
    alone: tuple[list[Unpaired], list[Unpaired]] = [], []
    for what, parts in (("", outputs), ("NEXT ", next_states)):
        both, *only = paired_outputs(parts(paired.first), parts(paired.second), paired.by_position)
        for a, b in both:
            f, g = signal(what, paired.first, a), signal(what, paired.second, b)
            f_table, g_table = first.known[f], second.known[g]
            pairs.append(Pair(what, a, f, g, line(what, a, f_table, g_table), (f_table, g_table, condition)))
        for side, unmatched, single in zip(("FIRST", "SECOND"), alone, only):
            unmatched += [Unpaired(side, what, name) for name in single]
    if given:
        built += compared
    return Judged(pairs, [*alone[0], *alone[1]], node_count(built, count), asked, count, supports)


def outputs(net: Netlist) -> list[str]:
    return net.outputs


def next_states(net: Netlist) -> list[str]:
    return list(net.registers)


def signal(what: str, net: Netlist, name: str) -> str:
    return net.registers[name] if what else name
