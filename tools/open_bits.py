"""Which of the bits that a design leaves open (x, z, or without a driver) something depends on. tools/rtl2bench.py asks this of each.

A `case` statement that names each of its values still has a multiplexer with an open operand, which is chosen when none of its branches
is: never. So an open bit is followed through the gates that read it, with the set of assignments at which each of these may change with
it. A set is a table over few signals, the leaves: bit i of the table is the i-th assignment. A gate for which the set is empty does not
depend on the open bit. What is not known of a signal is taken to be possible, so a bit of which is_seen says no is seen by nothing; one of
which it says yes may still be unseen.
"""
from __future__ import annotations

import heapq
from collections.abc import Callable, Iterable
from dataclasses import dataclass, field
from typing import Any, Union

# A bit of yosys's JSON: a number, or a constant ('0', '1', 'x', 'z').
Bit = Union[int, str]
# A place where a bit is read: the output of a gate, and the name of its port.
Place = tuple[Bit, str]

# The leaves of one table, and those that a single operand may add. If its cone has more, it is cut at a place at which that many are enough, and the
# smaller number leaves more to other operands; so both are tried.
MOST_LEAVES = 14
MOST_LEAVES_OF_ONE: tuple[int, ...] = (14, 5)
# The gates that are expanded for one operand, and those that an open bit is followed through.
MOST_EXPANDED = 4000
MOST_FOLLOWED = 2000
ALL = (1 << (1 << MOST_LEAVES)) - 1


@dataclass(frozen=True)
class Value:
    """The assignments at which a signal may be 0, at which it may be 1, and at which it may change with the open bit."""

    zero: int
    one: int
    change: int = 0


ANY = Value(ALL, ALL)
OPEN = Value(ALL, ALL, ALL)
CONSTANTS: dict[Bit, Value] = {"0": Value(ALL, 0), "1": Value(0, ALL), "x": ANY, "z": ANY}


def complement(value: Value) -> Value:
    return Value(value.one, value.zero, value.change)


def conjunction(a: Value, b: Value) -> Value:
    """If it changes, one operand changes, and the other is 1 when the result is."""
    zero, one = a.zero | b.zero, a.one & b.one
    return Value(zero, one, (a.change & b.one | b.change & a.one) & zero & one)


def disjunction(a: Value, b: Value) -> Value:
    return complement(conjunction(complement(a), complement(b)))


def parity(a: Value, b: Value) -> Value:
    return Value(a.zero & b.zero | a.one & b.one, a.zero & b.one | a.one & b.zero, a.change | b.change)


FOLDS: dict[str, Callable[..., Any]] = {
    "AND": conjunction,
    "OR": disjunction,
    "XOR": parity,
    "NAND": lambda a, b: complement(conjunction(a, b)),
    "NOR": lambda a, b: complement(disjunction(a, b)),
    "XNOR": lambda a, b: complement(parity(a, b)),
    "NOT": complement,
    "BUFF": lambda a: a,
}


def fold(steps: list[str], ports: dict[str, Value]) -> Value:
    """The value of a cell's output; an operand of a step is a port or the number of an earlier step."""
    made: list[Value] = []
    for step in steps:
        word, *operands = step.split()
        made.append(FOLDS[word](*[made[int(o)] if o.isdigit() else ports[o] for o in operands]))
    return made[-1]


def variable(place: int) -> Value:
    """The leaf at this place: blocks of 2**place zeros and as many ones, in turn."""
    block = 1 << place
    one = ALL // ((1 << 2 * block) - 1) * (((1 << block) - 1) << block)
    return Value(ALL ^ one, one)


VARIABLES = [variable(place) for place in range(MOST_LEAVES)]


@dataclass
class Gate:
    """A cell: its steps, and the bits at its ports."""

    steps: list[str]
    ports: dict[str, Bit]


@dataclass
class Known:
    """Values of signals that do not depend on the open bit, over the leaves that were taken so far."""

    values: dict[Bit, Value] = field(default_factory=CONSTANTS.copy)
    leaves: int = 0

    def copy(self) -> Known:
        return Known(dict(self.values), self.leaves)


class OpenBits:
    """The gates of a module, with those that read each bit. `ends` are the bits that an output or a register reads."""

    def __init__(self, gates: dict[Bit, Gate], ends: set[Bit]) -> None:
        self.gates = {out: Gate(gate.steps, dict(gate.ports)) for out, gate in gates.items()}
        self.ends = ends
        self.readers: dict[Bit, list[Bit]] = {}
        for out, gate in gates.items():
            for bit in set(gate.ports.values()):
                self.readers.setdefault(bit, []).append(out)
        self.levels = self.levels_of_gates()
        self.selected: dict[tuple[Bit, int], Known] = {}
        self.read_constants()

    def read_constants(self) -> None:
        """Has gates read a constant in place of a gate that is one, so that it is no leaf."""
        constants: dict[Bit, Bit] = {}
        for out in sorted(self.levels, key=lambda out: self.levels[out]):
            gate = self.gates[out]
            gate.ports = {port: constants.get(bit, bit) for port, bit in gate.ports.items()}
            value = fold(gate.steps, {port: CONSTANTS.get(bit, ANY) for port, bit in gate.ports.items()})
            if not value.zero or not value.one:
                constants[out] = "0" if value.zero else "1"

    def settle(self, out: Bit, port: str) -> None:
        """Makes 0 of an open bit that nothing sees."""
        self.gates[out].ports[port] = "0"

    def levels_of_gates(self) -> dict[Bit, int]:
        """How many gates are on the longest path to each gate. A gate of a loop, or after one, has none."""
        missing = {out: sum(bit in self.gates for bit in set(gate.ports.values())) for out, gate in self.gates.items()}
        levels: dict[Bit, int] = {}
        ready = [out for out, count in missing.items() if count == 0]
        for out in ready:
            levels[out] = 1 + max((levels.get(bit, 0) for bit in self.gates[out].ports.values()), default=0)
            for reader in self.readers.get(out, []):
                missing[reader] -= 1
                if missing[reader] == 0:
                    ready.append(reader)
        return levels

    def is_seen(self, places: list[Place]) -> bool:
        """Whether anything may depend on an open bit that is read at these places."""
        return any(out not in self.levels for out, _ in places) or all(self.is_seen_by(places, most) for most in MOST_LEAVES_OF_ONE)

    def is_seen_by(self, places: list[Place], most: int) -> bool:
        """The same, if an operand may add so many leaves. Gates that read one that changes are visited from the lowest level up. So what a
        gate reads and was not visited does not change, and nothing that is visited is below a leaf."""
        waiting: list[tuple[int, Any]] = sorted({(self.levels[out], out) for out, _ in places})
        known, met = self.base(self.gates[waiting[0][1]], most), {out for _, out in waiting}
        visited = 0
        while waiting and visited < MOST_FOLLOWED:
            out = heapq.heappop(waiting)[1]
            visited += 1
            known.values[out] = self.value(out, places, known, most)
            if not known.values[out].change:
                continue
            further = [reader for reader in self.readers.get(out, []) if reader not in met]
            if out in self.ends or any(reader not in self.levels for reader in further):
                return True
            met.update(further)
            for reader in further:
                heapq.heappush(waiting, (self.levels[reader], reader))
        return bool(waiting)

    def value(self, out: Bit, places: list[Place], known: Known, most: int) -> Value:
        """The value of a gate. Of a multiplexer only what selects is expanded, of other gates each operand."""
        gate, ports = self.gates[out], {}
        for port, bit in gate.ports.items():
            if port == "S" or "S" not in gate.ports:
                self.expand(known, bit, most)
            ports[port] = OPEN if (out, port) in places else known.values.get(bit, ANY)
        return fold(gate.steps, ports)

    def base(self, gate: Gate, most: int) -> Known:
        """What is known once the selecting operand of a multiplexer is expanded; many open bits have the same."""
        select = gate.ports.get("S")
        if select is None:
            return Known()
        if (select, most) not in self.selected:
            self.selected[select, most] = Known()
            self.expand(self.selected[select, most], select, most)
        return self.selected[select, most].copy()

    def expand(self, known: Known, bit: Bit, most: int) -> None:
        """Makes the value of a bit known, over at most so many new leaves: its cone is expanded from the highest gate down."""
        most = min(most, MOST_LEAVES - known.leaves)
        if bit in known.values or not isinstance(bit, int):
            return
        expanded: list[Bit] = []
        cut: set[Bit] = {bit}
        deepest: tuple[int, set[Bit]] | None = None
        waiting: list[tuple[int, Any]] = [(-self.levels[bit], bit)] if bit in self.levels else []
        while True:
            if len(cut) <= most:
                deepest = (len(expanded), set(cut))
            if not waiting or len(expanded) > MOST_EXPANDED:
                break
            highest = heapq.heappop(waiting)[1]
            expanded.append(highest)
            cut.remove(highest)
            for below in self.gates[highest].ports.values():
                if below not in known.values and below not in cut:
                    cut.add(below)
                    if below in self.levels:
                        heapq.heappush(waiting, (-self.levels[below], below))
        if deepest is None:
            return
        count, cut = deepest
        for leaf in cut:
            known.values[leaf] = VARIABLES[known.leaves]
            known.leaves += 1
        for out in reversed(expanded[:count]):
            gate = self.gates[out]
            known.values[out] = fold(gate.steps, {port: known.values[below] for port, below in gate.ports.items()})


def read_places(gates: dict[Bit, Gate], bits: Iterable[Bit]) -> dict[Bit, list[Place]]:
    """Where each of these bits is read."""
    found: dict[Bit, list[Place]] = {bit: [] for bit in bits}
    for out, gate in gates.items():
        for port, bit in gate.ports.items():
            if bit in found:
                found[bit].append((out, port))
    return found
