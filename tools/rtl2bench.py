#!/usr/bin/env python3
"""What tools/rtl2bench.sh does without yosys: it writes yosys's JSON as a bench netlist, and compares what two such netlists say of
their registers. tools/rtl2bench.sh --help says how both are called.

A bench netlist has `q = DFF(n)` for a register, and nothing of its clock, edge, reset or initial value. These are comments at its head:

    # register q[0] kind=flip-flop clock=clk edge=rising clear=rst/1 set=none init=0
    # also q[0] u_part.state[0]
    # box u_ram module=ram parameters=DEPTH:16

`clear=rst/1` is an asynchronous reset to 0 while `rst` is 1. A clock or reset that is neither an input nor a register is `@`, and its
function an output `q[0]@clock`, `q[0]@clear` or `q[0]@set`, so that bddcheck compares it. What is `unknown` is like nothing. `also` has the
other names that the design has for the register, by which `--like` finds it in another netlist. A box is an instance of a module without
a body: its outputs are inputs of the netlist, and its inputs are outputs, by names such as `u_ram.addr[0]`.
"""
from __future__ import annotations

import argparse
import hashlib
import json
import re
import string
import sys
from collections.abc import Callable, Collection, Iterator, Mapping
from dataclasses import dataclass, field
from typing import Any, Optional

from open_bits import Bit, Gate, OpenBits, Place, read_places

JsonObject = dict[str, Any]
# A bit, and the level at which it acts on a register.
Control = tuple[Bit, int]
# Where a bit is read: the output of a gate and the name of its port, or None for a register or a port of the module.
Reader = Optional[Place]
# The name of a register, output or net, and its line in the source.
Origin = tuple[str, str]

MARK = "# rtl2bench 1:"
REGISTER = "# register "
ALSO = "# also "
BOX = "# box "
FACTS = ["kind", "clock", "edge", "clear", "set", "init"]
BOX_FACTS = ["module", "parameters"]
MOST_NAME = 255
# The lines of one kind that are printed about a design.
MOST_NOTES = 20
# The largest cone of a clock or reset that is looked through here.
MOST_LEAVES = 8
MOST_GATES = 200


class Refusal(Exception):
    """Why nothing is written or compared."""


# Gates. What is written for a cell of yosys: words of the format with operands, each of which is a port or an earlier line, and the last line
# is the output Y.

CELLS = {
    "$_BUF_": ["BUFF A"],
    "$_NOT_": ["NOT A"],
    "$_AND_": ["AND A B"],
    "$_NAND_": ["NAND A B"],
    "$_OR_": ["OR A B"],
    "$_NOR_": ["NOR A B"],
    "$_XOR_": ["XOR A B"],
    "$_XNOR_": ["XNOR A B"],
    "$_ANDNOT_": ["NOT B", "AND A 0"],
    "$_ORNOT_": ["NOT B", "OR A 0"],
    "$_MUX_": ["NOT S", "AND A 0", "AND B S", "OR 1 2"],
    "$_NMUX_": ["NOT S", "AND A 0", "AND B S", "NOR 1 2"],
    "$_AOI3_": ["AND A B", "NOR 0 C"],
    "$_OAI3_": ["OR A B", "NAND 0 C"],
    "$_AOI4_": ["AND A B", "AND C D", "NOR 0 1"],
    "$_OAI4_": ["OR A B", "OR C D", "NAND 0 1"],
}

# The registers that are left after dfflegalize. Letters in brackets are the active level of clock, clear and set: P for 1, N for 0.
REGISTERS = [
    (r"\$_FF_", "flip-flop", ""),
    (r"\$_DFF_([NP])_", "flip-flop", "C"),
    (r"\$_DFF_([NP])([NP])([01])_", "flip-flop", "CRv"),
    (r"\$_DFFSR_([NP])([NP])([NP])_", "flip-flop", "CSR"),
    (r"\$_DLATCH_([NP])_", "latch", "E"),
    (r"\$_DLATCH_([NP])([NP])([01])_", "latch", "ERv"),
    (r"\$_DLATCHSR_([NP])([NP])([NP])_", "latch", "ESR"),
    (r"\$_SR_([NP])([NP])_", "latch", "SR"),
]


@dataclass
class Register:
    """A register of one bit. Each control is a bit and the level at which it acts; `enable` is a latch's."""

    kind: str
    q: Bit
    data: Bit | None = None
    clock: Control | None = None
    enable: Control | None = None
    clear: Control | None = None
    set: Control | None = None
    init: str = "x"
    name: str = ""
    # The register's name is that of the complement of its bit: the bit of that name.
    complement: Bit | None = None
    # The line of the source that it is from.
    line: str = ""

    def reads(self) -> list[Control]:
        """The bits that it reads, each with the level at which it acts."""
        controls = (self.clock, self.enable, self.clear, self.set, None if self.data is None else (self.data, 1))
        return [control for control in controls if control is not None]


@dataclass
class Box:
    """An instance of a module without a body."""

    name: str
    module: str
    parameters: dict[str, str]

    def facts(self) -> dict[str, str]:
        """What `--compare` compares of it. A comma divides parameters, so written() replaces those in values."""
        told = ",".join(written(f"{name}:{value}") for name, value in sorted(self.parameters.items()))
        return {"module": written(self.module), "parameters": told or "none"}


def register_of(cell_type: str, ports: dict[str, list[Bit]]) -> Register | None:
    """The register of a cell, or None."""
    for pattern, kind, roles in REGISTERS:
        match = re.fullmatch(pattern, cell_type)
        if not match:
            continue
        register = Register(kind, ports["Q"][0], ports["D"][0] if "D" in ports else None)
        signs = dict(zip(roles, match.groups()))
        controls = {port: (ports[port][0], int(sign == "P")) for port, sign in signs.items() if port != "v"}
        register.clock, register.enable = controls.get("C"), controls.get("E")
        register.clear, register.set = controls.get("R"), controls.get("S")
        if signs.get("v") == "1":
            register.clear, register.set = None, register.clear
        return register
    return None


def variable_tables(count: int) -> list[int]:
    """The truth tables of so many variables: bit i of a table is the value at the i-th assignment."""
    return [sum(1 << i for i in range(1 << count) if i >> variable & 1) for variable in range(count)]


FOLDS: dict[str, Callable[..., Any]] = {
    "AND": lambda a, b: a & b,
    "OR": lambda a, b: a | b,
    "XOR": lambda a, b: a ^ b,
    "NAND": lambda a, b: ~(a & b),
    "NOR": lambda a, b: ~(a | b),
    "XNOR": lambda a, b: ~(a ^ b),
    "NOT": lambda a: ~a,
    "BUFF": lambda a: a,
}


def cell_table(steps: list[str], tables: Mapping[str, int], whole: int) -> int:
    """The truth table of a cell's output, from those of its ports."""
    made: list[int] = []
    for step in steps:
        word, *operands = step.split()
        made.append(FOLDS[word](*[made[int(o)] if o.isdigit() else tables[o] for o in operands]) & whole)
    return made[-1]


def is_set(attributes: dict[str, str], name: str) -> bool:
    """Whether an attribute is there and is not 0."""
    value = str(attributes.get(name, "0"))
    return int(value, 2) != 0 if re.fullmatch("[01]+", value) else bool(value.strip())


def line_of(attributes: dict[str, str]) -> str:
    """The file and line of the source that an attribute names, the innermost if there are instances around it; or nothing."""
    for place in reversed(str(attributes.get("src", "")).split("|")):
        match = re.fullmatch(r"(.+):([1-9]\d*)(\.\d+(-[\d.]+)?|-\d+)?", place)
        if match and "/share/yosys/" not in match[1]:
            return f"{match[1][2:] if match[1].startswith('./') else match[1]}:{match[2]}"
    return ""


def bits_at(cell: JsonObject, is_input: bool) -> list[Bit]:
    """The bits at the inputs of a cell, or at its other ports."""
    directions = cell.get("port_directions", {})
    ports = cell["connections"].items()
    return [bit for port, bits in ports if (directions.get(port, "output") == "input") == is_input for bit in bits]


class Module:
    """The top module of a yosys JSON, flat and of fine gates. A bit is a number, or a constant: '0', '1', 'x' or 'z'."""

    def __init__(self, design: JsonObject, liked_boxes: Collection[str] = ()) -> None:
        modules = design["modules"]
        tops = [name for name, module in modules.items() if is_set(module["attributes"], "top")]
        if len(tops) != 1:
            raise Refusal("yosys did not tell one top module")
        self.name, module = tops[0], modules[tops[0]]
        self.modules, self.prefix, self.liked_boxes = modules, prefix_of(module), liked_boxes
        self.inputs: list[tuple[str, Bit]] = []
        self.outputs: list[tuple[str, Bit]] = []
        # Of each bit that a gate drives the type of its cell, and the bits at the ports that it reads.
        self.gates: dict[Bit, tuple[str, dict[str, Bit]]] = {}
        self.registers: list[Register] = []
        self.boxes: list[Box] = []
        self.drivers: dict[Bit, str] = {}
        self.single_known: dict[Bit, tuple[Bit, bool] | None] = {}
        # The lines of the source: of a bit that a gate or a net of the design drives, and of a named bit that is open.
        self.lines: dict[Bit, str] = {}
        self.open_lines: dict[str, str] = {}
        # The names that a bit has in the design, and those that yosys has made.
        self.aliases: dict[Bit, list[str]] = {}
        self.hidden: dict[Bit, list[str]] = {}
        inits: dict[Bit, str] = {}
        for name, port in module["ports"].items():
            self.add_port(name, port)
        for name, net in module["netnames"].items():
            self.add_net(name, net)
            add_inits(inits, net)
        # Buffers and inverters, also those that drive nothing else: the names of their nets may be those of registers.
        self.through: dict[Bit, tuple[Bit, bool]] = {
            cell["connections"]["Y"][0]: (cell["connections"]["A"][0], cell["type"] == "$_NOT_")
            for cell in module["cells"].values()
            if cell["type"] in ("$_BUF_", "$_NOT_")
        }
        self.own_outputs = len(self.outputs)
        needed = self.needed(module)
        for name, cell in module["cells"].items():
            if name in needed:
                self.add_cell(name, cell)
        for register in self.registers:
            register.init = inits.get(register.q, "x")
        self.settle_open_bits()

    def add_port(self, name: str, port: JsonObject) -> None:
        if port["direction"] == "inout":
            raise Refusal(f"port {name}: a bench netlist has no port of both directions")
        for bit, named in zip(port["bits"], bit_names(name, port)):
            if port["direction"] == "output":
                self.outputs.append((named, bit))
            else:
                self.drive(bit, named, f"input {named}")
                self.inputs.append((named, bit))

    def add_net(self, name: str, net: JsonObject) -> None:
        """Notes the names of its bits, and the line of a net that the design has named."""
        known = self.hidden if net["hide_name"] else self.aliases
        line = "" if net["hide_name"] else line_of(net["attributes"])
        for bit, named in zip(net["bits"], bit_names(name, net)):
            known.setdefault(bit, []).append(named)
            if isinstance(bit, int) and line:
                self.lines.setdefault(bit, line)
            elif self.is_open(bit):
                self.open_lines[named] = line

    def drive(self, bit: Bit, what: str, driver: str) -> None:
        if not isinstance(bit, int):
            raise Refusal(f"{what} has two drivers: a constant and {driver}")
        if bit in self.drivers:
            raise Refusal(f"{self.called(bit)} has two drivers: {self.drivers[bit]} and {driver}")
        self.drivers[bit] = driver

    def called(self, bit: Bit) -> str:
        """A name of the bit, for messages."""
        return (self.aliases.get(bit) or self.hidden.get(bit) or [f"net {bit}"])[0]

    def is_box(self, cell: JsonObject) -> bool:
        """Whether the cell is an instance of a module without a body."""
        return is_set(self.modules.get(cell["type"], {"attributes": {}})["attributes"], "blackbox")

    def needed(self, module: JsonObject) -> set[str]:
        """The names of the cells on which an output, a box or something with the attribute `keep` depends, and of these boxes."""
        cells = module["cells"]
        drivers: dict[Bit, list[str]] = {}
        found = {name for name, cell in cells.items() if self.is_box(cell) or is_set(cell["attributes"], "keep")}
        for name, cell in cells.items():
            for bit in bits_at(cell, is_input=False):
                drivers.setdefault(bit, []).append(name)
        waiting = [bit for _, bit in self.outputs]
        waiting += [bit for net in module["netnames"].values() if is_set(net["attributes"], "keep") for bit in net["bits"]]
        waiting += [bit for name in found for bit in bits_at(cells[name], is_input=True)]
        while waiting:
            for name in drivers.pop(waiting.pop(), []):
                if name not in found:
                    found.add(name)
                    waiting += bits_at(cells[name], is_input=True)
        return found

    def add_cell(self, name: str, cell: JsonObject) -> None:
        if self.is_box(cell):
            self.add_box(name, cell)
            return
        ports, outputs = cell["connections"], bits_at(cell, is_input=False)
        if not outputs:
            return  # an assertion, or a note on the hierarchy
        register = register_of(cell["type"], ports)
        if register is None and cell["type"] not in CELLS:
            raise Refusal(f"cell {name}: yosys knows no gates for its type {cell['type']}")
        for bit in outputs:
            self.drive(bit, self.called(bit), f"cell {name}")
        if register is not None:
            register.line = line_of(cell["attributes"])
            self.registers.append(register)
        else:
            self.gates[outputs[0]] = (cell["type"], {port: bits[0] for port, bits in ports.items() if port != "Y"})
            self.lines[outputs[0]] = line_of(cell["attributes"]) or self.lines.get(outputs[0], "")

    def add_box(self, name: str, cell: JsonObject) -> None:
        """Its outputs become inputs of the netlist, and its inputs become outputs."""
        module = self.modules[cell["type"]]
        # yosys writes the parameters into the name of a module that it has made for them.
        made = re.match(r"\$paramod(?:\$[0-9a-f]+)?\\([^\\]+)", cell["type"])
        kind = made[1] if made else cell["type"]
        name = next((spelt for spelt in spellings(name) if spelt in self.liked_boxes), name)
        for port, bits in cell["connections"].items():
            direction = cell["port_directions"][port]
            if direction == "inout":
                raise Refusal(f"port {port} of {name}, a {kind} without a body: a bench netlist has no port of both directions")
            for bit, named in zip(bits, bit_names(f"{name}.{port}", {**module["ports"][port], "bits": bits})):
                if direction == "input":
                    self.outputs.append((named, bit))
                else:
                    self.drive(bit, named, f"output {named}")
                    self.inputs.append((named, bit))
        values = {**module.get("parameter_default_values", {}), **cell["parameters"]}
        parameters = {name: str(int(value, 2)) if re.fullmatch("[01]+", value) else value for name, value in values.items()}
        self.boxes.append(Box(name, kind, parameters))

    def settle_open_bits(self) -> None:
        """Makes 0 of each open bit on which nothing depends. A net that yosys has made and that nothing drives is such a bit."""
        gates = {out: Gate(CELLS[kind], ports) for out, (kind, ports) in self.gates.items()}
        below = [bit for gate in gates.values() for bit in gate.ports.values()]
        undriven = dict.fromkeys(bit for bit in below if isinstance(bit, int) and bit not in self.drivers)
        for out, port in [place for places in read_places(gates, [*undriven, "x", "z"]).values() for place in places]:
            if gates[out].ports[port] not in self.aliases:
                gates[out].ports[port] = "x"
        ends = {bit for _, bit in self.outputs} | {control[0] for register in self.registers for control in register.reads()}
        places = read_places(gates, [*undriven, "x", "z"])
        groups = [[place] for bit in "xz" for place in places[bit]] + [places[bit] for bit in undriven if bit not in ends]
        if not any(groups):
            return
        bits = OpenBits(gates, ends)
        for group in groups:
            if group and not bits.is_seen(group):
                for out, port in group:
                    gates[out].ports[port] = "0"
                    bits.settle(out, port)

    def is_open(self, bit: Bit) -> bool:
        """Whether the design leaves the bit open."""
        return not isinstance(bit, int) and bit not in "01"

    def readers(self) -> dict[Bit, list[Reader]]:
        """Of each bit, where it is read."""
        found: dict[Bit, list[Reader]] = {}
        for out, (kind, ports) in self.gates.items():
            for port, bit in ports.items():
                found.setdefault(bit, []).append((out, port))
        for register in self.registers:
            for bit, _ in register.reads():
                found.setdefault(bit, []).append(None)
        for _, bit in self.outputs:
            found.setdefault(bit, []).append(None)
        return found

    def choosers(self) -> dict[Bit, Bit]:
        """Of each multiplexer that may choose an open bit, the last one after it that only chooses on."""
        readers = self.readers()
        last: dict[Bit, Bit] = {}
        for bit, (kind, ports) in self.gates.items():
            root = bit
            while kind == "$_MUX_" and any(self.is_open(ports[port]) for port in "AB"):
                last[bit], read = root, readers.get(root, [])
                only = read[0] if len(read) == 1 else None
                if only is None or only[1] == "S" or self.gates[only[0]][0] != "$_MUX_":
                    break
                root = only[0]
        return last

    def source(self, bit: Bit) -> tuple[Bit, bool]:
        """The bit before all buffers and inverters, and whether these complement it."""
        inverted = False
        met: set[Bit] = set()
        while bit in self.through and bit not in met:
            met.add(bit)
            bit, inverts = self.through[bit]
            inverted ^= inverts
        return bit, inverted

    def cone(self, bit: Bit) -> tuple[list[Bit], list[Bit]] | None:
        """The gates below a bit, operands first, and the bits that they come from; nothing if they are many, or in a loop."""
        order: list[Bit] = []
        leaves: set[Bit] = set()
        open_gates: set[Bit] = set()
        done: set[Bit] = set()
        waiting = [(bit, False)]
        while waiting:
            bit, is_ready = waiting.pop()
            if is_ready:
                order.append(bit)
                open_gates.discard(bit)
                done.add(bit)
            elif bit in open_gates or len(order) > MOST_GATES or len(leaves) > MOST_LEAVES:
                return None
            elif bit not in self.gates:
                leaves.add(bit)
            elif bit not in done:
                open_gates.add(bit)
                waiting.append((bit, True))
                waiting += [(operand, False) for operand in self.gates[bit][1].values()]
        return order, sorted(leaves - {"0", "1"}, key=str)

    def single(self, bit: Bit) -> tuple[Bit, bool] | None:
        """The one bit that this bit is, and whether complemented; or a constant; None if it is a function of more, or of many."""
        if bit not in self.single_known:
            self.single_known[bit] = self.single_by_table(bit)
        return self.single_known[bit]

    def single_by_table(self, bit: Bit) -> tuple[Bit, bool] | None:
        below = self.cone(bit)
        if below is None:
            return None
        order, leaves = below
        whole = (1 << (1 << len(leaves))) - 1
        tables: dict[Bit, int] = {"0": 0, "1": whole, **dict(zip(leaves, variable_tables(len(leaves))))}
        for gate in order:
            kind, ports = self.gates[gate]
            tables[gate] = cell_table(CELLS[kind], {port: tables[operand] for port, operand in ports.items()}, whole)
        for leaf in ["0", *leaves]:
            if tables[bit] in (tables[leaf], tables[leaf] ^ whole):
                return leaf, tables[bit] != tables[leaf]
        return None


def prefix_of(module: JsonObject) -> str:
    """What the names begin with that this script gives to signals: for another netlist it is another one, so these names never pair.
    It is made of all that yosys has of the module but lines and paths, and of the names that the design has."""
    named = {name: net["bits"] for name, net in module["netnames"].items() if not net["hide_name"]}
    whole = [module["ports"], named, [[cell["type"], cell["connections"]] for cell in module["cells"].values()]]
    number = int.from_bytes(hashlib.sha256(json.dumps(whole).encode()).digest()[:8], "big")
    digits = string.digits + string.ascii_lowercase
    return f"${''.join(digits[number // 36**place % 36] for place in range(5))}$"


def bit_names(name: str, net: JsonObject) -> list[str]:
    """The names of a net's bits, as yosys writes them itself."""
    width, offset = len(net["bits"]), net.get("offset", 0)
    if width == 1:
        return [name]
    places = range(offset, offset + width)
    return [f"{name}[{i}]" for i in (reversed(places) if net.get("upto") else places)]


def add_inits(inits: dict[Bit, str], net: JsonObject) -> None:
    """The initial values that a net's attribute gives to its bits. The text has its highest bit first."""
    for bit, value in zip(net["bits"], reversed(net["attributes"].get("init", ""))):
        if value in "01" and inits.setdefault(bit, value) != value:
            raise Refusal("a register has two initial values")


# Names.


def written(name: str) -> str:
    """A name as the format can hold it; `?` as yosys has it in BLIF."""
    text = "".join(c if "!" <= c <= "~" else "?" for c in name.translate(str.maketrans("(),=#", "<>;??")))
    if len(text) > MOST_NAME:
        raise Refusal(f"a name of more than {MOST_NAME} characters: {name}")
    return text


def fact_line(head: str, name: str, facts: dict[str, str]) -> str:
    """A comment of the netlist: what the format does not hold of a register or box."""
    return f"{head}{name} {' '.join(f'{what}={told}' for what, told in facts.items())}"


def of_buses(names: list[str]) -> list[str]:
    """The names, with bits that follow one another in a bus as one: `s[0]$x` and `s[1]$x` are `s[1:0]$x`."""
    runs: list[tuple[str, int | None, int | None, str]] = []
    for name in sorted(names, key=natural):
        match = re.fullmatch(r"(.*)\[(\d+)\](\D*)", name)
        base, place, rest = (match[1], int(match[2]), match[3]) if match else (name, None, "")
        last = runs[-1] if runs else None
        if last and last[0] == base and last[3] == rest and last[2] is not None and last[2] + 1 == place:
            runs[-1] = (base, last[1], place, rest)
        else:
            runs.append((base, place, place, rest))

    def written_place(low: int | None, high: int | None) -> str:
        return "" if low is None else f"[{low}]" if low == high else f"[{high}:{low}]"

    return [f"{base}{written_place(low, high)}{rest}" for base, low, high, rest in runs]


def notes_by_line(what: str, lines: dict[str, str]) -> list[str]:
    """Lines that say this of names, each with the line of the source."""
    by_line: dict[str, list[str]] = {}
    for name, line in lines.items():
        by_line.setdefault(line, []).append(name)
    notes = [f"{line}{': ' if line else ''}{what}: {' '.join(of_buses(names))}" for line, names in by_line.items()]
    if len(notes) > MOST_NOTES:
        more = sum(len(names) for names in list(by_line.values())[MOST_NOTES:])
        notes = [*notes[:MOST_NOTES], f"{what}: {more} more"]
    return notes


def natural(name: str) -> list[tuple[int, int, str]]:
    """Sorts numbers in names as numbers."""
    return [(0, int(part), "") if part.isdigit() else (1, 0, part) for part in re.split(r"(\d+)", name) if part]


def spellings(name: str) -> list[str]:
    """The name, and as it is if a tool has joined the names of a hierarchy by `/`."""
    return [name, name.replace("/", ".")]


def is_made(name: str) -> bool:
    """Whether a tool made the name up: `_257_`, and nets inside of such a cell."""
    return re.search(r"(^|\.)(_\d+_|\$)", name) is not None or re.fullmatch(r"n\d+", name) is not None


def cell_names(aliases: list[str]) -> list[str]:
    """The names of registers that those of mapped cells have in them: `q_reg[3]` and `q_reg_3_` are of `q[3]`."""
    found = []
    for alias in aliases:
        cell = alias.rpartition(".")[0]
        found += [f"{m[1]}{m[2]}" for m in [re.fullmatch(r"(.+)_reg((?:\[\d+\])*)", cell)] if m]
        found += [f"{m[1]}[{m[2]}]" for m in [re.fullmatch(r"(.+)_reg_(\d+)_", cell)] if m]
    return found


class Names:
    """Chooses a name of its own for each signal. `like` is what another netlist says, or None."""

    def __init__(self, module: Module, style: str, like: Facts | None) -> None:
        self.module, self.style, self.like = module, style, like
        # The other netlist's name of a register, by that name and then by each other one that it has there.
        self.liked = [{name: name for name in like.registers}, like.also] if like else []
        self.taken: set[str] = set()
        # How often a name was wanted, and the name of each bit.
        self.numbers: dict[str, int] = {}
        self.of: dict[Bit, str] = {}
        self.ports = {named for named, _ in module.outputs}
        for named, bit in module.inputs:
            self.of[bit] = self.claim(written(named), named)
        self.reserved = {written(named) for named, _ in module.outputs}
        self.own: dict[Bit, set[str]] = {}
        for named, bit in module.outputs:
            self.own.setdefault(bit, set()).add(written(named))

    def claim(self, name: str, what: str) -> str:
        if name in self.taken:
            raise Refusal(f"two signals have the name {name}: {what} is one of them")
        self.taken.add(name)
        return name

    def fresh(self, name: str) -> str:
        """The name, or with a number after it if it is taken."""
        tried = name
        while tried in self.taken or tried in self.reserved:
            self.numbers[name] = self.numbers.get(name, 1) + 1
            tried = f"{name}${self.numbers[name]}"
        self.taken.add(tried)
        return tried

    def made(self, name: str) -> str:
        """A name that the design does not have, and that no other netlist has."""
        return self.fresh(f"{self.module.prefix}{name}")

    def rank(self, name: str) -> tuple[bool, bool, int, int, str]:
        """Orders the names of one signal, the best first."""
        return (is_made(name), name not in self.ports, name.count("."), len(name), name)

    def name_gate(self, bit: Bit) -> str:
        """Names a gate as a net of the design that it drives; if there are several, then as one that the other netlist has, too."""
        known = sorted(self.module.aliases.get(bit, []), key=self.rank)
        nets = [written(name) for name in known if not is_made(name) and len(name) <= MOST_NAME]
        free = [name for name in nets if name not in self.taken and name not in self.reserved]
        if self.like:
            signals = self.like.signals
            free.sort(key=lambda name: name not in signals)
        if free:
            self.taken.add(free[0])
        self.of[bit] = free[0] if free else self.made(written(known[0]) if known and len(known[0]) < MOST_NAME // 2 else str(bit))
        return self.of[bit]

    def candidates(self, bit: Bit) -> list[str]:
        """The names of a register's bit, the best first."""
        aliases = self.module.aliases.get(bit, [])
        nets, cells = sorted(aliases, key=self.rank), sorted(cell_names(aliases), key=self.rank)
        given = [*cells, *nets] if self.style == "cell" else [*nets, *cells]
        return [written(name) for name in given + self.module.hidden.get(bit, []) + [f"register${bit}"]]

    def name_registers(self) -> None:
        complements: dict[Bit, list[Bit]] = {}
        if self.like:
            for bit in self.module.through:
                source, inverted = self.module.source(bit)
                if inverted:
                    complements.setdefault(source, []).append(bit)
        waiting = sorted(self.module.registers, key=lambda register: natural(self.candidates(register.q)[0]))
        for liked in self.liked:
            waiting = [register for register in waiting if not self.take_liked(register, complements, liked)]
        for register in waiting:
            names = self.candidates(register.q)
            free = [name for name in names if self.is_free(name, register.q)]
            register.name = free[0] if free else self.fresh(names[0])
            self.taken.add(register.name)
            self.of[register.q] = register.name
        self.module.registers.sort(key=lambda register: natural(register.name))

    def is_free(self, name: str, bit: Bit) -> bool:
        """Whether a register of this bit may have the name: an output's only if it is that output."""
        return name not in self.taken and (name not in self.reserved or name in self.own.get(bit, ()))

    def take_liked(self, register: Register, complements: dict[Bit, list[Bit]], liked: dict[str, str]) -> bool:
        """Takes the name that the other netlist has for this register, or for its complement."""
        for bit in [register.q, *complements.get(register.q, [])]:
            for spelt in [spelt for name in self.candidates(bit) for spelt in spellings(name)]:
                name = liked.get(spelt)
                if name and self.is_free(name, bit):
                    self.taken.add(name)
                    self.of[bit] = register.name = name
                    register.complement = bit if bit != register.q else None
                    return True
        return False


# Writing.


class Writer:
    """Makes the lines of a bench netlist."""

    def __init__(self, module: Module, style: str, like: Facts | None, undefined: str | None) -> None:
        self.module, self.undefined = module, undefined
        self.names = Names(module, style, like)
        self.inputs = [self.names.of[bit] for _, bit in module.inputs]
        self.outputs: list[str] = []
        self.facts: list[str] = []
        self.registers: list[str] = []
        self.lines: list[str] = []
        self.constants: dict[str, str] = {}
        self.undriven: list[str] = []
        self.choosers, self.readers = module.choosers(), module.readers()
        # By the multiplexer that all of them come to, or by its own name, the input of bits that the design leaves open.
        self.open: dict[Bit, str] = {}
        self.complemented: dict[Bit, Register] = {}
        # The lines of the source of signals that notes() reports.
        self.places: dict[str, str] = {}
        self.next_of = {register.data: register for register in module.registers}

    def gate(self, word: str, *operands: str, name: str | None = None) -> str:
        """Writes a gate, and gives its signal."""
        name = self.names.fresh(name) if name else self.names.made("g")
        self.lines.append(f"{name} = {word}({', '.join(operands)})")
        return name

    def signal(self, bit: Bit, reader: Bit | None = None, near: Origin | None = None) -> str:
        """The signal of a bit that the gate of `reader` reads, with what is below it still to be written. `near` has the name and
        the line of the register or output that reads it."""
        is_unnamed = isinstance(bit, int) and bit not in self.module.drivers and bit not in self.module.aliases
        if self.module.is_open(bit) or is_unnamed:
            return self.constant(self.undefined) if self.undefined else self.any_value(reader, near)
        if not isinstance(bit, int):
            return self.constant(bit)
        if bit not in self.names.of:
            return self.names.name_gate(bit) if bit in self.module.drivers else self.without_driver(bit)
        return self.names.of[bit]

    def constant(self, value: str) -> str:
        if value not in self.constants:
            if not self.inputs and not self.module.registers:
                self.inputs.append(self.names.fresh("unused"))
            source = self.inputs[0] if self.inputs else self.module.registers[0].name
            self.constants[value] = self.gate("XNOR" if value == "1" else "XOR", source, source, name=f"constant${value}")
        return self.constants[value]

    def any_value(self, reader: Bit | None, near: Origin | None = None) -> str:
        """A bit that the design leaves open: an input of its own. Multiplexers that choose one of several such bits share it."""
        root = None if reader is None else self.choosers.get(reader, reader)
        if root is None or root not in self.open:
            name, line = near or self.reached(root)
            made = self.names.fresh(f"{written(name)}$x") if name else self.names.made("x")
            self.inputs.append(made)
            self.places[made] = ("" if reader is None else self.module.lines.get(reader, "")) or line
            self.open[made if root is None else root] = made
            return made
        return self.open[root]

    def reached(self, bit: Bit | None) -> Origin:
        """The name of the first register, output or net with a name on a way from a gate, the gate's own before others, and its line."""
        met: set[Bit | None] = set()
        while bit not in met:
            met.add(bit)
            if bit is not None and (known := [name for name in self.module.aliases.get(bit, []) if not is_made(name)]):
                return min(known, key=lambda name: (len(name), name)), self.module.lines.get(bit, "")
            # Without a gate, the bit is a control; a register that only has controls is found by None.
            if bit in self.next_of:
                return self.next_of[bit].name, self.next_of[bit].line
            further = [] if bit is None else [read[0] for read in self.readers.get(bit, []) if read]
            bit = further[0] if further else bit
        return "", ""

    def without_driver(self, bit: Bit) -> str:
        called = self.module.called(bit)
        self.undriven.append(called)
        if self.undefined:
            self.names.of[bit] = self.constant(self.undefined)
        else:
            self.names.of[bit] = self.names.fresh(written(called))
            self.inputs.append(self.names.of[bit])
        self.places[called] = self.module.lines.get(bit, "")
        return self.names.of[bit]

    def write(self) -> list[str]:
        """All lines."""
        self.names.name_registers()
        self.complemented = {register.q: register for register in self.module.registers if register.complement is not None}
        complements = {register.complement for register in self.complemented.values()}
        own = {name for name, _ in self.module.outputs[: self.module.own_outputs]}
        for name, bit in self.module.outputs:
            is_named = name in own or bit not in self.module.aliases
            if isinstance(bit, int) and bit in self.module.gates and bit not in self.names.of and is_named:
                self.names.of[bit] = self.names.claim(written(name), name)
        for bit, register in self.complemented.items():
            self.lines.append(f"{self.names.name_gate(bit)} = NOT({register.name})")
        for register in self.module.registers:
            self.add_register(register)
        for name, bit in self.module.outputs:
            self.add_output(name, bit)
        for bit, (kind, ports) in self.module.gates.items():
            if bit not in complements:
                self.add_gate(bit, CELLS[kind], ports)
        declared = [f"INPUT({name})" for name in self.inputs] + [f"OUTPUT({name})" for name in self.outputs]
        head = f"{MARK} module {written(self.module.name)}; what a bench netlist does not hold of its registers"
        boxes = [fact_line(BOX, written(box.name), box.facts()) for box in self.module.boxes]
        return [head, *self.facts, *boxes, *declared, *self.registers, *self.lines]

    def notes(self) -> Iterator[str]:
        """What the user should know of the design, a line for each line of the source that it is about."""
        latches = [register for register in self.module.registers if register.kind == "latch"]
        yield from notes_by_line("latch", {register.name: register.line for register in latches})
        becomes = f"made {self.undefined}" if self.undefined else "inputs of the netlist"
        yield from notes_by_line(f"without a driver, {becomes}", {name: self.places[name] for name in self.undriven})
        yield from notes_by_line("left open (x or z), inputs of the netlist", {name: self.places[name] for name in self.open.values()})

    def add_output(self, name: str, bit: Bit) -> None:
        name, signal = written(name), self.signal(bit, near=(name, self.module.open_lines.get(name, "")))
        if name != signal:
            self.names.claim(name, name)
            self.lines.append(f"{name} = BUFF({signal})")
        self.outputs.append(name)

    def add_gate(self, bit: Bit, steps: list[str], ports: dict[str, Bit]) -> None:
        """The gates of a cell; the last one has the name of its output."""
        made: list[str] = []
        for i, step in enumerate(steps, 1):
            word, *operands = step.split()
            signals = [made[int(o)] if o.isdigit() else self.signal(ports[o], bit) for o in operands]
            if i < len(steps):
                made.append(self.gate(word, *signals))
            else:
                self.lines.append(f"{self.signal(bit)} = {word}({', '.join(signals)})")

    def active(self, control: Control) -> str:
        """The signal that is 1 when a control acts."""
        signal = self.signal(control[0])
        return signal if control[1] else self.gate("NOT", signal)

    def add_register(self, register: Register) -> None:
        """The register's line: what it takes next, with its latch's enable and its asynchronous resets, and what else is known of it."""
        state = self.signal(register.q)
        after = self.signal(register.data, near=(register.name, register.line)) if register.data is not None else state
        if register.enable:
            enabled = self.active(register.enable)
            after = self.gate("OR", self.gate("AND", enabled, after), self.gate("AND", self.gate("NOT", enabled), state))
        if register.set:
            after = self.gate("OR", after, self.active(register.set))
        if register.clear:
            after = self.gate("AND", after, self.gate("NOT", self.active(register.clear)))
        if register.complement is not None:
            after = self.gate("NOT", after)
        self.registers.append(f"{register.name} = DFF({after})")
        self.facts.append(fact_line(REGISTER, register.name, self.facts_of(register)))
        named = self.module.aliases.get(register.q if register.complement is None else register.complement, [])
        others = {written(name) for name in named if not is_made(name)} - {register.name}
        if others:
            self.facts.append(f"{ALSO}{register.name} {' '.join(sorted(others))}")

    def facts_of(self, register: Register) -> dict[str, str]:
        """What the format does not hold of a register. What acts on a latch does so by its level, as its next state has it."""
        clock, edge = self.clock(register)
        clear = reset = "none"
        init = register.init
        if register.kind != "latch":
            names = ("clear", "set") if register.complement is None else ("set", "clear")
            clear = self.control(register, names[0], register.clear)
            reset = self.control(register, names[1], register.set, register.clear)
        if register.complement is not None:
            clear, reset, init = reset, clear, {"0": "1", "1": "0"}.get(init, init)
        return {"kind": register.kind, "clock": clock, "edge": edge, "clear": clear, "set": reset, "init": init}

    def clock(self, register: Register) -> tuple[str, str]:
        if not register.clock:
            return ("none", "none") if register.kind == "latch" else ("unknown", "unknown")
        single = self.single(register.clock)
        if single is None:
            return self.as_output(register, "clock", self.active(register.clock)), "rising"
        name, level = single
        return (name, "rising" if level else "falling") if name else ("constant", "none")

    def control(self, register: Register, what: str, control: Control | None, unless: Control | None = None) -> str:
        """An asynchronous reset to 0 or 1. `unless` goes before it."""
        if control is None:
            return "none"
        single = self.single(control)
        if single and not single[0]:
            return "always" if single[1] else "none"
        if unless and self.single(unless) == ("", 0):
            unless = None
        if single and not unless:
            return f"{single[0]}/{single[1]}"
        acts = self.active(control)
        if unless:
            acts = self.gate("AND", acts, self.gate("NOT", self.active(unless)))
        return self.as_output(register, what, acts)

    def single(self, control: Control) -> tuple[str, int] | None:
        """The input or register that a control is, and the level at which it acts; for a constant no name, and whether it acts."""
        found = self.module.single(control[0])
        if not found:
            return None
        bit, inverted = found
        if bit == "0":
            return "", int(control[1] == int(inverted))
        register = self.complemented.get(bit)
        return (register.name, 1 - (control[1] ^ inverted)) if register else (self.signal(bit), control[1] ^ inverted)

    def as_output(self, register: Register, what: str, signal: str) -> str:
        name = self.names.claim(f"{register.name}@{what}", what)
        self.lines.append(f"{name} = BUFF({signal})")
        self.outputs.append(name)
        return "@"


def convert(words: argparse.Namespace) -> None:
    like = read_facts(words.like) if words.like else None
    with open(words.json, encoding="utf-8", errors="replace") as file:
        module = Module(json.load(file), like.boxes if like else ())
    writer = Writer(module, words.name_style, like, words.undefined)
    text = "".join(line + "\n" for line in writer.write())
    with open(words.bench, "w", encoding="ascii") as file:
        file.write(text)
    for note in writer.notes():
        print(f"rtl2bench: {note}", file=sys.stderr)


# Comparing.


@dataclass
class Facts:
    """What a bench netlist says of its registers, in the order of their lines, and of its boxes; its inputs, and all that it defines.
    `also` has the register of each other name."""

    registers: dict[str, dict[str, str]] = field(default_factory=dict)
    also: dict[str, str] = field(default_factory=dict)
    boxes: dict[str, dict[str, str]] = field(default_factory=dict)
    inputs: list[str] = field(default_factory=list)
    signals: set[str] = field(default_factory=set)


def read_fact(path: str, line: str, head: str, known: list[str]) -> tuple[str, dict[str, str]]:
    """The name and the facts of a comment that fact_line() has made."""
    name, *tokens = line[len(head) :].split()
    facts = dict(token.partition("=")[::2] for token in tokens)
    if list(facts) != known:
        raise Refusal(f"{path}: a broken line: {line.strip()}")
    return name, facts


def read_facts(path: str) -> Facts:
    facts, is_marked, defined = Facts(), False, []
    with open(path, encoding="latin-1") as file:
        for line in file:
            is_marked = is_marked or line.startswith(MARK)
            for head, known, found in ((REGISTER, FACTS, facts.registers), (BOX, BOX_FACTS, facts.boxes)):
                if line.startswith(head):
                    name, found[name] = read_fact(path, line, head, known)
            if line.startswith(ALSO):
                name, *others = line[len(ALSO) :].split()
                facts.also.update(dict.fromkeys(others, name))
            elif match := re.match(r"\s*INPUT\s*\(\s*([^\s()]+)\s*\)", line, re.IGNORECASE):
                facts.inputs.append(match[1])
            elif match := re.match(r"\s*([^\s()#=]+)\s*=\s*(DFF)?", line, re.IGNORECASE):
                facts.signals.add(match[1])
                if match[2]:
                    defined.append(match[1])
    if not is_marked:
        raise Refusal(f"{path}: it says nothing of its registers: not written by rtl2bench")
    if set(defined) != set(facts.registers):
        raise Refusal(f"{path}: its registers are not those that its comments tell of: changed since it was written")
    facts.registers = {name: facts.registers[name] for name in defined}
    return facts


def compare(words: argparse.Namespace) -> int:
    """Prints each difference of two registers or boxes that are paired, and each without a partner, and gives the status."""
    first, second = read_facts(words.first), read_facts(words.second)
    called: dict[str, str] = {}
    if words.match == "position":
        if len(first.registers) != len(second.registers):
            raise Refusal("the netlists have different numbers of registers")
        called = dict([*zip(second.inputs, first.inputs), *zip(second.registers, first.registers)])
    alike = compare_kind("registers", "", first.registers, second.registers, called, words)
    if first.boxes or second.boxes:
        alike &= compare_kind("boxes", "BOX ", first.boxes, second.boxes, called, words)
    return 0 if alike else 1


def compare_kind(kind: str, head: str, first: JsonObject, second: JsonObject, called: dict[str, str], words: argparse.Namespace) -> bool:
    """Prints how the registers, or the boxes, of two netlists differ. `called` has the first netlist's name of a signal of the second."""
    if words.match == "position" and len(first) == len(second):
        pairs, alone = list(zip(first, second)), []
    else:
        pairs = [(name, name) for name in first if name in second]
        alone = [f"ONLY FIRST {head}{name}" for name in first if name not in second]
        alone += [f"ONLY SECOND {head}{name}" for name in second if name not in first]
    different = 0
    report: list[str] = []
    for a, b in pairs:
        told = list(differences(first[a], second[b], called, words.leave_out))
        different += bool(told)
        report += [f"DIFFER {head}{a} {what}: first={one} second={other}" for what, one, other in told]
    counts = f"{kind}: {len(pairs) - different} alike, {different} different, {len(alone)} without a partner"
    print(*report, *alone, counts, sep="\n", flush=True)
    return not different and not alone


def differences(
    first: dict[str, str], second: dict[str, str], called: dict[str, str], left_out: list[str]
) -> Iterator[tuple[str, str, str]]:
    for what in [what for what in first if what not in left_out]:
        one, other = first[what], second[what]
        name, slash, level = other.rpartition("/") if what in ("clear", "set") else (other, "", "")
        if one != (other if what in BOX_FACTS else called.get(name, name) + slash + level) or one == "unknown":
            yield what, one, other


def facts_left_out(text: str) -> list[str]:
    known = FACTS + BOX_FACTS
    if not set(text.split(",")) <= set(known):
        raise argparse.ArgumentTypeError(f"{text}: not of {', '.join(known)}")
    return text.split(",")


def main() -> int:
    parser = argparse.ArgumentParser(prog="rtl2bench")
    modes = parser.add_subparsers(required=True)
    mode = modes.add_parser("convert", help="A design as yosys writes it is written as a bench netlist.")
    mode.add_argument("json", help="This is the file that yosys has written.")
    mode.add_argument("bench", help="This is the netlist to write.")
    style = "Registers are named as their nets, which is the default, or as their cells."
    mode.add_argument("--name-style", choices=["net", "cell"], default="net", help=style)
    mode.add_argument("--like", metavar="BENCH", help="Registers get the names that they have in this netlist.")
    mode.add_argument("--undefined", choices=["0", "1"], help="Open bits have this value, and are no inputs.")
    mode.set_defaults(run=convert)
    mode = modes.add_parser("compare", help="What the format does not hold of registers is compared.")
    mode.add_argument("first", help="This is the first netlist.")
    mode.add_argument("second", help="This is the second netlist.")
    match = "Registers are paired by name, which is the default, or by position."
    mode.add_argument("--match", choices=["name", "position"], default="name", help=match)
    mode.add_argument("--leave-out", metavar="FACT,..", type=facts_left_out, default=[], help="These facts are not compared.")
    mode.set_defaults(run=compare)
    words = parser.parse_args()
    try:
        return words.run(words) or 0
    except (Refusal, OSError) as fault:
        print(f"rtl2bench: {fault}", file=sys.stderr)
        return 3


if __name__ == "__main__":
    sys.exit(main())
