#!/usr/bin/env python3
"""Writes the assignment of a pair that differs as a VCD of one step, with the values of all signals of both netlists.

usage: bddcheck-vcd [--of NAME] [--match name|position] [-o OUT] FIRST SECOND [REPORT]

REPORT is what bddcheck says of FIRST and SECOND, as lines or as JSON; without it the report is read from standard input. The pair is the
first one that differs, or that of NAME: an output of FIRST, or `NEXT name` for the next state of a register. A variable that the report
does not have is 0, as with `--assignment ones`. The signals are in the scopes `first` and `second`, by their names. If the values of the
pair are not those of the report, or nothing differs, there is no VCD, and the status is 1; it is 2 if a file cannot be read as what it is.
"""
# tools/install.sh installs this script as bddcheck-vcd.
from __future__ import annotations

import argparse
import functools
import json
import operator
import re
import sys
from dataclasses import dataclass, field
from pathlib import Path
from typing import Any

JsonObject = dict[str, Any]

STATEMENT = re.compile(rb"\s*([^\s(),=#]+)\s*(?:=\s*([^\s(),=#]+)\s*)?\(([^()=]*)\)")
REGISTER = b"DFF"
# What joins the operands of a gate. A gate of one operand has nothing to join.
FOLDS = {
    b"AND": operator.and_,
    b"OR": operator.or_,
    b"XOR": operator.xor,
    b"BUFF": operator.or_,
    b"BUF": operator.or_,
    b"NAND": operator.and_,
    b"NOR": operator.or_,
    b"XNOR": operator.xor,
    b"NOT": operator.or_,
}
COMPLEMENTED = {b"NAND", b"NOR", b"XNOR", b"NOT"}
# The end of a line whose assignment may not be the least one at which the pair differs.
NOT_LEAST = b" (may not be the least)"


class Refusal(Exception):
    """Why there is no VCD, and the status."""

    def __init__(self, status: int, said: str) -> None:
        super().__init__(said)
        self.status = status


@dataclass
class Net:
    """Signals in the order in which a text names them, and what drives them."""

    signals: dict[bytes, None] = field(default_factory=dict)
    inputs: list[bytes] = field(default_factory=list)
    outputs: list[bytes] = field(default_factory=list)
    registers: list[bytes] = field(default_factory=list)
    gates: dict[bytes, tuple[bytes, list[bytes]]] = field(default_factory=dict)
    # The line of each gate and register.
    lines: dict[bytes, int] = field(default_factory=dict)

    def add(self, out: bytes, word: bytes | None, operands: list[bytes], line: int) -> None:
        if word is None:
            {b"INPUT": self.inputs, b"OUTPUT": self.outputs}[out.upper()].extend(operands)
            self.signals.update(dict.fromkeys(operands))
            return
        self.signals.update(dict.fromkeys([out, *operands]))
        self.gates[out] = (word.upper(), operands)
        self.lines[out] = line
        if word.upper() == REGISTER:
            self.registers.append(out)

    def signal(self, role: str, place: int) -> bytes:
        """The output at a place, or what the register at a place takes next."""
        return self.outputs[place] if role == "output" else self.gates[self.registers[place]][1][0]

    @functools.cached_property
    def ordered(self) -> list[bytes]:
        """The variables, and then the gates, each after its operands."""
        placed = dict.fromkeys([*self.inputs, *self.registers])
        opened: set[bytes] = set()
        for signal in self.signals:
            below = [signal]
            while below:
                name = below[-1]
                missing = [] if name in placed else [operand for operand in self.gates[name][1] if operand not in placed]
                if not missing:
                    placed[below.pop()] = None
                    continue
                opened.add(name)
                if not opened.isdisjoint(missing):
                    raise ValueError(f"a cycle at {name.decode()}")
                below.extend(missing)
        return list(placed)


def net_of(path: str) -> Net:
    text = re.sub(rb"#[^\n]*", b"", Path(path).read_bytes()).rstrip()
    net, at, line = Net(), 0, 1
    while at < len(text):
        found = STATEMENT.match(text, at)
        if found is None:
            raise Refusal(2, f"{path}: no netlist")
        out, word, operands = found.groups()
        line += text.count(b"\n", at, found.start(1))
        net.add(out, word, [operand.strip() for operand in operands.split(b",")], line)
        line += text.count(b"\n", found.start(1), found.end())
        at = found.end()
    return net


@dataclass
class Difference:
    """A pair that differs: as what, by which name, at which bits of variables, and the two values."""

    role: str
    name: bytes
    at: dict[bytes, int]
    values: tuple[int, int]

    def is_of(self, name: str | None) -> bool:
        label = self.name if self.role == "output" else b"NEXT " + self.name
        return name is None or label == name.encode()


def of_line(line: bytes) -> Difference:
    words = line.removesuffix(NOT_LEAST).split(b" ")
    is_next = words[1] == b"NEXT" and words[3:4] == [b"at"]
    if words[-3] == b"sizes":
        words = words[:-3]
    reported = [word.rsplit(b"=", 1) for word in words[4 if is_next else 3 :]]
    bits = [(name, int(bit)) for name, bit in reported]
    role, name = ("next state", words[2]) if is_next else ("output", words[1])
    return Difference(role, name, dict(bits[:-2]), (bits[-2][1], bits[-1][1]))


def of_member(verdict: JsonObject) -> Difference:
    at = {name.encode(): bit for name, bit in verdict["at"].items()}
    return Difference(verdict["of"], verdict["name"].encode(), at, (verdict["first"], verdict["second"]))


def differences(report: bytes) -> list[Difference]:
    try:
        if report.startswith(b"{"):
            return [of_member(it) for it in json.loads(report)["verdicts"] if it["verdict"] == "DIFFER"]
        return [of_line(line) for line in report.split(b"\n") if line.startswith(b"DIFFER ")]
    except (ValueError, KeyError, IndexError) as error:
        raise Refusal(2, f"the report cannot be read: {error}") from error


def value(word: bytes, operands: list[int], ones: int = 1) -> int:
    """The value of a gate. An operand has a bit for each of several assignments, and `ones` is 1 in all of them."""
    joined = functools.reduce(FOLDS[word], operands)
    return ones ^ joined if word in COMPLEMENTED else joined


def values(net: Net, at: dict[bytes, int], ones: int = 1) -> dict[bytes, int]:
    """The value of each signal, as `value` has it; a register has that of the assignment."""
    known: dict[bytes, int] = {}
    variables = {*net.inputs, *net.registers}
    for name in net.ordered:
        if name in variables:
            known[name] = at.get(name, 0)
        else:
            word, operands = net.gates[name]
            known[name] = value(word, [known[operand] for operand in operands], ones)
    return {signal: known[signal] for signal in net.signals}


def code(number: int) -> bytes:
    made = bytes([33 + number % 94])
    return made if number < 94 else made + code(number // 94 - 1)


def scope(name: bytes, start: int, signals: dict[bytes, int]) -> bytes:
    rows = [b"$var wire 1 %s %s $end\n" % (code(start + place), signal) for place, signal in enumerate(signals)]
    return b"$scope module %s $end\n" % name + b"".join(rows) + b"$upscope $end\n"


def vcd(first: dict[bytes, int], second: dict[bytes, int]) -> bytes:
    bits = [*first.values(), *second.values()]
    changes = b"".join(b"%d%s\n" % (bit, code(number)) for number, bit in enumerate(bits))
    scopes = scope(b"first", 0, first) + scope(b"second", len(first), second)
    return b"$timescale 1 ns $end\n" + scopes + b"$enddefinitions $end\n#0\n" + changes + b"#1\n"


def matched(first: list[bytes], second: list[bytes], by_name: bool, name: bytes) -> int:
    """The place in the second list of what has this name in the first."""
    place = second.index(name) if by_name else first.index(name)
    if place >= len(second):
        raise ValueError(name)
    return place


def pair_of(one: Net, two: Net, by_name: bool, role: str, name: bytes) -> tuple[bytes, bytes]:
    """The signals of a pair in both netlists; a ValueError if there is no such pair."""
    names = {"output": (one.outputs, two.outputs), "next state": (one.registers, two.registers)}[role]
    return one.signal(role, names[0].index(name)), two.signal(role, matched(*names, by_name, name))


def at_second(one: Net, two: Net, by_name: bool, at: dict[bytes, int]) -> dict[bytes, int]:
    """An assignment by the names that the second netlist has for the variables."""
    variables = [*zip(one.inputs, two.inputs), *zip(one.registers, two.registers)]
    return at if by_name else {other: at.get(name, 0) for name, other in variables}


def dumped(one: Net, two: Net, by_name: bool, it: Difference) -> bytes:
    try:
        pair = pair_of(one, two, by_name, it.role, it.name)
        first, second = values(one, it.at), values(two, at_second(one, two, by_name, it.at))
    except (ValueError, KeyError) as error:
        raise Refusal(1, f"the netlists are not those of the report: {error}") from error
    if (first[pair[0]], second[pair[1]]) != it.values:
        raise Refusal(1, "the netlists are not those of the report: the pair has other values")
    return vcd(first, second)


def asked() -> argparse.Namespace:
    what, usage, more = (__doc__ or "").strip().split("\n\n")
    parser = argparse.ArgumentParser(usage=usage.removeprefix("usage: "), description=what, epilog=more)
    parser.add_argument("--of", metavar="NAME", help="the pair: an output of FIRST, or 'NEXT name'; the default is the first that differs")
    parser.add_argument(
        "--match",
        choices=["name", "position"],
        default="name",
        help="The report paired signals by name, which is the default, or by position.",
    )
    parser.add_argument("-o", dest="out", metavar="OUT", help="This is the file to write; the default is standard output.")
    parser.add_argument("first", metavar="FIRST", help="This is the file of the first netlist.")
    parser.add_argument("second", metavar="SECOND", help="This is the file of the second netlist.")
    report = "This is the report of bddcheck on them, as text or JSON; the default is standard input."
    parser.add_argument("report", metavar="REPORT", nargs="?", help=report)
    return parser.parse_args()


def main() -> None:
    words = asked()
    try:
        report = Path(words.report).read_bytes() if words.report else sys.stdin.buffer.read()
        it = next((it for it in differences(report) if it.is_of(words.of)), None)
        if it is None:
            raise Refusal(1, "no such pair differs")
        text = dumped(net_of(words.first), net_of(words.second), words.match == "name", it)
        if words.out:
            Path(words.out).write_bytes(text)
        else:
            sys.stdout.buffer.write(text)
    except Refusal as refusal:
        print(f"vcd: {refusal}", file=sys.stderr)
        sys.exit(refusal.status)
    except OSError as error:
        print(f"vcd: {error}", file=sys.stderr)
        sys.exit(2)


if __name__ == "__main__":
    main()
