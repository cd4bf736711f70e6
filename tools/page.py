#!/usr/bin/env python3
"""Writes a report of bddcheck as one HTML page that needs no network: totals, a table of pairs to filter and sort, and the causes.

usage: bddcheck-page [--first A.bench --second B.bench [--given C.bench]] [--most N] [--draw NAME] REPORT.json -o PAGE.html

REPORT.json is what `bddcheck --format json` has written; with `--causes` the page groups the pairs by the gates at which they begin to
differ. For a pair that differs the page shows the assignment by buses in hexadecimal, and the values as waves. If both netlists are given, it
also shows the inner signals that differ, and draws the gates of the first one in both netlists side by side, if Graphviz is installed.
If the netlists are not those of the report, there is no page, and the status is 1; it is 2 if a file cannot be read as what it is.
"""
# tools/install.sh installs this script as bddcheck-page. tools/page.html is the page without its report.
from __future__ import annotations

import argparse
import collections
import concurrent.futures
import functools
import html
import json
import os
import re
import shutil
import subprocess
import sys
from dataclasses import dataclass, field
from pathlib import Path
from typing import Iterator

import vcd
from vcd import JsonObject, Net, Refusal, net_of

TEMPLATE = Path(__file__).resolve().with_name("page.html")
# The most gates of a cone that are drawn, of these the most below the first signal that differs, and of each gate the most operands.
MOST_GATES = 100
MOST_BELOW = 75
MOST_OPERANDS = 12
# The most gates that read one frame of a signal from below.
MOST_READERS = 3
# The most inner signals that a pair lists.
MOST_INNER = 200
# The most letters of a name in a drawing, and the seconds that Graphviz may take for one.
MOST_LETTERS = 26
MOST_SECONDS = 20
# What the page does not need of a drawing: names, since each may be in a page only once; what the page's style says; the titles of lines and of
# the whole.
NOT_NEEDED = re.compile(
    r'<!--.*?-->| (?:id|fill|stroke|stroke-dasharray|text-anchor|font-family|font-size)="[^"]*"|<title>(?:[^<]*&#45;&gt;[^<]*|%3)</title>',
    re.S,
)
PLACES = re.compile(r' (?:d|points)="[^"]*"')
# A new line in a label of Graphviz.
BREAK = "\\n"
# How many assignments are evaluated at once.
AT_ONCE = 1024


@dataclass
class Pair:
    """A pair that differs, and its signals in the netlists once these are read."""

    place: int
    of: str
    name: bytes
    at: dict[bytes, int]
    values: tuple[int, int]
    roots: tuple[bytes, bytes] = (b"", b"")

    def label(self) -> str:
        return label(self.of, self.name.decode())


def label(of: str, name: str) -> str:
    """What a report by lines calls a pair."""
    return name if of == "output" else f"NEXT {name}"


@dataclass
class Side:
    """A netlist, and what is computed of it once: ranks, and which gates each gate reads and is read by."""

    net: Net
    variables: set[bytes] = field(default_factory=set)
    ranks: dict[bytes, int] = field(default_factory=dict)
    below: dict[bytes, list[bytes]] = field(default_factory=dict)
    above: dict[bytes, list[bytes]] = field(default_factory=dict)

    def __post_init__(self) -> None:
        self.variables = {*self.net.inputs, *self.net.registers}
        self.ranks = dict.fromkeys(self.variables, 0)
        for name in self.net.ordered:
            if name not in self.variables:
                operands = self.net.gates[name][1]
                self.ranks[name] = 1 + max(self.ranks[operand] for operand in operands)
                self.below[name] = [operand for operand in operands if operand not in self.variables]
                for operand in self.below[name]:
                    self.above.setdefault(operand, []).append(name)

    def nearest(self, start: bytes, most: int, next_to: dict[bytes, list[bytes]], among: dict[bytes, None] | None = None) -> list[bytes]:
        """The gates that are reached from a gate, the nearest first, if they are among these."""
        found = [] if start in self.variables else [start]
        seen = set(found)
        for name in found:
            for other in next_to.get(name, ()):
                if other not in seen and len(found) < most and (among is None or other in among):
                    seen.add(other)
                    found.append(other)
        return found

    def cone(self, root: bytes) -> dict[bytes, None]:
        """The gates of a cone."""
        return dict.fromkeys(self.nearest(root, len(self.below), self.below))

    def shown(self, cone: dict[bytes, None], root: bytes, low: bytes) -> list[bytes]:
        """The gates of a pair's cone that are drawn. A large cone is cut down to the cone of its first signal that differs, and the
        gates from there to the root, the nearest first."""
        if len(cone) <= MOST_GATES:
            return list(cone)
        below = self.nearest(low, MOST_GATES if low == root else MOST_BELOW, self.below)
        above = self.nearest(low, MOST_GATES + 1 - len(below), self.above, cone)
        return list(dict.fromkeys([*below, *above]))


@dataclass
class Sides:
    """Both netlists, the condition, and how the report pairs their signals."""

    one: Side
    two: Side
    condition: Net | None
    by_name: bool

    def both(self) -> tuple[Side, Side]:
        return self.one, self.two

    def values_of(self, pairs: list[Pair]) -> list[dict[bytes, int]]:
        """The values of the signals of both netlists, and of the condition; bit k is that at the assignment of pair k."""
        at: dict[bytes, int] = {}
        for number, pair in enumerate(pairs):
            for name, bit in pair.at.items():
                at[name] = at.get(name, 0) | bit << number
        ones = (1 << len(pairs)) - 1
        one, two = self.one.net, self.two.net
        found = [vcd.values(one, at, ones), vcd.values(two, vcd.at_second(one, two, self.by_name, at), ones)]
        return found + ([vcd.values(self.condition, at, ones)] if self.condition else [])

    def evaluated(self, pairs: list[Pair]) -> Iterator[Evaluated]:
        """The pairs with the values of all signals."""
        for start in range(0, len(pairs), AT_ONCE):
            some = pairs[start : start + AT_ONCE]
            found = self.values_of(some)
            yield from (Evaluated(self, pair, found, number) for number, pair in enumerate(some))

    def check(self, pairs: list[Pair]) -> None:
        """Finds the signals of all pairs. They have to have the values of the report, and the condition has to hold."""
        for pair in pairs:
            pair.roots = vcd.pair_of(self.one.net, self.two.net, self.by_name, pair.of, pair.name)
        for it in self.evaluated(pairs):
            if tuple(it.bit(side, root) for side, root in enumerate(it.pair.roots)) != it.pair.values:
                raise ValueError(f"{it.pair.label()} has other values")
            if it.condition() == 0:
                raise ValueError(f"the condition does not hold for {it.pair.label()}")

    def register_names(self, variables: list[bytes]) -> list[tuple[bytes, bytes]]:
        """The variables that are registers, by their names in both netlists."""
        nets = [side.net for side in self.both()]
        others = {} if self.by_name else dict(zip(nets[0].registers, nets[1].registers))
        held = {*nets[0].registers, *nets[1].registers} if self.by_name else set(nets[0].registers)
        return [(name, others.get(name, name)) for name in variables if name in held]


@dataclass
class Evaluated:
    """A pair, and the values of all signals, of which `number` is the bit at its assignment."""

    sides: Sides
    pair: Pair
    found: list[dict[bytes, int]]
    number: int

    def bit(self, side: int, name: bytes) -> int:
        return self.found[side][name] >> self.number & 1

    def condition(self) -> int | None:
        """The value of the condition, if there is one."""
        net = self.sides.condition
        return self.bit(2, net.outputs[0]) if net else None

    @functools.cached_property
    def cones(self) -> list[dict[bytes, None]]:
        """The gates below the pair in each netlist."""
        return [side.cone(root) for side, root in zip(self.sides.both(), self.pair.roots)]

    def inner(self) -> list[bytes]:
        """The inner signals that differ, as `bddcheck --explain` lists them: those of both cones, by rank in the first netlist."""
        one, (first, second) = self.sides.one, self.cones
        shared = (name for name in one.net.gates if name in first and name in second and self.pair.roots != (name, name))
        return sorted((name for name in shared if self.bit(0, name) != self.bit(1, name)), key=one.ranks.__getitem__)

    def next_states(self, registers: list[tuple[bytes, bytes]]) -> list[str]:
        """By netlist what the registers take next, a digit for each; one that the netlist does not have is a dash."""
        lines = []
        for side, (net, names) in enumerate(zip((it.net for it in self.sides.both()), zip(*registers))):
            lines.append("".join(str(self.bit(side, net.gates[name][1][0])) if name in net.gates else "-" for name in names))
        return lines

    def drawings(self, inner: list[bytes], low: bytes | None) -> list[Drawing]:
        """The drawings of both netlists, around the first inner signal that differs."""
        made = []
        for number, (side, root) in enumerate(zip(self.sides.both(), self.pair.roots)):
            start, cone = root if low is None else low, self.cones[number]
            gates = side.shown(cone, root, start)
            operands = [operand for name in gates for operand in side.net.gates[name][1][:MOST_OPERANDS]]
            bits = {name: self.bit(number, name) for name in [root, *gates, *operands]}
            made.append(Drawing(side, gates, len(cone), bits, {*inner, start, root}, start, root))
        return made

    def member(self, inner: list[bytes], low: bytes | None, registers: list[tuple[bytes, bytes]]) -> JsonObject:
        """What the page has of the netlists, but for the drawings."""
        lines = [side.net.lines for side in self.sides.both()]
        rows = [[name.decode(), self.bit(0, name), self.bit(1, name), lines[0][name], lines[1][name]] for name in inner[:MOST_INNER]]
        member = {"roots": [root.decode() for root in self.pair.roots], "low": low and low.decode(), "inner": rows, "count": len(inner)}
        return {**member, "condition": self.condition(), "next": self.next_states(registers)}


# ---- drawings


# The head of a drawing. The limits are those of Graphviz's own search, which can take minutes for a hundred gates without them.
GRAPH = """digraph {
graph [rankdir=LR bgcolor=transparent ranksep=0.35 nodesep=0.1 nslimit=2 nslimit1=2 mclimit=1];
node [shape=box fontname="Courier" fontsize=11 margin="0.08,0.03" height=0.2];
edge [arrowsize=0.5];"""


@dataclass
class Graph:
    """The text of a drawing for Graphviz. Its frames have numbers there, and titles of their own."""

    lines: list[str] = field(default_factory=lambda: [GRAPH])
    titles: list[str] = field(default_factory=list)

    def frame(self, title: str, label: list[str], kinds: str, style: str) -> int:
        # Graphviz reads entities and backslashes.
        rows = [row.replace("\\", "\\\\").replace('"', '\\"').replace("&", "&amp;") for row in label]
        self.lines.append(f'n{len(self.titles)} [label="{BREAK.join(rows)}" class="{kinds}" style="{style}"];')
        self.titles.append(title)
        return len(self.titles) - 1

    def line(self, start: int, end: int, kinds: str) -> None:
        self.lines.append(f'n{start} -> n{end} [class="{kinds}"];')

    def svg(self) -> str | None:
        """What Graphviz draws; nothing if it takes too long or fails."""
        text = "\n".join([*self.lines, "}"])
        try:
            made = subprocess.run(["dot", "-Tsvg"], input=text.encode(), capture_output=True, timeout=MOST_SECONDS, check=True)
        except (subprocess.SubprocessError, OSError):
            return None
        drawn = made.stdout.decode()
        kept = NOT_NEEDED.sub("", drawn[drawn.index("<svg") :])
        titled = re.sub(r"<title>n(\d+)</title>", lambda found: f"<title>{html.escape(self.titles[int(found[1])])}</title>", kept)
        # One digit after the point is enough.
        return PLACES.sub(lambda found: re.sub(r"(\.\d)\d", r"\1", found[0]), titled).replace(">\n", ">")


def short(name: bytes) -> str:
    """A name without its middle, if it is long."""
    half = MOST_LETTERS // 2
    return name.decode() if len(name) <= MOST_LETTERS else f"{name[:half].decode()}..{name[-half + 2 :].decode()}"


@dataclass
class Drawing:
    """What is drawn of one netlist for a pair: its gates, the signals that differ, the first of them, and the pair's signal."""

    side: Side
    gates: list[bytes]
    total: int
    bits: dict[bytes, int]
    differing: set[bytes]
    low: bytes
    root: bytes

    def kinds(self, name: bytes, kind: str) -> str:
        """The classes of a signal, by which the page colours it."""
        kinds = [kind, f"is{self.bits[name]}"]
        return " ".join(kinds + ["differs"] * (name in self.differing) + ["low"] * (name == self.low))

    def gate(self, graph: Graph, name: bytes) -> int:
        """The frame of a gate."""
        word = self.side.net.gates[name][0].decode()
        return graph.frame(name.decode(), [short(name), f"{word} = {self.bits[name]}"], self.kinds(name, "gate"), "solid")

    def leaf(self, graph: Graph, name: bytes) -> int:
        """The frame of a variable, or of a gate that is folded."""
        bit = self.bits[name]
        if name in self.side.variables:
            return graph.frame(name.decode(), [f"{short(name)} = {bit}"], self.kinds(name, "variable"), "rounded")
        return graph.frame(name.decode(), [short(name), f"folded = {bit}"], self.kinds(name, "folded"), "dashed")

    def graph(self) -> Graph:
        """The gates, and what they read. A variable or folded gate that many of them read has a frame for each."""
        graph, operands = Graph(), {name: self.side.net.gates[name][1] for name in self.gates}
        frames = {name: self.gate(graph, name) for name in self.gates}
        if not self.gates:
            self.leaf(graph, self.root)
        readers = collections.Counter(operand for name in self.gates for operand in operands[name][:MOST_OPERANDS])
        for name in self.gates:
            for operand in operands[name][:MOST_OPERANDS]:
                frame = frames[operand] if operand in frames else self.leaf(graph, operand)
                if readers[operand] <= MOST_READERS:
                    frames[operand] = frame
                graph.line(frame, frames[name], f"is{self.bits[operand]}{' differs' if operand in self.differing else ''}")
            if len(operands[name]) > MOST_OPERANDS:
                more = f"{len(operands[name]) - MOST_OPERANDS} more operands"
                graph.line(graph.frame(f"{more} of {name.decode()}", [more], "folded", "dashed"), frames[name], "")
        return graph

    def text(self) -> list[str]:
        """The drawn gates as lines of a netlist, each after its operands."""
        lines = []
        for name in sorted(self.gates, key=self.side.ranks.__getitem__):
            word, operands = self.side.net.gates[name]
            gate = f"{name.decode()} = {word.decode()}({', '.join(it.decode() for it in operands[:MOST_OPERANDS])}"
            gate += f", and {len(operands) - MOST_OPERANDS} more)" if len(operands) > MOST_OPERANDS else ")"
            differs = ", differs" if name in self.differing else ""
            lines.append(f"{gate}  # {self.bits[name]}, line {self.side.net.lines[name]}{differs}")
        return lines

    def member(self, svg: str | None) -> JsonObject:
        return {"svg": svg, "gates": len(self.gates), "total": self.total, "text": self.text()}


# ---- what the page has


# What the verdicts of each kind have.
MEMBERS: dict[str, list[str]] = {"EQUAL": [], "DIFFER": ["at", "first", "second"], "ONLY": ["side"], "UNDECIDED": []}


def read_report(path: str) -> tuple[JsonObject, list[JsonObject], list[JsonObject]]:
    """A report, and its verdicts and causes as the page has them."""
    try:
        report = json.loads(Path(path).read_bytes())
        missing = {"match", "order", "variables", "equal", "different", "unmatched"} - set(report)
        for verdict in report["verdicts"]:
            missing |= {"of", "name", *MEMBERS[verdict["verdict"]]} - set(verdict)
        if missing:
            raise ValueError(f"it lacks {min(missing)}")
        rows, causes = rows_of(report)
        return report, rows, causes
    except (ValueError, KeyError, TypeError, AttributeError) as error:
        raise Refusal(2, f"{path}: no report of bddcheck --format json: {error}") from error


def buses(variables: list[str]) -> list[JsonObject]:
    """The buses of the variables, as the report has them: a[0] to a[n], if no other name begins with a[. Each has the places of its bits."""
    found: dict[str, list[str]] = {}
    for name in variables:
        # Names of two dimensions, such as m[1][0], begin with m[ and with m[1][.
        for end in (at for at, letter in enumerate(name) if letter == "["):
            found.setdefault(name[:end], []).append(name)
    places = {name: place for place, name in enumerate(variables)}
    rows = []
    for bus, names in found.items():
        bits = [f"{bus}[{number}]" for number in range(len(names))]
        if bus and set(bits) == set(names):
            rows.append({"name": bus, "bits": [places[bit] for bit in bits]})
    return sorted(rows, key=lambda row: int(row["bits"][0]))


def differing(report: JsonObject) -> list[Pair]:
    """The pairs that differ."""
    pairs = []
    for place, verdict in enumerate(report["verdicts"]):
        if verdict["verdict"] == "DIFFER":
            it = vcd.of_member(verdict)
            pairs.append(Pair(place, it.role, it.name, it.at, it.values))
    return pairs


def rows_of(report: JsonObject) -> tuple[list[JsonObject], list[JsonObject]]:
    """The verdicts with their bits by place and the number of their cause, and the causes with the places of their pairs."""
    rows, variables = [], report["variables"]
    places: dict[tuple[str, str], int] = {}
    for place, verdict in enumerate(report["verdicts"]):
        row = {key: value for key, value in verdict.items() if key not in ("at", "buses")}
        if "at" in verdict:
            row["bits"] = "".join(str(verdict["at"].get(name, "-")) for name in variables)
            places[verdict["of"], verdict["name"]] = place
        rows.append(row)
    causes = []
    for number, cause in enumerate(report.get("causes", [])):
        its = [places[pair["of"], pair["name"]] for pair in cause["pairs"] if (pair["of"], pair["name"]) in places]
        for place in its:
            rows[place]["cause"] = number
        causes.append({"signal": cause["signal"], "lines": cause["lines"], "pairs": its})
    return rows, causes


def chosen(pairs: list[Pair], rows: list[JsonObject], most: int, names: list[str]) -> list[Pair]:
    """The pairs that are drawn: those that were named, then the first one of each cause, then the others, in the order of the report."""
    unknown = set(names) - {pair.label() for pair in pairs}
    if unknown:
        raise Refusal(2, f"no such pair differs: {min(unknown)}")
    seen: set[int] = set()
    ranked = []
    for pair in pairs:
        cause = rows[pair.place].get("cause")
        ranked.append((pair.label() not in names, cause is None or cause in seen, pair.place, pair))
        seen |= set() if cause is None else {cause}
    return [pair for *_, pair in sorted(ranked, key=lambda it: it[:3])][: max(most, len(names))]


def details(
    sides: Sides, pairs: list[Pair], rows: list[JsonObject], causes: list[JsonObject], registers: list[tuple[bytes, bytes]]
) -> None:
    """Adds to the rows of these pairs what the netlists have at their assignments."""
    drawings: list[tuple[int, list[Drawing]]] = []
    for it in sides.evaluated(pairs):
        row, inner = rows[it.pair.place], it.inner()
        reported = causes[row["cause"]]["signal"].encode() if "cause" in row else None
        low = reported if reported in inner else inner[0] if inner else None
        row["details"] = it.member(inner, low, registers)
        drawings.append((it.pair.place, it.drawings(inner, low)))
    draw(drawings, rows)


def draw(drawings: list[tuple[int, list[Drawing]]], rows: list[JsonObject]) -> None:
    """Adds the drawings to the rows, with their gates as text. Without Graphviz they are only text."""
    has_dot = shutil.which("dot") is not None
    with concurrent.futures.ThreadPoolExecutor(os.cpu_count()) as pool:
        all_of = [drawing for _, both in drawings for drawing in both]
        made = list(pool.map(Graph.svg, [drawing.graph() for drawing in all_of])) if has_dot else [None] * len(all_of)
    members = iter([drawing.member(svg) for drawing, svg in zip(all_of, made)])
    for place, both in drawings:
        rows[place]["details"]["drawings"] = [next(members) for _ in both]
    if drawings and not has_dot:
        print("page: there is no command dot (Debian: graphviz), so the page has gates as text, and no drawings", file=sys.stderr)


def netlist_members(words: argparse.Namespace, report: JsonObject, rows: list[JsonObject], causes: list[JsonObject]) -> JsonObject:
    """Adds to the rows what the netlists show. Of the variables it says which are registers, and which the netlists have."""
    condition = net_of(words.condition) if words.condition else None
    if condition and len(condition.outputs) != 1:
        raise Refusal(2, f"{words.condition}: a condition has one output")
    sides = Sides(Side(net_of(words.first)), Side(net_of(words.second)), condition, report["match"] == "name")
    variables, pairs = [name.encode() for name in report["variables"]], differing(report)
    sides.check(pairs)
    registers = sides.register_names(variables)
    details(sides, chosen(pairs, rows, words.most, words.draw), rows, causes, registers)
    places = {name: place for place, name in enumerate(variables)}
    present = ["".join(str(int(name in side.variables)) for name in variables) for side in sides.both()]
    return {"registers": [places[name] for name, _ in registers], "present": present if sides.by_name else None}


def page(words: argparse.Namespace) -> str:
    report, rows, causes = read_report(words.report)
    data = {key: value for key, value in report.items() if key not in ("verdicts", "causes")}
    data |= {"pairs": rows, "causes": causes if "causes" in report else None, "buses": buses(report["variables"]), "mostGates": MOST_GATES}
    data["files"] = [Path(it).name if it else None for it in (words.first, words.second, words.condition)]
    if words.first:
        try:
            data |= netlist_members(words, report, rows, causes)
        except (ValueError, KeyError) as error:
            raise Refusal(1, f"the netlists are not those of the report: {error}") from error
    # In a script element of HTML only `<` could end the data.
    text = json.dumps(data, separators=(",", ":")).replace("<", "\\u003c")
    title = " and ".join(Path(it).name for it in (words.first, words.second) if it) or Path(words.report).name
    before, after = TEMPLATE.read_text(encoding="utf-8").split("@REPORT@")
    return before.replace("@TITLE@", html.escape(title)) + text + after


def asked() -> argparse.Namespace:
    what, usage, more = (__doc__ or "").strip().split("\n\n")
    parser = argparse.ArgumentParser(usage=usage.removeprefix("usage: "), description=what, epilog=more)
    parser.add_argument("-o", dest="out", metavar="PAGE.html", required=True, help="This is the file to write.")
    parser.add_argument("--first", metavar="A.bench", help="This is the file of the first netlist, for inner signals and drawings.")
    parser.add_argument("--second", metavar="B.bench", help="This is the file of the second netlist.")
    parser.add_argument("--given", dest="condition", metavar="C.bench", help="This is the file of the condition, if the report has one.")
    most = "So many pairs have inner signals and a drawing, the first one of each cause before others; the default is 50."
    parser.add_argument("--most", metavar="N", type=int, default=50, help=most)
    draw = "This pair has a drawing in any case: an output, or 'NEXT name'. The option may be repeated."
    parser.add_argument("--draw", metavar="NAME", action="append", default=[], help=draw)
    parser.add_argument("report", metavar="REPORT.json", help="This is the report of bddcheck --format json.")
    words = parser.parse_args()
    if bool(words.first) != bool(words.second):
        parser.error("--first and --second are given together")
    if (words.condition or words.draw) and not words.first:
        parser.error("--given and --draw need the netlists, by --first and --second")
    return words


def main() -> None:
    words = asked()
    try:
        Path(words.out).write_text(page(words), encoding="utf-8")
    except Refusal as refusal:
        print(f"page: {refusal}", file=sys.stderr)
        sys.exit(refusal.status)
    except OSError as error:
        print(f"page: {error}", file=sys.stderr)
        sys.exit(2)


if __name__ == "__main__":
    main()
