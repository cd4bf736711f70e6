#!/usr/bin/env python3
"""Draws the plots of docs/PERFORMANCE.md from the files in bench/results/.

usage: bench/plots.py [FOLDER] [--results FOLDER]

It writes plot-NAME.svg into FOLDER (docs/) for each NAME below whose results are there. The drawings depend on the results only, so
they are the same bytes on every machine.

buddy         time and memory of one worker over BuDDy's      peers.json
decided       pairs decided over time, beside abc's cec        designs.json
nodes         nodes that a comparison needs in each order      nodes.json
workers       time on the clock by 2 and 4 workers             workers.json, cones.json
designs       time on the clock of designs by 4 workers        turns.json
instructions  the instructions of a run, crate by crate        instructions.json
"""
from __future__ import annotations

import argparse
import html
import json
import math
import pathlib
from collections.abc import Callable
from typing import Any

HERE = pathlib.Path(__file__).resolve().parent
DARK, LIGHT, OTHER, GREY, PALE = "#1f4e79", "#8fb3d9", "#c8691c", "#606060", "#e4e4e4"
WIDE = 760
SMALL = 11
# A file of results: its head, its date and its rows.
Measured = dict[str, Any]
# From a value to a place in a drawing.
Scale = Callable[[float], float]


class Drawing:
    """An SVG in the making: shapes in the order in which they are drawn."""

    def __init__(self, title: str) -> None:
        self.title, self.parts, self.high = title, list[str](), 0.0

    def add(self, part: str) -> None:
        self.parts.append(part)

    def text(
        self, x: float, y: float, words: object, anchor: str = "start", size: int = 13, colour: str = "#000000", more: str = ""
    ) -> None:
        words = html.escape(str(words), quote=False)
        self.add(f'<text x="{x:.1f}" y="{y:.1f}" text-anchor="{anchor}" font-size="{size}" fill="{colour}"{more}>{words}</text>')

    def rect(self, x: float, y: float, wide: float, high: float, colour: str) -> None:
        self.add(f'<rect x="{x:.1f}" y="{y:.1f}" width="{wide:.1f}" height="{high:.1f}" fill="{colour}"/>')

    def line(self, x1: float, y1: float, x2: float, y2: float, colour: str = GREY, more: str = "") -> None:
        self.add(f'<path d="M{x1:.1f} {y1:.1f} L{x2:.1f} {y2:.1f}" stroke="{colour}" fill="none"{more}/>')

    def path(self, points: list[tuple[float, float]], colour: str, wide: float = 2, more: str = "") -> None:
        steps = " L".join(f"{x:.1f} {y:.1f}" for x, y in points)
        self.add(f'<path d="M{steps}" stroke="{colour}" stroke-width="{wide}" fill="none"{more}/>')

    def shape(self, kind: str, x: float, y: float, colour: str, r: float = 4.0) -> None:
        """A point of a kind of its own, so that colours are not needed to keep the kinds apart."""
        corners = {
            "square": [(-r, -r), (r, -r), (r, r), (-r, r)],
            "diamond": [(0, -1.4 * r), (1.4 * r, 0), (0, 1.4 * r), (-1.4 * r, 0)],
            "up": [(0, -1.3 * r), (1.2 * r, r), (-1.2 * r, r)],
            "down": [(0, 1.3 * r), (1.2 * r, -r), (-1.2 * r, -r)],
        }
        if kind in corners:
            steps = " L".join(f"{x + dx:.1f} {y + dy:.1f}" for dx, dy in corners[kind])
            self.add(f'<path d="M{steps} Z" fill="{colour}"/>')
        else:
            fill = colour if kind == "dot" else "#ffffff"
            self.add(f'<circle cx="{x:.1f}" cy="{y:.1f}" r="{r:.1f}" fill="{fill}" stroke="{colour}"/>')

    def svg(self) -> str:
        return "\n".join(
            [
                f'<svg xmlns="http://www.w3.org/2000/svg" viewBox="0 0 {WIDE} {self.high:.0f}" font-family="sans-serif" role="img">',
                f"<title>{html.escape(self.title)}</title>",
                f'<rect width="{WIDE}" height="{self.high:.0f}" fill="#ffffff"/>',
                *self.parts,
                "</svg>\n",
            ]
        )


def number(value: float) -> str:
    """A number with two or three digits."""
    if value >= 100 or value == int(value):
        return f"{value:,.0f}"
    return f"{value:.1f}" if value >= 10 else f"{value:.2f}"


def footer(drawing: Drawing, y: float, *files: Measured, counted: str | None = None) -> None:
    """With which versions, where and when a plot's figures were measured, in two lines; or what is `counted` there, not timed."""
    head = files[0]["head"]
    peers = [f"{name} {head[name]}" for name in ("BuDDy", "abc", "valgrind") if name in head]
    machine = head["machine"]
    virtual = "" if machine["virtual"] == "no" else f" under {machine['virtual']}"
    busy = [row["others"] for file in files for row in file["rows"]]
    mean = sum(busy) / len(busy)
    beside = "nothing else ran" if mean < 0.25 else f"other processes kept {mean:.1f} of them busy"
    drawing.text(
        10, y, "; ".join([f"{head['program']}, proved and built by {head['kit'].split(' of ')[0]}", *peers]), size=SMALL, colour=GREY
    )
    place = f"{machine['processor']}{virtual}, {machine['processors']} processors, {machine['memory']}; {files[0]['date']}"
    words = f"{files[0]['date']}; {counted}" if counted else f"{place}; {beside}"
    drawing.text(10, y + 15, words, size=SMALL, colour=GREY)
    drawing.high = y + 27


def logarithmic(low: float, high: float, left: float, right: float) -> Scale:
    """A scale from a value to a place."""
    unit = (right - left) / math.log10(high / low)
    return lambda value: left + unit * math.log10(value / low)


def geometric_mean(numbers: list[float]) -> float:
    return math.exp(sum(map(math.log, numbers)) / len(numbers))


# Bars against BuDDy.


def bars(
    drawing: Drawing, left: float, wide: float, top: float, rows: list[tuple[str, float, float]], most: float, unit: Callable[[float], str]
) -> None:
    """A panel: of each row its ratio as a bar, and both figures in words."""

    def x(value: float) -> float:
        return left + wide * min(value, most) / most

    bottom = top + 19 * len(rows)
    for tick in (0.25, 0.5, 0.75, 1.0):
        drawing.line(x(tick), top - 4, x(tick), bottom, GREY if tick == 1.0 else PALE)
        drawing.text(x(tick), top - 8, "1" if tick == 1 else f"{tick:g}", "middle", SMALL, GREY)
    for place, (_, this, that) in enumerate(rows):
        y, one = top + 19 * place, this / that
        drawing.rect(left, y + 3, x(one) - left, 13, DARK)
        if one > most:
            drawing.shape("diamond", x(one), y + 9.5, "#ffffff", 3)
        drawing.text(x(one) + 5, y + 14, number(one), size=SMALL)
        drawing.text(left + 306, y + 14, f"{unit(this)} of {unit(that)}", "end", SMALL, GREY)


def draw_buddy(peers: Measured) -> Drawing:
    drawing = Drawing("Time and memory of one worker over BuDDy's")
    rows = [row for row in peers["rows"] if row["1"] and row["BuDDy"]]
    rows.sort(key=lambda row: float(row["1"]["processor"] / row["BuDDy"]["processor"]))
    top = 66
    drawing.text(110, 22, "Processor time of one worker over BuDDy's")
    drawing.text(445, 22, "Peak memory of one worker over BuDDy's")
    for left, measure, unit in ((110, "processor", lambda v: f"{v:.3f}"), (445, "megabytes", lambda v: f"{v:.0f}")):
        figures = [(row["key"], row["1"][measure], row["BuDDy"][measure]) for row in rows]
        drawing.text(left + 306, 40, "seconds" if measure == "processor" else "MB", "end", SMALL, GREY)
        drawing.text(left, 40, f"geometric mean {number(geometric_mean([a / b for _, a, b in figures]))}", size=SMALL, colour=GREY)
        bars(drawing, left, 180, top, figures, 1.25, unit)
    for place, row in enumerate(rows):
        drawing.text(102, top + 19 * place + 14, row["key"], "end", 12)
    footer(drawing, top + 19 * len(rows) + 22, peers)
    return drawing


# Pairs of netlists decided over time.


def steps(times: list[float], x: Scale, y: Scale, first: float, last: float) -> list[tuple[float, float]]:
    """The steps of a count that grows at each time, from one time to another."""
    points = [(x(first), y(0))]
    for count, time in enumerate(sorted(times)):
        at = x(max(time, first))
        points += [(at, y(count)), (at, y(count + 1))]
    return points + [(x(last), y(len(times)))]


def draw_decided(designs: Measured) -> Drawing:
    drawing = Drawing("Pairs of netlists decided over time, beside abc's cec")
    rows, bound = designs["rows"], designs["head"]["settings"]["seconds"]
    ours = [row["bddcheck"]["processor"] for row in rows if row["bddcheck"] and not row["undecided"]]
    theirs = [row["cec"]["processor"] for row in rows if row["cec"]]
    left, right, top, bottom = 60, 640, 40, 340
    low = 0.003
    scale = logarithmic(low, bound, left, right)

    def height(count: float) -> float:
        return bottom - (bottom - top) * count / len(rows)

    drawing.text(left, 22, f"Of {len(rows)} pairs of netlists so many are decided, each within so many seconds of processor time")
    for tick in [tick for tick in (0.003, 0.01, 0.03, 0.1, 0.3, 1, 3, 10, 30, 100, 300) if tick <= bound]:
        drawing.line(scale(tick), top, scale(tick), bottom, PALE)
        drawing.text(scale(tick), bottom + 16, f"{tick:g}", "middle", SMALL, GREY)
    drawing.text((left + right) / 2, bottom + 32, "seconds", "middle", SMALL, GREY)
    for count in range(0, len(rows) + 1, 20):
        drawing.line(left, height(count), right, height(count), PALE)
        drawing.text(left - 8, height(count) + 4, count, "end", SMALL, GREY)
    drawing.line(left, height(len(rows)), right, height(len(rows)), GREY, ' stroke-dasharray="4 4"')
    ends = []
    for times, colour, name, more in ((theirs, OTHER, "abc's cec", ' stroke-dasharray="7 3"'), (ours, DARK, "bddcheck", "")):
        drawing.path(steps(times, scale, height, low, bound), colour, 2, more)
        ends.append((height(len(times)), colour, f"{name}: {len(times)}"))
    ends.sort()
    if ends[1][0] - ends[0][0] < 16:
        ends = [(ends[0][0] - 5, *ends[0][1:]), (ends[0][0] + 11, *ends[1][1:])]
    for y, colour, words in ends:
        drawing.text(right + 8, y + 4, words, size=12, colour=colour)
    footer(drawing, bottom + 56, designs)
    return drawing


# Nodes by order.

SHAPES = {
    "declared": ("square", "#1f4e79"),
    "depth": ("up", "#c8691c"),
    "interleave": ("dot", "#2d8a4e"),
    "index": ("down", "#7d3c98"),
    "force": ("diamond", "#b03030"),
}


def draw_nodes(nodes: Measured) -> Drawing:
    drawing = Drawing("Nodes that a comparison needs in each order of the variables")
    limit = nodes["head"]["settings"]["limit"]
    rows = [row for row in nodes["rows"] if any(row[order] for order in SHAPES)]

    def spread(row: dict[str, Any]) -> float:
        most, least = max(row[order] or 4 * limit for order in SHAPES), min(row[order] for order in SHAPES if row[order])
        return float(most / least)

    rows.sort(key=lambda row: (-spread(row), row["key"]))
    left, right, top, step = 120, 640, 84, 30
    low = 10 ** math.floor(math.log10(min(row[order] for row in rows for order in SHAPES if row[order])))
    scale = logarithmic(low, limit, left, right)
    beyond, bottom = right + 55, top + step * len(rows)
    drawing.text(10, 22, "Nodes that a comparison needs, by the order of the variables")
    for place, (order, (kind, colour)) in enumerate(SHAPES.items()):
        drawing.shape(kind, left + 6 + 105 * place, 42, colour)
        drawing.text(left + 16 + 105 * place, 46, order, size=12)
    for power in range(int(math.log10(low)), int(math.log10(limit)) + 1):
        tick = 10**power
        drawing.line(scale(tick), top, scale(tick), bottom, PALE)
        drawing.text(scale(tick), top - 6, f"{tick:,}", "middle", SMALL, GREY)
    drawing.line(right + 20, top, right + 20, bottom, GREY, ' stroke-dasharray="4 4"')
    drawing.text(beyond, top - 20, "more than", "middle", SMALL, GREY)
    drawing.text(beyond, top - 6, f"{limit:,}", "middle", SMALL, GREY)
    for place, row in enumerate(rows):
        y = top + step * place
        if place % 2 == 0:
            drawing.parts.insert(0, f'<rect x="10.0" y="{y:.1f}" width="{WIDE - 20:.1f}" height="{step:.1f}" fill="#f6f8fb"/>')
        drawing.text(left - 12, y + step / 2 + 4, row["key"], "end", 12)
        for lane, (order, (kind, colour)) in enumerate(SHAPES.items()):
            x = scale(max(row[order], low)) if row[order] else beyond - 24 + 12 * lane
            drawing.shape(kind, x, y + step / 2 + 3.5 * (lane - 2), colour, 3.2)
    footer(drawing, bottom + 22, nodes, counted="the same on every machine")
    return drawing


# Workers.


def draw_workers(workers: Measured, cones: Measured | None) -> Drawing:
    drawing = Drawing("Time on the clock by two and four workers, over one worker's")
    counts = [str(count) for count in workers["head"]["settings"]["workers"] if count != 1]
    colours = dict(zip(counts, (LIGHT, DARK, GREY)))
    lines: list[tuple[str, float | None, dict[str, float]]] = []
    for way, title in (("order file", "In a named order"), ("declared", None), ("bare command", "By the bare command")):
        found = [row for row in workers["rows"] if row["way"] == way and row["1"]]
        if found and title:
            lines.append((title, None, {}))
        for row in found:
            ratios = {count: row[count]["clock"] / row["1"]["clock"] for count in counts if row[count]}
            lines.append((row["pair"], row["1"]["clock"], ratios))
    if cones:
        lines.append(("By cones", None, {}))
        for row in cones["rows"]:
            lines.append((row["key"], row["one"], {str(cones["head"]["settings"]["workers"]): row["least"]}))
    left, right, top = 190, 600, 66

    def scale(value: float) -> float:
        return left + (right - left) * min(value, 1.3) / 1.3

    y = top
    places = []
    for name, seconds, ratios in lines:
        places.append(y)
        y += 14 * max(1, len(ratios)) + 8
    for tick in (0.25, 0.5, 0.75, 1.0):
        drawing.line(scale(tick), top - 4, scale(tick), y, GREY if tick == 1 else PALE)
        drawing.text(scale(tick), top - 8, f"{tick:g}", "middle", SMALL, GREY)
    drawing.text(10, 22, "Time on the clock, over that of one worker")
    for place, count in enumerate(counts):
        drawing.rect(left + 110 * place, 32, 12, 12, colours[count])
        drawing.text(left + 110 * place + 18, 42, f"{count} workers", size=12)
    drawing.text(WIDE - 10, top - 8, "one worker, seconds", "end", SMALL, GREY)
    for at, (name, seconds, ratios) in zip(places, lines):
        if seconds is None:
            drawing.text(10, at + 12, name, size=12, more=' font-weight="bold"')
            continue
        drawing.text(left - 10, at + 7 * len(ratios) + 4, name, "end", 12)
        drawing.text(WIDE - 10, at + 7 * len(ratios) + 4, number(seconds), "end", 12, GREY)
        for lane, (count, one) in enumerate(ratios.items()):
            drawing.rect(left, at + 14 * lane, scale(one) - left, 12, colours[count])
            drawing.text(scale(one) + 5, at + 14 * lane + 10, number(one), size=SMALL)
    footer(drawing, y + 18, *([workers, cones] if cones else [workers]))
    return drawing


# Designs by four workers.


def draw_designs(turns: Measured) -> Drawing:
    these, those = turns["head"]["settings"]["columns"]
    drawing = Drawing("Time on the clock of designs by the bare command, four workers over one")
    rows = [row for row in turns["rows"] if row[these] and row[those]]
    left, right, top, bottom = 60, 740, 40, 330
    longest = 10 ** math.ceil(math.log10(max(row[those]["clock"] for row in rows)))
    scale = logarithmic(0.001, longest, left, right)
    highest = max(1.4, max(row[these]["clock"] / row[those]["clock"] for row in rows))

    def height(value: float) -> float:
        return bottom - (bottom - top) * value / float(highest)

    drawing.text(left, 22, f"Each of {len(rows)} comparisons: time on the clock by {these} workers, over that of one worker")
    tick = 0.001
    while tick <= longest * 1.001:
        drawing.line(scale(tick), top, scale(tick), bottom, PALE)
        drawing.text(scale(tick), bottom + 16, f"{tick:g}", "middle", SMALL, GREY)
        tick *= 10
    drawing.text((left + right) / 2, bottom + 32, "one worker, seconds on the clock", "middle", SMALL, GREY)
    for step in range(0, int(highest * 4) + 1):
        value = step / 4
        drawing.line(left, height(value), right, height(value), GREY if value == 1 else PALE)
        drawing.text(left - 8, height(value) + 4, f"{value:g}", "end", SMALL, GREY)
    for row in sorted(rows, key=lambda row: str(row["key"])):
        kind = "dot" if row[those]["clock"] >= 0.05 else "ring"
        drawing.shape(kind, scale(max(row[those]["clock"], 0.001)), height(row[these]["clock"] / row[those]["clock"]), DARK, 3.5)
    footer(drawing, bottom + 56, turns)
    return drawing


# Instructions, crate by crate.


def draw_instructions(found: Measured) -> Drawing:
    drawing = Drawing("Where a run's instructions go")
    left, right, y = 260, 690, 44
    drawing.text(10, 22, "Instructions of one worker, of 100")
    most = max(share for row in found["rows"] for _, share in row["shares"])
    for row in found["rows"]:
        drawing.text(10, y + 14, row["key"], size=12, more=' font-weight="bold"')
        y += 24
        for name, share in row["shares"]:
            drawing.text(left - 10, y + 11, name, "end", 12)
            drawing.rect(left, y, (right - left) * share / most, 14, DARK)
            drawing.text(left + (right - left) * share / most + 5, y + 11, f"{share:.1f}", size=SMALL)
            y += 19
        y += 8
    footer(drawing, y + 14, found, counted="instructions, not times")
    return drawing


# By name the function that draws a plot, the files of results that it needs, and those that it takes if they are there.
PLOTS: dict[str, tuple[Callable[..., Drawing], list[str], list[str]]] = {
    "buddy": (draw_buddy, ["peers"], []),
    "decided": (draw_decided, ["designs"], []),
    "nodes": (draw_nodes, ["nodes"], []),
    "workers": (draw_workers, ["workers"], ["cones"]),
    "designs": (draw_designs, ["turns"], []),
    "instructions": (draw_instructions, ["instructions"], []),
}


def main() -> None:
    parser = argparse.ArgumentParser(description=__doc__, formatter_class=argparse.RawDescriptionHelpFormatter)
    plots = "The plots are written into this folder; the default is docs."
    parser.add_argument("folder", nargs="?", type=pathlib.Path, default=HERE.parent / "docs", help=plots)
    results = "The files of results are in this folder; the default is bench/results."
    parser.add_argument("--results", type=pathlib.Path, default=HERE / "results", help=results)
    settings = parser.parse_args()

    def path(name: str) -> pathlib.Path:
        return pathlib.Path(settings.results / f"{name}.json")

    def read(name: str) -> Measured:
        return dict(json.loads(path(name).read_text()))

    for name, (draw, needed, wanted) in PLOTS.items():
        if all(path(file).exists() for file in needed):
            files = [read(file) for file in needed] + [read(file) if path(file).exists() else None for file in wanted]
            (settings.folder / f"plot-{name}.svg").write_text(draw(*files).svg())


if __name__ == "__main__":
    main()
