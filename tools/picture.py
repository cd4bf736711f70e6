#!/usr/bin/env python3
"""Draws the crates of crates.txt, each above those that its code names. docs/crates.svg is what it prints.

usage: tools/picture.py > docs/crates.svg

A line goes down to a crate that is named and not also reached by way of another one. Crates of the kit are within the boxes
of those that name them. The program's crates are filled; boxes of broken lines are what it does not link, of dots tests.
"""
from __future__ import annotations

from collections.abc import Iterator
from typing import Union

from crates_txt import Named, named

PROGRAM = "bddcheck"
HIGH, GAP, STEP, TURNS = 38, 16, 76, 60
STYLES = {
    "linked": 'fill="#dbe7f5" stroke="#1f4e79"',
    "apart": 'fill="#ffffff" stroke="#1f4e79" stroke-dasharray="6 3"',
    "tests": 'fill="#ffffff" stroke="#808080" stroke-dasharray="2 3"',
}


# A line's ends, the upper one first, and a row that it passes.
Bend = tuple[str, str, int]
# What has a place in a row: a crate, or a bend.
Item = Union[str, Bend]


def reached(names: Named, crate: str) -> set[str]:
    """The crates of the repository that a crate needs, by way of others too."""
    below = {it for it in names[crate] if it in names}
    return below.union(*(reached(names, it) for it in below))


def drawn(names: Named, crate: str) -> list[str]:
    """Those that a line goes down to."""
    below = [it for it in names[crate] if it in names]
    return [it for it in below if not any(it in reached(names, other) for other in below)]


def height(names: Named, crate: str) -> int:
    """The longest way down."""
    return max((height(names, it) + 1 for it in names[crate] if it in names), default=0)


def kit_of(names: Named, crate: str) -> str:
    return ", ".join(it for it in names[crate] if it not in names)


class Chart:
    """Boxes, and bends where lines pass a row."""

    def __init__(self, names: Named) -> None:
        self.names = names
        self.rows: list[list[Item]] = [[] for _ in range(1 + max(height(names, it) for it in names))]
        self.lines: list[list[Item]] = []
        for crate in names:
            self.rows[height(names, crate)].append(crate)
        for crate in names:
            for below in drawn(names, crate):
                self.add_line(crate, below)
        self.ends: dict[Item, list[Item]] = {it: [] for row in self.rows for it in row}
        for line in self.lines:
            for upper, lower in zip(line, line[1:]):
                self.ends[upper].append(lower)
                self.ends[lower].append(upper)
        self.middle: dict[Item, float] = {}

    def add_line(self, crate: str, below: str) -> None:
        between = range(height(self.names, crate) - 1, height(self.names, below), -1)
        bends: list[Item] = [(crate, below, row) for row in between]
        for bend, row in zip(bends, between):
            self.rows[row].append(bend)
        self.lines.append([crate, *bends, below])

    def width(self, item: Item) -> float:
        if isinstance(item, tuple):
            return 2
        return max(8 * len(item), 5.6 * len(kit_of(self.names, item))) + 18

    def wanted(self, item: Item) -> float:
        """The best place of an item: in the middle of what it is joined with."""
        near = self.ends[item]
        return sum(self.middle[it] for it in near) / len(near) if near else self.middle[item]

    def spread(self, row: list[Item]) -> None:
        """Puts the items of a row side by side, as near as may be to their best places."""
        places, end = [], 0.0
        for item in row:
            left = max(end, self.wanted(item) - self.width(item) / 2)
            places.append(left + self.width(item) / 2)
            end = left + self.width(item) + GAP
        shift = sum(self.wanted(it) - at for it, at in zip(row, places)) / len(row)
        for item, at in zip(row, places):
            self.middle[item] = at + shift

    def arrange(self) -> None:
        for row in self.rows:
            for number, item in enumerate(row):
                self.middle[item] = 110 * number
        for turn in range(TURNS):
            for row in self.rows if turn % 2 else reversed(self.rows):
                row.sort(key=lambda it: (self.wanted(it), str(it)))
                self.spread(row)
        least = min(at - self.width(it) / 2 for it, at in self.middle.items()) - GAP
        self.middle = {it: at - least for it, at in self.middle.items()}
        self.wide = max(at + self.width(it) / 2 for it, at in self.middle.items()) + GAP
        self.high = len(self.rows) * STEP

    def depth(self, item: Item) -> float:
        row = item[2] if isinstance(item, tuple) else height(self.names, item)
        return (len(self.rows) - 1 - row) * STEP + STEP / 2

    def path(self, line: list[Item]) -> str:
        x, y = self.middle[line[0]], self.depth(line[0]) + HIGH / 2
        text = f"M{x:.0f} {y:.0f}"
        for item in line[1:]:
            u, v = self.middle[item], self.depth(item) - HIGH / 2
            half = (y + v) / 2
            text += f" C{x:.0f} {half:.0f} {u:.0f} {half:.0f} {u:.0f} {v:.0f}"
            x, y = u, v + HIGH
            text += f" L{x:.0f} {y:.0f}" if isinstance(item, tuple) else ""
        return f'<path d="{text}"/>'

    def box(self, crate: str, style: str) -> Iterator[str]:
        x, y, wide, kit = self.middle[crate], self.depth(crate), self.width(crate), kit_of(self.names, crate)
        yield f'<rect x="{x - wide / 2:.0f}" y="{y - HIGH / 2:.0f}" width="{wide:.0f}" height="{HIGH}" rx="4" {style}/>'
        yield f'<text x="{x:.0f}" y="{y + (0 if kit else 5):.0f}">{crate}</text>'
        if kit:
            yield f'<text x="{x:.0f}" y="{y + 14:.0f}" class="kit">{kit}</text>'

    def style(self, crate: str) -> str:
        linked = crate == PROGRAM or crate in reached(self.names, PROGRAM)
        return STYLES["linked" if linked else "tests" if crate.endswith("_tests") else "apart"]


def main() -> None:
    chart = Chart(named())
    chart.arrange()
    out = [
        f'<svg xmlns="http://www.w3.org/2000/svg" viewBox="0 0 {chart.wide:.0f} {chart.high}" font-family="sans-serif">',
        "<style>text { font-size: 13px; text-anchor: middle } .kit { font-size: 10px; fill: #606060 }</style>",
        f'<rect width="{chart.wide:.0f}" height="{chart.high}" fill="#ffffff"/>',
        '<g fill="none" stroke="#8a98a6">',
        *map(chart.path, chart.lines),
        "</g>",
        *(part for crate in chart.names for part in chart.box(crate, chart.style(crate))),
        "</svg>",
    ]
    print("\n".join(out))


if __name__ == "__main__":
    main()
