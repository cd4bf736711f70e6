#!/usr/bin/env python3
"""Draws the lanes of two workers in the wave that docs/ARCHITECTURE.md works by hand, at one moment of one schedule.

usage: tools/lanes.py > docs/lanes.svg

A lane is a row of what was put on it, in that order; its worker takes from the left. The colour of a frame says who put it there.
A level is closed for a worker if what it has taken has an End of that level from every sender; this script works that out.
"""
from __future__ import annotations

from collections.abc import Iterator
from typing import NamedTuple

TAKEN, WAITS, COMES = "taken", "waits", "not put yet"


class Load(NamedTuple):
    """What was put on a lane: by whom, the level of an End or the requests of a bundle, and whether it was taken."""

    sender: int
    what: int | list[str]
    state: str


Lane = list[Load]
# By worker its lane.
LANES: list[Lane] = [
    [Load(0, 0, TAKEN), Load(1, ["AND(11, 7)"], TAKEN), Load(1, 0, TAKEN), Load(1, 1, WAITS), Load(0, 1, COMES)],
    [Load(0, ["AND(2, 11)"] * 2, TAKEN), Load(0, 0, TAKEN), Load(1, 0, TAKEN), Load(1, 1, TAKEN), Load(0, 1, COMES)],
]
KEPT = ["", "AND(11, 6), for which worker 1 asks itself, needs no lane: its port keeps it."]
LEVELS = 5
WIDE, HIGH, GAP, LEFT, TOP, STEP = 104, 44, 10, 128, 62, 142
FRAMES = ["#1f4e79", "#a04000"]
FILLS = {TAKEN: "#e4e4e4", WAITS: "#ffffff", COMES: "none"}


def closed(lane: Lane) -> list[int]:
    """The levels that are closed for the lane's worker."""
    taken = [(load.sender, load.what) for load in lane if load.state == TAKEN]
    return [level for level in range(LEVELS) if all((sender, level) in taken for sender in range(len(LANES)))]


def next_level(lane: Lane) -> str:
    """What the lane's worker waits for."""
    level = len(closed(lane))
    taken = [load.sender for load in lane if load.state == TAKEN and load.what == level]
    missing = [f"worker {sender}" for sender in range(len(LANES)) if sender not in taken]
    return f"level {level} is not: no End {level} of {' or of '.join(missing)} was taken yet"


def text(x: float, y: float, words: str, kind: str = "") -> str:
    return f'<text x="{x:.0f}" y="{y:.0f}"{kind}>{words}</text>'


def box(place: int, y: float, load: Load) -> Iterator[str]:
    sender, what, state = load
    x = LEFT + place * (WIDE + GAP)
    dashes = ' stroke-dasharray="5 4"' if state == COMES else ""
    yield f'<rect x="{x}" y="{y}" width="{WIDE}" height="{HIGH}" rx="4" fill="{FILLS[state]}" stroke="{FRAMES[sender]}" stroke-width="2"{dashes}/>'
    lines = what if isinstance(what, list) else [f"End {what}"]
    for number, line in enumerate(lines):
        yield text(x + WIDE / 2, y + HIGH / 2 + 5 + 16 * (number - (len(lines) - 1) / 2), line)
    yield text(x + WIDE / 2, y + HIGH + 14, state, ' class="small"')


def lane_of(worker: int) -> Iterator[str]:
    y, lane = TOP + worker * STEP, LANES[worker]
    yield text(16, y + 20, f"lane of worker {worker}", ' class="left"')
    yield text(16, y + 36, "taken from the left", ' class="small left"')
    for place, load in enumerate(lane):
        yield from box(place, y, load)
    levels = closed(lane)
    names = " and ".join(map(str, levels))
    yield text(LEFT, y + HIGH + 34, f"For worker {worker} level {names} is closed; {next_level(lane)}.", ' class="left note"')
    yield text(LEFT, y + HIGH + 52, KEPT[worker], ' class="left note"')


def main() -> None:
    high, wide = TOP + len(LANES) * STEP, LEFT + 5 * (WIDE + GAP) + 16
    key = [
        f'<rect x="{x}" y="16" width="22" height="16" rx="3" fill="#ffffff" stroke="{FRAMES[sender]}" stroke-width="2"/>'
        + text(x + 30, 29, f"put by worker {sender}", ' class="left"')
        for sender, x in enumerate((LEFT, LEFT + 160))
    ]
    print(
        f'<svg xmlns="http://www.w3.org/2000/svg" viewBox="0 0 {wide} {high}" font-family="sans-serif">',
        "<style>text { font-size: 13px; text-anchor: middle } .small { font-size: 11px; fill: #606060 } .left { text-anchor: start } .note { font-size: 12px }</style>",
        f'<rect width="{wide}" height="{high}" fill="#ffffff"/>',
        *key,
        *(part for worker in range(len(LANES)) for part in lane_of(worker)),
        "</svg>",
        sep="\n",
    )


if __name__ == "__main__":
    main()
