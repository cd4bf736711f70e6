#!/usr/bin/env python3
"""Draws a wave by four workers: its requests level by level on the way down, and their diagrams on the way up.

usage: tools/wave.py > docs/wave.svg

A bar is a level, and its width says how many requests it has. The numbers are an example.
"""
from __future__ import annotations

from collections.abc import Iterator

# By level how many requests it has, in hundreds; the third level is the first one that is wide.
SIZES = [1, 4, 8, 22, 30, 18, 6]
FIRST_WIDE = 3
WORKERS = 4
UNIT, HIGH, STEP, TOP = 8, 26, 48, 64
LEFT, RIGHT = 170, 500
ONE_WORKER = 'fill="#ffffff" stroke="#1f4e79"'
SHADES = ["#dbe7f5", "#c3d6ec", "#abc5e3", "#93b4da"]


def middle(level: int) -> float:
    return TOP + level * STEP + HIGH / 2


def bar(x: float, level: int) -> list[str]:
    """One piece if only the caller does the level, else one for each worker that owns some of it."""
    wide, y = SIZES[level] * UNIT, TOP + level * STEP
    if level < FIRST_WIDE:
        return [f'<rect x="{x - wide / 2:.0f}" y="{y}" width="{wide}" height="{HIGH}" {ONE_WORKER}/>']
    part = wide / WORKERS
    places = [(x - wide / 2 + number * part, shade) for number, shade in enumerate(SHADES)]
    return [f'<rect x="{at:.0f}" y="{y}" width="{part:.0f}" height="{HIGH}" fill="{shade}" stroke="#1f4e79"/>' for at, shade in places]


def arrow(x: float, start: float, end: float) -> str:
    return f'<path d="M{x} {start:.0f} L{x} {end:.0f}" stroke="#606060" marker-end="url(#end)"/>'


def arrows() -> Iterator[str]:
    for level in range(len(SIZES) - 1):
        above, below = middle(level) + HIGH / 2 + 2, middle(level + 1) - HIGH / 2 - 4
        yield arrow(LEFT, above, below)
        yield arrow(RIGHT, below + 2, above + 2)
    y = middle(len(SIZES) - 1)
    wide = SIZES[-1] * UNIT / 2
    yield f'<path d="M{LEFT + wide:.0f} {y:.0f} L{RIGHT - wide - 6:.0f} {y:.0f}" stroke="#606060" marker-end="url(#end)"/>'


def text(x: float, y: float, words: str, kind: str = "") -> str:
    return f'<text x="{x}" y="{y:.0f}"{kind}>{words}</text>'


def words() -> Iterator[str]:
    small = ' class="small"'
    between, line = (LEFT + RIGHT) / 2, TOP + FIRST_WIDE * STEP - (STEP - HIGH) / 2
    yield text(LEFT, 24, "down: requests, each once")
    yield text(RIGHT, 24, "up: their diagrams")
    yield text(LEFT, 46, "entries with no terminal case or held answer", small)
    yield text(RIGHT, 46, "an answer for each entry", small)
    yield text(between, middle(1), "the caller's thread,", small)
    yield text(between, middle(1) + 14, "by places (wave_engine)", small)
    yield f'<path d="M20 {line:.0f} L650 {line:.0f}" stroke="#a04000" stroke-dasharray="5 4"/>'
    yield text(between, line - 6, "the first wide level", ' class="small" fill="#a04000"')
    yield text(between, middle(5) - 6, "workers, each what it owns,", small)
    yield text(between, middle(5) + 8, "by lanes (expand_work),", small)
    yield text(between, middle(5) + 22, "and shards (reduce_up)", small)


def main() -> None:
    high = TOP + len(SIZES) * STEP
    print(
        f'<svg xmlns="http://www.w3.org/2000/svg" viewBox="0 0 670 {high}" font-family="sans-serif">',
        '<defs><marker id="end" viewBox="0 0 8 8" refX="6" refY="4" markerWidth="7" markerHeight="7" orient="auto">',
        '<path d="M0 0 L8 4 L0 8 Z" fill="#606060"/></marker></defs>',
        "<style>text { font-size: 14px; text-anchor: middle } .small { font-size: 11px }</style>",
        f'<rect width="670" height="{high}" fill="#ffffff"/>',
        *(part for level in range(len(SIZES)) for x in (LEFT, RIGHT) for part in bar(x, level)),
        *arrows(),
        *words(),
        "</svg>",
        sep="\n",
    )


if __name__ == "__main__":
    main()
