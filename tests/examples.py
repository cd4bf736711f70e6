#!/usr/bin/env python3
"""Each row of examples/README.md, tried: its words, and what it says that one sees.

usage: tests/examples.py PROGRAM

A row that is in the README and not here, or here and not in the README, fails.
"""
from __future__ import annotations

import re
import shlex
from collections.abc import Callable, Iterator

from harness import TOP, Run, Tally, lines, program_of, run, unhelped


def equal(*names: str, sizes: list[int] | None = None) -> Run:
    reported = [f"EQUAL {name}" + (f" size {sizes[i]}" if sizes else "") for i, name in enumerate(names)]
    return Run(0, lines(*reported, f"{len(names)} equal, 0 different, 0 unmatched"), b"")


def refused(text: str, status: int = 2) -> Callable[[Run], bool]:
    """That a run is refused by this line; a second one says what helps."""
    return lambda seen: unhelped(seen) == Run(status, b"", lines("bddcheck: " + text))


def adders_equal(seen: Run) -> bool:
    return seen.status == 0 and seen.out.count(b"EQUAL ") == 9 and seen.out.endswith(b"9 equal, 0 different, 0 unmatched\n")


def twenty_three(seen: Run) -> bool:
    sizes = [int(size) for size in re.findall(rb" size (\d+)\n", seen.out)]
    return seen.status == 0 and len(sizes) == 9 and max(sizes) == 23


def eight_and_fifty_six(seen: Run) -> bool:
    """The first assignment that is reported is that of 8 and 56."""
    bits = dict(word.split("=") for word in seen.out.split(b"DIFFER", 1)[1].decode().split("\n")[0].split() if "=" in word)

    def number(letter: str) -> int:
        return sum(int(bits[f"{letter}{i}"]) << i for i in range(8))

    return seen.status == 1 and {number("a"), number("b")} == {8, 56}


def one_differs(seen: Run) -> bool:
    return seen.status == 1 and seen.out.count(b"DIFFER") == 1 and b"1 equal, 1 different, 0 unmatched" in seen.out


def explained(seen: Run) -> bool:
    return one_differs(seen) and b"\n  19 first=0 second=1 line 11 line 11\n" in seen.out


def differ_at_both(seen: Run) -> bool:
    return seen.status == 1 and b" a=1 b=1 " in seen.out and seen.out.count(b"\n") == 2


def no_partner(seen: Run) -> bool:
    return seen.status == 1 and b"ONLY FIRST 23\nONLY SECOND 24\n" in seen.out


def of_four(seen: Run) -> bool:
    """A variable that only one netlist has is among the others."""
    return seen.status == 1 and b"DIFFER 23 at" in seen.out and b" 7=" in seen.out


def wires(seen: Run) -> bool:
    return seen.status == 1 and b"DIFFER" in seen.out and b"EQUAL" not in seen.out


def machine(last: list[str], status: int) -> Run:
    """s27's output and the first two next states are equal."""
    out = lines("EQUAL G17", "EQUAL NEXT G5", "EQUAL NEXT G6", *last)
    return Run(status, out, b"")


def register_alone(seen: Run) -> bool:
    return seen.status == 1 and b"ONLY FIRST NEXT G7\nONLY SECOND NEXT R7\n" in seen.out and b" R7=" in seen.out


SEEN = {
    "examples/adder8_ripple.bench examples/adder8_lookahead.bench": adders_equal,
    "--sizes --order depth examples/adder8_ripple.bench examples/adder8_lookahead.bench": twenty_three,
    "examples/adder8_ripple.bench examples/adder8_wrong.bench": eight_and_fifty_six,
    "examples/c17.bench examples/c17b.bench": one_differs,
    "--explain 23 examples/c17.bench examples/c17b.bench": explained,
    "examples/c17.bench examples/c17c.bench": no_partner,
    "--sizes examples/pairs.bench examples/pairs.bench": equal("o", sizes=[6]),
    "--sizes examples/pairs13.bench examples/pairs13.bench": equal("o", sizes=[16382]),
    "examples/par8.bench examples/chain8.bench": equal("p"),
    "examples/never.bench examples/never_by_and.bench": equal("o"),
    "examples/or.bench examples/xor.bench": differ_at_both,
    "examples/wire.bench examples/buffer.bench": wires,
    "examples/s27.bench examples/s27_rewritten.bench": machine(["EQUAL NEXT G7", "4 equal, 0 different, 0 unmatched"], 0),
    "examples/s27.bench examples/s27_wrong.bench": machine(
        ["DIFFER NEXT G7 at G0=0 G1=0 G2=0 G3=0 G5=0 G6=0 G7=0 first=0 second=1", "3 equal, 1 different, 0 unmatched"], 1
    ),
    "examples/s27.bench examples/s27_renamed.bench": register_alone,
    "--pairs examples/s27_renamed.pairs examples/s27.bench examples/s27_renamed.bench": machine(
        ["EQUAL NEXT G7", "4 equal, 0 different, 0 unmatched"], 0
    ),
    "examples/c17.bench examples/c17_of_four.bench": of_four,
    "examples/one_and.bench examples/one_buf.bench": equal("x"),
    "examples/empty.bench examples/empty.bench": equal(),
    "examples/loop.bench examples/c17.bench": refused("first: line 3: gate that depends on a cycle"),
    "examples/undefined.bench examples/c17.bench": refused("first: line 1: signal without definition"),
    "--limit 12 examples/c17.bench examples/c17.bench": refused("build: more nodes than the limit", 3),
}

# What a row says besides, by other words.
MORE = {
    "--match position examples/c17.bench examples/c17c.bench": equal("22", "23"),
    "--sizes --order-file examples/pairs_apart.order examples/pairs.bench examples/pairs.bench": equal("o", sizes=[14]),
    "--match position examples/s27.bench examples/s27_renamed.bench": machine(["EQUAL NEXT G7", "4 equal, 0 different, 0 unmatched"], 0),
    "--match position examples/wire.bench examples/buffer.bench": equal("a"),
}


def rows() -> Iterator[str]:
    """The words of the table's rows."""
    for line in (TOP / "examples" / "README.md").read_text().split("\n"):
        if line.startswith("| `"):
            yield line.split("`")[1]


def main() -> None:
    program, tally, listed = program_of(__doc__), Tally("examples"), list(rows())
    tally.check("each row is tried", listed == list(SEEN), set(listed) ^ set(SEEN))
    for words, wanted in [*SEEN.items(), *MORE.items()]:
        seen = run([program, *shlex.split(words)], cwd=TOP)
        tally.check(words, wanted(seen) if callable(wanted) else seen == wanted, seen)
    tally.finish()


if __name__ == "__main__":
    main()
