#!/usr/bin/env python3
"""That tools/join.py makes the whole report of the reports of all shares, and refuses what are not the shares of one comparison.

usage: tests/joining.py

The reports here are written by hand; the program is not run.
"""
from __future__ import annotations

import json
import sys
from collections.abc import Sequence
from typing import Any

import harness
from harness import TOP, Run, Tally, folder, lines, run, written

FIRST = b"""\
# Comments name OUTPUT(no) and no = DFF(x).
INPUT(a)
OUTPUT(z) OUTPUT(y)
output ( NEXT )   OUTPUT(z)
q = DFF(d)  p = dff (
  d)
d = NOT(a)
z = AND(a, q)
OUTPUT = BUFF(p)
y = OR(a, OUTPUT)
NEXT = BUFF(a)
OUTPUT(only)
only = BUFF(a)
"""
ONE = lines(
    "EQUAL y",
    "DIFFER NEXT at a=0 q=1 p=0 first=0 second=1",
    "UNDECIDED NEXT p",
    "ONLY FIRST only",
    "ONLY SECOND NEXT r",
    "1 equal, 1 different, 2 unmatched, 1 undecided, share 1 of 3",
)
TWO = lines("EQUAL z", "1 equal, 0 different, 0 unmatched, share 2 of 3")
THREE = lines("EQUAL NEXT q", "1 equal, 0 different, 0 unmatched, share 3 of 3")
WHOLE = lines(
    "EQUAL z",
    "EQUAL y",
    "DIFFER NEXT at a=0 q=1 p=0 first=0 second=1",
    "EQUAL NEXT q",
    "UNDECIDED NEXT p",
    "ONLY FIRST only",
    "ONLY SECOND NEXT r",
    "3 equal, 1 different, 2 unmatched, 1 undecided",
)
# A netlist of two outputs, and a share of each.
TWO_OUTPUTS = b"INPUT(a)\nOUTPUT(x)\nOUTPUT(w)\nx = BUFF(a)\nw = NOT(a)\n"
X = lines("EQUAL x", "1 equal, 0 different, 0 unmatched, share 2 of 2")
W = lines("EQUAL w", "1 equal, 0 different, 0 unmatched, share 1 of 2")


JsonObject = dict[str, Any]


def json_report(
    number: int, of: int, *verdicts: JsonObject, variables: Sequence[str] = ("a",), order: str = "cones", **counts: int
) -> bytes:
    """The report of a share as JSON."""
    found = {"equal": 0, "different": 0, "unmatched": 0, **counts}
    report: JsonObject = {
        "match": "name",
        "order": order,
        "variables": list(variables),
        "verdicts": list(verdicts),
        **found,
        "share": [number, of],
    }
    return json.dumps(report, separators=(",", ":")).encode() + b"\n"


def verdict(kind: str, name: str, of: str = "output", **more: Any) -> JsonObject:
    return {"verdict": kind, "of": of, "name": name, **more}


def join(first: bytes, *shares: bytes) -> Run:
    with folder() as place:
        paths = [written(place, "first.bench", first), *(written(place, f"share{i}", share) for i, share in enumerate(shares))]
        seen = run([sys.executable, TOP / "tools" / "join.py", *paths])
        return Run(seen.status, seen.out, seen.err.replace(f"{place}/".encode(), b""))


def joined(tally: Tally) -> None:
    for name, shares in {"in order": [ONE, TWO, THREE], "in another order": [THREE, ONE, TWO]}.items():
        tally.check(name, (seen := join(FIRST, *shares)) == Run(1, WHOLE, b""), seen)
    seen = join(TWO_OUTPUTS, X, W)
    tally.check("all equal", seen == Run(0, lines("EQUAL x", "EQUAL w", "2 equal, 0 different, 0 unmatched"), b""), seen)
    undecided = lines("UNDECIDED w", "0 equal, 0 different, 0 unmatched, 1 undecided, share 1 of 2")
    seen = join(TWO_OUTPUTS, X, undecided)
    tally.check(
        "one undecided", seen == Run(3, lines("EQUAL x", "UNDECIDED w", "1 equal, 0 different, 0 unmatched, 1 undecided"), b""), seen
    )
    seen = join(TWO_OUTPUTS, lines("EQUAL x", "EQUAL w", "2 equal, 0 different, 0 unmatched, share 1 of 1"))
    tally.check("one share", seen == Run(0, lines("EQUAL x", "EQUAL w", "2 equal, 0 different, 0 unmatched"), b""), seen)
    empty = lines("0 equal, 0 different, 0 unmatched, share 2 of 2")
    seen = join(TWO_OUTPUTS, lines("EQUAL x", "EQUAL w", "2 equal, 0 different, 0 unmatched, share 1 of 2"), empty)
    tally.check("an empty share", seen.status == 0, seen)
    at_at = lines("DIFFER NEXT at at at=1 first=0 second=1", "0 equal, 1 different, 0 unmatched, share 1 of 1")
    seen = join(b"at = DFF(at)\n", at_at)
    ones = [
        lines("DIFFER x at a=1 first=0 second=1", "0 equal, 1 different, 0 unmatched, share 1 of 2"),
        lines("DIFFER w at first=0 second=1", "0 equal, 1 different, 0 unmatched, share 2 of 2"),
    ]
    both = lines("DIFFER x at a=1 first=0 second=1", "DIFFER w at first=0 second=1", "0 equal, 2 different, 0 unmatched")
    seen_ones = join(TWO_OUTPUTS, *ones)
    tally.check("variables that are 1 alone", seen_ones == Run(1, both, b""), seen_ones)
    shown = "DIFFER w at a=1 first=0 second=1 (may not be the least)"
    seen_shown = join(TWO_OUTPUTS, X, lines(shown, "0 equal, 1 different, 0 unmatched, share 1 of 2"))
    wanted = Run(1, lines("EQUAL x", shown, "1 equal, 1 different, 0 unmatched"), b"")
    tally.check("a difference that may not be the least", seen_shown == wanted, seen_shown)
    tally.check("a register at", seen == Run(1, at_at.replace(b", share 1 of 1", b""), b""), seen)


def joined_json(tally: Tally) -> None:
    one = json_report(1, 2, verdict("UNDECIDED", "w"), undecided=1)
    two = json_report(2, 2, verdict("EQUAL", "x"), equal=1)
    whole = (
        b'{"match":"name","order":"cones","variables":["a"],"verdicts":[{"verdict":"EQUAL","of":"output","name":"x"},'
        b'{"verdict":"UNDECIDED","of":"output","name":"w"}],"equal":1,"different":0,"unmatched":0,"undecided":1}\n'
    )
    tally.check("JSON", (seen := join(TWO_OUTPUTS, one, two)) == Run(3, whole, b""), seen)
    given = [text.replace(b'"variables"', b'"given":true,"variables"') for text in (one, two)]
    seen = join(TWO_OUTPUTS, *given)
    tally.check("JSON with a condition", seen == Run(3, whole.replace(b'"variables"', b'"given":true,"variables"'), b""), seen)
    seen = join(TWO_OUTPUTS, one.replace(b"}\n", b',"stopped":true}\n'), two)
    tally.check("JSON of a run that was stopped", seen == Run(3, whole.replace(b"}\n", b',"stopped":true}\n'), b""), seen)
    for name, other in {
        "other variables": json_report(2, 2, verdict("EQUAL", "x"), variables=("b",), equal=1),
        "another order": json_report(2, 2, verdict("EQUAL", "x"), order="declared", equal=1),
        "with a condition": given[1],
        "counts": json_report(2, 2, verdict("EQUAL", "x"), different=1),
        "no share": two.replace(b',"share":[2,2]', b""),
        "an unknown verdict": json_report(2, 2, verdict("SAME", "x"), equal=1),
        "causes": two.replace(b',"share"', b',"causes":[],"share"'),
        "stopped or not": two.replace(b',"share":[2,2]', b',"share":[2,2],"stopped":false'),
        "a member twice": two.replace(b'"equal":1', b'"equal":1,"equal":1'),
        "lines": X,
        "broken": two[:-3],
    }.items():
        refused(tally, f"JSON: {name}", TWO_OUTPUTS, one, other)


def refused(tally: Tally, name: str, *texts: bytes, says: bytes = b"") -> None:
    seen = join(*texts)
    is_right = seen.status == 2 and not seen.out and seen.err.startswith(b"join: ") and seen.err.count(b"\n") == 1 and says in seen.err
    tally.check(name, is_right, seen)


def refusals(tally: Tally) -> None:
    refused(tally, "a missing share", FIRST, ONE, THREE, says=b"2 of 3 shares are there")
    refused(
        tally, "a missing share of very many", TWO_OUTPUTS, X.replace(b"2 of 2", b"2 of 999999999999"), says=b"1 of 999999999999 shares"
    )
    refused(tally, "a share twice", FIRST, ONE, TWO, THREE, TWO, says=b"both are share 2")
    refused(tally, "a share of another number of shares", TWO_OUTPUTS, X.replace(b"2 of 2", b"2 of 3"), W, says=b"it is of 3 shares")
    refused(tally, "a share beyond the last", TWO_OUTPUTS, X.replace(b"2 of 2", b"3 of 2"), W, says=b"no share 3 of 2")
    refused(tally, "share 0", TWO_OUTPUTS, X.replace(b"2 of 2", b"0 of 2"), W, says=b"no share 0 of 2")
    refused(tally, "a whole report", TWO_OUTPUTS, X.replace(b", share 2 of 2", b""), W, says=b"share0: its last line")
    refused(tally, "a report that was cut off", TWO_OUTPUTS, X[:-1], W, says=b"share0: its last line")
    refused(tally, "an empty report", TWO_OUTPUTS, b"", W, says=b"share0: its last line")
    refused(tally, "a pair of another netlist", TWO_OUTPUTS, X.replace(b" x", b" v"), W, says=b"output v is none of the first netlist")
    refused(tally, "a next state that is an output", TWO_OUTPUTS, X.replace(b" x", b" NEXT x"), W, says=b"the next state of x is none")
    refused(tally, "a pair in two shares", TWO_OUTPUTS, X, W.replace(b" w", b" x"), says=b"output x stood in share1 before")
    refused(
        tally,
        "a pair in no share",
        FIRST,
        ONE,
        TWO,
        lines("0 equal, 0 different, 0 unmatched, share 3 of 3"),
        says=b"the next state of q stands in no share",
    )
    refused(tally, "a count", TWO_OUTPUTS, X.replace(b"1 equal", b"2 equal"), W, says=b"its counts")
    refused(tally, "undecided that is not counted", TWO_OUTPUTS, X.replace(b"EQUAL", b"UNDECIDED"), W, says=b"its counts")
    lone = lines("EQUAL x", "ONLY SECOND v", "1 equal, 0 different, 1 unmatched, share 2 of 2")
    refused(tally, "what has no partner, in the second share", TWO_OUTPUTS, lone, W, says=b"share 1 alone")
    partner = lines("EQUAL w", "ONLY SECOND x", "1 equal, 0 different, 1 unmatched, share 1 of 2")
    refused(tally, "what has a partner", TWO_OUTPUTS, X, partner, says=b"output x is one of the first netlist")
    refused(tally, "a line of another kind", TWO_OUTPUTS, X.replace(b"EQUAL", b"SAME"), W, says=b"no line of a share: SAME x")
    turned = lines("EQUAL w", "EQUAL x", "2 equal, 0 different, 0 unmatched, share 1 of 1")
    refused(tally, "pairs out of order", TWO_OUTPUTS, turned, says=b"output x does not stand in its place")
    differ = [X.replace(b"1 equal, 0", b"0 equal, 1").replace(b"EQUAL x", b"DIFFER x at a=0 first=0 second=1")]
    differ += [W.replace(b"1 equal, 0", b"0 equal, 1").replace(b"EQUAL w", b"DIFFER w at b=0 first=0 second=1")]
    refused(tally, "other variables", TWO_OUTPUTS, *differ, says=b"different variables")
    refused(tally, "no share at all", TWO_OUTPUTS, says=b"usage")
    seen = run([sys.executable, TOP / "tools" / "join.py", "/nowhere/first.bench", "/nowhere/share"])
    tally.check("a file that is not there", seen.status == 2 and not seen.out and seen.err.startswith(b"join: "), seen)


def main() -> None:
    tally = Tally("joining")
    joined(tally)
    joined_json(tally)
    refusals(tally)
    tally.finish()


if __name__ == "__main__":
    harness.ended(main)
