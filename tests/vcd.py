#!/usr/bin/env python3
"""Reads the VCD of a proved test by a reader of its own, and compares it with the values that the netlists' gates have. Then
tools/vcd.py is tried, which writes that very text of the same netlists and a line of a report; and then the program's --vcd, whose file
has to be what tools/vcd.py makes of the report of the same run.

usage: tests/vcd.py PROGRAM [--seed N]

The text, the netlists and the assignment are those of the test `values_as_vcd` in crates/netlist_tests/src/explanations.rt, which says
that the crate writes this text.
"""
from __future__ import annotations

import ast
import pathlib
import random
import re
import sys
from typing import Optional

import harness
from explained import changed, random_net
from harness import TOP, Tally

# A time, which a value at the beginning lacks, and the value from then on.
Change = tuple[Optional[int], str]

SOURCE = TOP / "crates/netlist_tests/src/explanations.rt"
# The variables as they are declared, with the bits of the test.
AT = {"e": 1, "q": 0}


def literal(source: str, pattern: str) -> str:
    """The text of the literal that the pattern finds."""
    found = re.search(pattern, source, re.DOTALL)
    if found is None:
        sys.exit(f"vcd: {SOURCE.name} has no {pattern}")
    return str(ast.literal_eval(found.group(1)))


def read(text: str) -> dict[str, dict[str, list[Change]]]:
    """By scope and name, the values with their times."""
    scopes: dict[str, dict[str, list[Change]]] = {}
    names: dict[str, tuple[str, str]] = {}
    words = iter(text.split())
    path: list[str] = []
    time: int | None = None
    for word in words:
        if word in ("$timescale", "$scope", "$var", "$upscope", "$enddefinitions"):
            body = []
            for part in words:
                if part == "$end":
                    break
                body.append(part)
            if word == "$scope":
                path.append(body[1])
                scopes[".".join(path)] = {}
            elif word == "$upscope":
                path.pop()
            elif word == "$var":
                kind, width, code, name = body
                if kind != "wire" or width != "1" or code in names or name in scopes[".".join(path)]:
                    raise ValueError(f"{body} is no wire of its own")
                if not all(33 <= ord(byte) <= 126 for byte in code):
                    raise ValueError(f"{code!r} is not printable")
                names[code] = (".".join(path), name)
                scopes[".".join(path)][name] = []
        elif word[0] == "#":
            time = int(word[1:])
        else:
            scope, name = names[word[1:]]
            scopes[scope][name].append((time, word[0]))
    return scopes


def value(gates: dict[str, tuple[str, list[str]]], name: str) -> int:
    """The value of a signal; a register is a variable."""
    if name in AT:
        return AT[name]
    kind, operands = gates[name]
    bits = [value(gates, operand) for operand in operands]
    plain = {
        "AND": min(bits),
        "NAND": 1 - min(bits),
        "OR": max(bits),
        "NOR": 1 - max(bits),
        "XOR": sum(bits) % 2,
        "XNOR": 1 - sum(bits) % 2,
        "NOT": 1 - bits[0],
        "BUFF": bits[0],
    }
    return plain[kind]


def expected(bench: str) -> dict[str, list[Change]]:
    """By name, the value at time 0."""
    gates = {out: (kind, operands.replace(",", " ").split()) for out, kind, operands in re.findall(r"(\S+) = ([A-Z]+)\(([^)]*)\)", bench)}
    names = set(AT) | set(gates)
    return {name: [(0, str(value(gates, name)))] for name in names}


# Reports on the netlists of the proved test, each with its words and what becomes of it: the proved text, or a refusal.
NEXT = "DIFFER NEXT q at e=1 q=0 first=1 second=1\n"
REPORTS: list[tuple[str, str, list[str], bytes | None]] = [
    ("a line", f"EQUAL q\n{NEXT}1 equal, 1 different, 0 unmatched\n", [], None),
    ("only ones", NEXT.replace(" q=0", ""), [], None),
    ("sizes", NEXT.replace("\n", " sizes 3 4\n"), [], None),
    ("not the least", NEXT.replace("\n", " (may not be the least)\n"), [], None),
    ("another pair first", "DIFFER x at e=0 q=0 first=0 second=1\n" + NEXT, ["--of", "NEXT q"], None),
    ("by position", NEXT, ["--match", "position"], None),
    ("as an output", "DIFFER q at e=1 q=0 first=0 second=0\n", [], None),
    (
        "JSON",
        '{"verdicts":[{"verdict":"DIFFER","of":"next state","name":"q","at":{"e":1,"q":0},"first":1,"second":1}]}\n',
        [],
        None,
    ),
    ("other values", NEXT.replace("first=1", "first=0"), [], b"vcd: the netlists are not those of the report: the pair has other values\n"),
    ("another name", NEXT, ["--of", "q"], b"vcd: no such pair differs\n"),
    ("nothing that differs", "EQUAL q\n", [], b"vcd: no such pair differs\n"),
]


def written(tally: Tally, first: str, second: str, text: str) -> None:
    """tools/vcd.py on these reports, and on files that are none."""
    with harness.folder() as place:
        files = [harness.written(place, "first", first.encode()), harness.written(place, "second", second.encode())]
        for name, report, words, said in REPORTS:
            seen = harness.run([TOP / "tools/vcd.py", *words, *files], report.encode())
            tally.same(f"tools/vcd.py, {name}", seen, 0 if said is None else 1, text.encode() if said is None else b"", said or b"")
        path = harness.written(place, "report", NEXT.encode())
        out = f"{place}/out.vcd"
        seen = harness.run([TOP / "tools/vcd.py", "-o", out, *files, path])
        tally.same("tools/vcd.py, a file", seen, 0, b"", b"")
        with open(out, "rb") as made:
            tally.check("tools/vcd.py, what the file has", made.read() == text.encode(), "other bytes")
        bad = harness.written(place, "bad", b"INPUT(a\n")
        seen = harness.run([TOP / "tools/vcd.py", bad, files[1], path])
        tally.same("tools/vcd.py, no netlist", seen, 2, b"", f"vcd: {bad}: no netlist\n".encode())


# Options beside --vcd; the last may be refused if a netlist has one more input.
WORDS: list[list[str]] = [
    [],
    ["--order", "best"],
    ["--order", "depth"],
    ["--order", "cones"],
    ["--workers", "1"],
    ["--order", "declared", "--sizes"],
    ["--assignment", "ones"],
    ["--format", "json"],
    ["--share", "1/2"],
    ["--match", "position"],
]


def by_script(words: list[str], files: list[pathlib.Path], report: bytes) -> bytes | None:
    """What tools/vcd.py makes of a report; nothing if no pair differs."""
    matching = words if "--match" in words else []
    made = harness.run([TOP / "tools/vcd.py", *matching, *files], report)
    if made.status not in (0, 1) or (made.status == 1 and made.err != b"vcd: no such pair differs\n"):
        raise ValueError(str(made))
    return made.out if made.status == 0 else None


def compared(tally: Tally, program: str, rng: random.Random) -> None:
    """The file of --vcd, against that script."""
    made, untouched = 0, 0
    with harness.folder() as place:
        out = pathlib.Path(place) / "differs.vcd"
        for turn in range(150):
            first = random_net(rng)
            second = changed(rng, first) if rng.random() < 0.8 else first
            files = [harness.written(place, name, net.text().encode()) for name, net in (("first", first), ("second", second))]
            words = rng.choice(WORDS)
            before = b"what stood there before\n" * 1000 if rng.random() < 0.5 else None
            out.unlink(missing_ok=True)
            if before is not None:
                out.write_bytes(before)
            plain = harness.run([program, *words, *files])
            seen = harness.run([program, "--vcd", out, *words, *files])
            tally.same(f"the report beside a file, turn {turn}, {words}", seen, plain.status, plain.out, plain.err)
            wanted = by_script(words, files, plain.out) if plain.status in (0, 1) else None
            made, untouched = made + (wanted is not None), untouched + (wanted is None)
            has = out.read_bytes() if out.exists() else None
            tally.check(f"the file, turn {turn}, {words}", has == (before if wanted is None else wanted), has)
    tally.check("many pairs differ, and some do not", made > 40 and untouched > 40, (made, untouched))


def refused(tally: Tally, program: str) -> None:
    """Files that cannot be written: the report is written, and then comes the fault."""
    with harness.folder() as place:
        files = [harness.written(place, "first", harness.C17), harness.written(place, "second", harness.C17B)]
        for path, helps in (
            (f"{place}/none/differs.vcd", "there is no such file or folder"),
            (f"{place}/first/differs.vcd", "a part of the path is not a folder"),
            (place, "the system refused it"),
            ("/dev/full", "its device is full, or has failed"),
        ):
            said = f"bddcheck: vcd: cannot be written\nbddcheck: {path}: {helps}\n".encode()
            seen = harness.run([program, "--vcd", path, *files])
            tally.same(f"--vcd {path}", seen, 3, harness.C17_DIFFERS, said)
            seen = harness.run([program, "--vcd", path, "--verbose", "--order", "declared", *files])
            tally.same(f"--vcd {path} --verbose", seen, 3, harness.C17_DIFFERS, said)
            seen = harness.run([program, "--vcd", path, files[0], files[0]])
            tally.same(f"--vcd {path}, equal", seen, 0, harness.C17_EQUAL, b"")
        seen = harness.run([program, "--vcd", "-", *files], cwd=place)
        tally.same("--vcd -", seen, 1, harness.C17_DIFFERS, b"")
        tally.check("a file of the name -", (pathlib.Path(place) / "-").exists(), "there is none")


def main() -> None:
    parser = harness.parser_with_program(__doc__)
    parser.add_argument("--seed", default="1", help="The netlists are drawn by this text; the default is 1.")
    given = parser.parse_args()
    tally = Tally("vcd")
    source = SOURCE.read_text(encoding="utf-8")
    body = source[source.index("fn values_as_vcd") :]
    text = literal(body, r'== b("(?:[^"\\]|\\.)*")')
    found = read(text)
    netlists = []
    for scope, constant in (("first", "TOGGLED"), ("second", "HELD")):
        bench = literal(source, rf'static {constant}: &str =\s*("(?:[^"\\]|\\.)*")')
        netlists.append(bench)
        tally.check(f"the values of the {scope} netlist", found.get(scope) == expected(bench), found.get(scope))
    tally.check("two scopes and no others", set(found) == {"first", "second"}, sorted(found))
    first, second = netlists
    written(tally, first, second, text)
    compared(tally, given.program, random.Random(given.seed))
    refused(tally, given.program)
    tally.finish()


if __name__ == "__main__":
    harness.ended(main)
