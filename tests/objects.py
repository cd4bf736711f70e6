#!/usr/bin/env python3
"""Reports as JSON, read back by Python: each says what the report by lines says, and has the form of docs/report.schema.json.

usage: tests/objects.py PROGRAM
"""
from __future__ import annotations

import json
from collections.abc import Iterator, Sequence
from typing import Any

import harness
from harness import C17, C17B, TOP, Tally, run, written

JsonObject = dict[str, Any]

# Buses of 9 bits, of 1 bit and of 5 in two dimensions; one that lacks a bit, one with a name of no number, one whose bit has another name.
BUSES = (
    b"".join(
        b"INPUT(%s)\n" % name
        for name in (
            *(b"a[%d]" % i for i in (8, 3, 0, 1, 2, 7, 6, 5, 4)),
            b"c",
            b"one[0]",
            *(b"m[1][%d]" % i for i in range(5)),
            b"gap[0]",
            b"gap[2]",
            b"x[0]",
            b"x[a]",
            b"y[0]",
            b"y[01]",
            b"[0]",
            b"z[1]",
            b"m[0]",
        )
    )
    + b"OUTPUT(o)\nOUTPUT(p)\no = NOR(a[8], c, m[1][4], one[0], [0])\np = AND(a[3], a[7], m[1][1], m[1][4], y[01], z[1])\n"
)


# What options are tried with pairs of files: orders and sizes, pairs by their cones, and which variables assignments have.
ORDERS: list[list[object]] = [[], ["--sizes"], ["--order", "depth", "--workers", 1], ["--order", "interleave", "--sizes"]]
BY_CONES: list[list[object]] = [
    ["--order", "cones"],
    ["--order", "cones", "--limit", 8],
    ["--order", "merge", "--limit", 1],
    ["--difference", "any"],
    ["--share", "1/2"],
    ["--share", "2/2", "--limit", 8],
]
ASSIGNMENTS: list[list[object]] = [
    ["all"],
    ["support"],
    ["ones"],
    ["ones", "--order", "depth"],
    ["all", "--sizes"],
    ["support", "--sizes"],
    ["ones", "--order", "cones"],
]


def pairs(place: str) -> Iterator[list[object]]:
    """Words over two files. Among the names are those that JSON has to escape."""
    c17, c17b = written(place, "c17", C17), written(place, "c17b", C17B)
    lone = written(place, "lone", C17.replace(b"23", b"24"))
    text = C17.replace(b"22", b'"\\n"').replace(b"10", b"\\u0041").replace(b"INPUT(1)", b"INPUT('/{[:]}\\)").replace(b"(1,", b"('/{[:]}\\,")
    odd, odder = written(place, "odd", text), written(place, "odder", text.replace(b"NAND('", b"AND('"))
    empty = written(place, "empty", b"")
    order = written(place, "order", b"7 6 3 2 1")
    s27, renamed, wrong = (TOP / "examples" / f"{name}.bench" for name in ("s27", "s27_renamed", "s27_wrong"))
    for files in ((c17, c17), (c17, c17b), (c17, lone), (odd, odd), (odd, odder), (empty, empty), (s27, s27), (s27, renamed), (s27, wrong)):
        for words in ORDERS:
            yield [*words, *files]
    yield ["--match", "position", "--sizes", s27, renamed]
    yield ["--order-file", order, c17, c17b]
    for files in ((c17, c17b), (c17, lone), (odd, odder), (empty, empty), (s27, wrong), (s27, renamed)):
        for words in BY_CONES:
            yield [*words, *files]
    buses, wider = written(place, "buses", BUSES), written(place, "wider", BUSES.replace(b"NOR", b"XOR"))
    for files in ((c17, c17b), (odd, odder), (s27, wrong), (buses, wider), (buses, buses)):
        for words in ASSIGNMENTS:
            yield ["--assignment", *words, *files]
    yield ["--only", 23, "--only", 22, c17, c17b]
    yield ["--only", 23, c17, lone]


def line_of(verdict: JsonObject) -> str:
    """The line of a verdict in the report by text."""
    name = {"output": "", "next state": "NEXT "}[verdict["of"]] + verdict["name"]
    if verdict["verdict"] == "ONLY":
        return f"ONLY {verdict['side'].upper()} {name}"
    if verdict["verdict"] == "UNDECIDED":
        return f"UNDECIDED {name}"
    if verdict["verdict"] == "EQUAL":
        return f"EQUAL {name}" + (f" size {verdict['size']}" if "size" in verdict else "")
    bits = "".join(f" {variable}={bit}" for variable, bit in verdict["at"].items())
    sizes = " sizes {} {}".format(*verdict["sizes"]) if "sizes" in verdict else ""
    least = "" if verdict.get("least", True) else " (may not be the least)"
    return f"DIFFER {name} at{bits} first={verdict['first']} second={verdict['second']}{sizes}{least}"


def text_of(report: JsonObject) -> bytes:
    """The report by text that says the same."""
    lines = [line_of(verdict) for verdict in report["verdicts"]]
    last = "{equal} equal, {different} different, {unmatched} unmatched".format(**report)
    last += f", {report['undecided']} undecided" if "undecided" in report else ""
    last += ", share {} of {}".format(*report["share"]) if "share" in report else ""
    lines.append(last)
    return "".join(line + "\n" for line in lines).encode()


def settings_of(words: Sequence[object]) -> tuple[str, str]:
    """What the report must say of the words."""
    asked = [str(word) for word in words]

    def after(word: str, other: str) -> str:
        return asked[asked.index(word) + 1] if word in asked else other

    usual = "declared" if "--sizes" in asked else "cones" if "--only" in asked or "--share" in asked else "auto"
    return after("--match", "name"), "file" if "--order-file" in asked else after("--order", usual)


def widths(variables: list[str]) -> dict[str, int]:
    """The buses of the variables, with how many bits each has: all whose names begin with that of the bus and a bracket."""
    found = {}
    for name in variables:
        if name.endswith("[0]"):
            bits = [other for other in variables if other.startswith(name[:-2])]
            if set(bits) == {f"{name[:-2]}{i}]" for i in range(len(bits))}:
                found[name[:-3]] = len(bits)
    return found


def tells(verdict: JsonObject, variables: list[str], words: Sequence[object]) -> bool:
    """Whether an assignment has the variables that the words ask for, and the numbers of their buses."""
    at = verdict["at"]
    which = words[words.index("--assignment") + 1] if "--assignment" in words else None
    if list(at) != [name for name in variables if which in (None, "all") or name in at] or (which == "ones" and 0 in at.values()):
        return False

    def number(name: str, bits: int) -> str:
        return f"0x{sum(at.get(f'{name}[{i}]', 0) << i for i in range(bits)):0{(bits + 3) // 4}x}"

    buses = {name: number(name, bits) for name, bits in widths(variables).items()}
    return verdict.get("buses") == (None if which is None else buses) and list(verdict.get("buses", {})) == list(buses if which else {})


def fits(value: Any, schema: JsonObject, top: JsonObject) -> bool:
    """Whether a value is as a schema says, of the words that docs/report.schema.json uses."""
    if isinstance(value, bool):
        return schema.get("const") is value
    while "$ref" in schema:
        schema = top["$defs"][schema["$ref"].rsplit("/", 1)[1]]
    if "oneOf" in schema:
        return sum(fits(value, one, top) for one in schema["oneOf"]) == 1
    if "const" in schema and value != schema["const"] or "enum" in schema and value not in schema["enum"]:
        return False
    kinds = {"object": dict, "array": list, "string": str, "integer": int, None: object}
    if not isinstance(value, kinds[schema.get("type")]):
        return False
    if isinstance(value, dict):
        known, rest = schema.get("properties", {}), schema.get("additionalProperties", {})
        return set(schema.get("required", [])) <= set(value) and all(
            fits(item, known[key], top) if key in known else rest is not False and fits(item, rest, top) for key, item in value.items()
        )
    if isinstance(value, list):
        is_long = schema.get("minItems", 0) <= len(value) <= schema.get("maxItems", len(value))
        is_unique = not schema.get("uniqueItems") or len(set(value)) == len(value)
        return is_long and is_unique and all(fits(item, schema["items"], top) for item in value)
    if isinstance(value, str):
        return bool(schema.get("minLength", 0) <= len(value) <= schema.get("maxLength", len(value)))
    return bool(schema.get("minimum", value) <= value <= schema.get("maximum", value))


def members_once(members: list[tuple[str, Any]]) -> JsonObject:
    """An object, whose keys must differ."""
    if len(dict(members)) != len(members):
        raise ValueError("a key stands twice")
    return dict(members)


def try_pair(program: str, words: Sequence[object], schema: JsonObject, tally: Tally) -> None:
    by_lines = run([program, *words])
    seen = run([program, "--format", "json", *words])
    name = " ".join(map(str, words))
    try:
        report = json.loads(seen.out, object_pairs_hook=members_once)
    except ValueError as error:
        tally.check(name, False, f"{error}: {seen}")
        return
    says = text_of(report) if fits(report, schema, schema) else "another form than the schema's"
    is_line = seen.out.endswith(b"}\n") and seen.out.count(b"\n") == 1
    in_order = all(tells(verdict, report["variables"], words) for verdict in report["verdicts"] if "at" in verdict)
    right = (by_lines.status, by_lines.out, b"") == (seen.status, says, harness.without_cause(seen).err)
    tally.check(name, right and is_line and in_order and (report["match"], report["order"]) == settings_of(words), f"{seen}; {by_lines}")


def try_causes(program: str, words: Sequence[object], schema: JsonObject, tally: Tally) -> None:
    """That causes are reported after all else, of pairs that differ, each once."""
    plain = run([program, "--format", "json", *words])
    seen = run([program, "--format", "json", "--causes", *words])
    report = json.loads(seen.out, object_pairs_hook=members_once)
    has_form = fits(report, schema, schema) and list(report)[-1] == "causes"
    reported = [pair for cause in report.pop("causes") for pair in cause["pairs"]]
    differing = [{"of": one["of"], "name": one["name"]} for one in report["verdicts"] if one["verdict"] == "DIFFER"]
    is_same = (seen.status, report, seen.err) == (plain.status, json.loads(plain.out), plain.err)
    are_differing = all(reported.count(pair) == 1 and pair in differing for pair in reported)
    tally.check(f"causes {' '.join(map(str, words))}", has_form and is_same and are_differing, f"{seen}; {plain}")


def main() -> None:
    program, tally = harness.program_of(__doc__), Tally("objects")
    schema = json.loads((TOP / "docs" / "report.schema.json").read_text())
    with harness.folder() as place:
        for words in pairs(place):
            try_pair(program, words, schema, tally)
            if "--share" not in words:
                try_causes(program, words, schema, tally)
        refused = run([program, "--format", "json", place, place])
        helps = f"bddcheck: first: cannot be read\nbddcheck: {place}: the device failed, or the path is a folder\n"
        tally.check("a fault is two lines", refused == harness.Run(2, b"", helps.encode()), refused)
        text = run([program, "--format", "text", written(place, "c17", C17), written(place, "c17b", C17B)])
        tally.check("text by name", (text.status, text.out) == (1, harness.C17_DIFFERS), text)
    example = json.loads((TOP / "docs" / "report.example.json").read_text())
    files = [TOP / "examples" / name for name in ("c17.bench", "c17b.bench")]
    seen = run([program, "--format", "json", "--sizes", *files])
    tally.check("the example of the documents", seen.status == 1 and json.loads(seen.out) == example, seen)
    tally.check("the example has the schema's form", fits(example, schema, schema))
    tally.finish()


if __name__ == "__main__":
    main()
