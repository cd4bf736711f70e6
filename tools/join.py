#!/usr/bin/env python3
"""Joins the reports of all shares of one comparison, as bddcheck --share K/N writes them, to the report of the whole.

usage: bddcheck-join FIRST.bench SHARE ..

FIRST.bench is the first netlist of the comparison, and each SHARE a file with the report of one share, in any order: all by lines, or all
as JSON. The report goes to standard output: the pairs of outputs in the order of FIRST's OUTPUT lines, the next states in the order of its
DFF lines, what has no partner, and the counts of all. The status is that of bddcheck: 1 if something differs or has no partner, else 3
if something is undecided, else 0. It is 2 if the files are not exactly the shares of one comparison, with a line that says why.
"""
# tools/install.sh installs this script as bddcheck-join.
from __future__ import annotations

import json
import pathlib
import re
import sys
from dataclasses import dataclass, field
from typing import Any

COUNTS = ("equal", "different", "unmatched", "undecided")
KINDS = {"EQUAL": "equal", "DIFFER": "different", "ONLY": "unmatched", "UNDECIDED": "undecided"}
# What is the same in all shares of one comparison, as JSON.
SETTINGS = ("match", "order", "given", "variables")

# Comments and blanks are left out. A name has no punctuation of the format and no blank.
TOKEN = re.compile(rb"#[^\n]*|([(),=]|[^\s(),=#]+)")
EQUAL = re.compile(r"(EQUAL|UNDECIDED) (NEXT )?(\S+)")
DIFFER = re.compile(r"(DIFFER) (NEXT )?(\S+) at((?: [^\s=]+=[01])*) first=[01] second=[01](?: \(may not be the least\))?")
ONLY = re.compile(r"(ONLY) (FIRST|SECOND) (NEXT )?(\S+)")
LAST = re.compile(r"(\d+) equal, (\d+) different, (\d+) unmatched(?:, (\d+) undecided)?, share (\d+) of (\d+)")


class Refusal(Exception):
    """Why nothing is joined."""


@dataclass(frozen=True)
class Subject:
    """An output, or the next state of a register."""

    is_next: bool
    name: str

    def __str__(self) -> str:
        return f"the next state of {self.name}" if self.is_next else f"output {self.name}"


@dataclass
class Verdict:
    """What a report says of one subject, in its own words. The side is there if the subject has no partner."""

    kind: str
    subject: Subject
    side: str | None
    text: object


@dataclass
class Share:
    """A report of one share."""

    path: str
    number: int
    of: int
    verdicts: list[Verdict]
    counts: dict[str, int]
    # What is the same in all shares of JSON, with its text; or the variables of each line that has an assignment.
    settings: dict[str, Any] = field(default_factory=dict)
    settings_text: str = ""
    variables: set[tuple[str, ...]] = field(default_factory=set)
    # Whether the run of the share was stopped, which only JSON says.
    stopped: bool = False


def subjects_of(text: bytes) -> list[Subject]:
    """The outputs and the registers of a netlist, in their order."""
    tokens = [found.decode("latin-1") for found in TOKEN.findall(text) if found]
    outputs: dict[Subject, None] = {}
    registers: dict[Subject, None] = {}
    for place, token in enumerate(tokens):
        behind = tokens[place + 1 : place + 4]
        starts = place == 0 or tokens[place - 1] == ")"
        if starts and token.upper() == "OUTPUT" and behind[:1] == ["("] and behind[2:] == [")"]:
            outputs[Subject(False, behind[1])] = None
        elif starts and behind[:1] == ["="] and len(behind) == 3 and behind[1].upper() == "DFF" and behind[2] == "(":
            registers[Subject(True, token)] = None
    return list(outputs) + list(registers)


# ---- shares by lines


def verdict_of(path: str, line: str) -> Verdict:
    """The verdict of a line."""
    if found := EQUAL.fullmatch(line) or DIFFER.fullmatch(line):
        return Verdict(found[1], Subject(bool(found[2]), found[3]), None, line)
    if found := ONLY.fullmatch(line):
        return Verdict(found[1], Subject(bool(found[3]), found[4]), found[2].lower(), line)
    raise Refusal(f"{path}: no line of a share: {line}")


def variables_in(lines: list[str]) -> set[tuple[str, ...]]:
    """The variables of each line that has an assignment; none if all that are reported are 1, as by --assignment ones."""
    assignments = [found[4] for found in map(DIFFER.fullmatch, lines) if found]
    if all(bit.endswith("=1") for assignment in assignments for bit in assignment.split()):
        return set()
    return {tuple(bit.split("=")[0] for bit in assignment.split()) for assignment in assignments}


def share_by_lines(path: str, text: str) -> Share:
    lines = text.split("\n")
    last = LAST.fullmatch(lines[-2]) if len(lines) > 1 and not lines[-1] else None
    if not last:
        raise Refusal(f"{path}: its last line is not that of a share")
    counts = dict(zip(COUNTS, (int(count or 0) for count in last.groups()[:4])))
    verdicts = [verdict_of(path, line) for line in lines[:-2]]
    return Share(path, int(last[5]), int(last[6]), verdicts, counts, variables=variables_in(lines[:-2]))


# ---- shares as JSON


def members(pairs: list[tuple[str, Any]]) -> dict[str, Any]:
    """An object whose members have names of their own."""
    reported = dict(pairs)
    if len(reported) < len(pairs):
        raise ValueError("a member stands twice")
    return reported


def share_by_json(path: str, text: str) -> Share:
    try:
        reported = json.loads(text, object_pairs_hook=members)
        number, of = reported["share"]
        verdicts = [
            Verdict(one["verdict"], Subject({"output": False, "next state": True}[one["of"]], one["name"]), one.get("side"), one)
            for one in reported["verdicts"]
        ]
        counts = {name: int(reported.get(name, 0) if name == "undecided" else reported[name]) for name in COUNTS}
        settings = {name: reported[name] for name in SETTINGS if name in reported}
        unknown = {one.kind for one in verdicts} - set(KINDS) or set(reported) - {*SETTINGS, *COUNTS, "verdicts", "share", "stopped"}
        stopped = "stopped" in reported
        if stopped and reported["stopped"] is not True:
            raise ValueError("no report")
        if unknown or not {"match", "order", "variables"} <= set(settings):
            raise ValueError("no report")
        return Share(path, int(number), int(of), verdicts, counts, settings, json.dumps(settings), stopped=stopped)
    except (ValueError, KeyError, TypeError, AttributeError) as fault:
        raise Refusal(f"{path}: no JSON of a share") from fault


# ---- all shares


def read_share(path: str) -> tuple[Share, bool]:
    """A share, and whether it is JSON."""
    text = pathlib.Path(path).read_bytes().decode("latin-1")
    is_json = text.startswith("{")
    share = share_by_json(path, text) if is_json else share_by_lines(path, text)
    if not 1 <= share.number <= share.of:
        raise Refusal(f"{path}: there is no share {share.number} of {share.of}")
    found = dict.fromkeys(COUNTS, 0)
    for verdict in share.verdicts:
        found[KINDS[verdict.kind]] += 1
    if found != share.counts:
        raise Refusal(f"{path}: its counts are not those of its verdicts")
    if share.number != 1 and share.counts["unmatched"]:
        raise Refusal(f"{path}: what has no partner stands in share 1 alone")
    return share, is_json


def read_shares(paths: list[str]) -> tuple[list[Share], bool]:
    """All shares by their numbers, and whether they are JSON."""
    read = [read_share(path) for path in paths]
    if len({is_json for _, is_json in read}) > 1:
        raise Refusal("some shares are lines, and some JSON")
    shares = sorted((share for share, _ in read), key=lambda share: share.number)
    of = shares[0].of
    for share in shares:
        if share.of != of:
            raise Refusal(f"{share.path}: it is of {share.of} shares, {shares[0].path} of {of}")
    for one, other in zip(shares, shares[1:]):
        if one.number == other.number:
            raise Refusal(f"{one.path} and {other.path}: both are share {one.number}")
    if len(shares) < of:
        raise Refusal(f"{len(shares)} of {of} shares are there")
    is_json = read[0][1]
    if is_json:
        for share in shares:
            if share.settings_text != shares[0].settings_text:
                raise Refusal(f"{share.path}: its settings or variables are not those of {shares[0].path}")
    elif len({variables for share in shares for variables in share.variables}) > 1:
        raise Refusal("the shares tell assignments of different variables")
    return shares, is_json


def ordered(subjects: list[Subject], shares: list[Share]) -> list[Verdict]:
    """The verdicts of all shares, in the order of the whole report."""
    places = {subject: place for place, subject in enumerate(subjects)}
    pairs: list[Verdict] = []
    unmatched: list[Verdict] = []
    seen: dict[tuple[bool, Subject], str] = {}
    for share in shares:
        last = -1
        for verdict in share.verdicts:
            subject, key = verdict.subject, (verdict.side == "second", verdict.subject)
            if key[0] == (subject in places):
                raise Refusal(f"{share.path}: {subject} is {'one' if key[0] else 'none'} of the first netlist")
            if key in seen:
                raise Refusal(f"{share.path}: {subject} stood in {seen[key]} before")
            seen[key] = share.path
            (unmatched if verdict.side else pairs).append(verdict)
            # Pairs in the order of the first netlist, then what has no partner.
            place = len(places) if verdict.side else places[subject]
            if place < last:
                raise Refusal(f"{share.path}: {subject} does not stand in its place")
            last = place
    for subject in subjects:
        if (False, subject) not in seen:
            raise Refusal(f"{subject} stands in no share")
    return sorted(pairs, key=lambda verdict: places[verdict.subject]) + unmatched


def whole_text(verdicts: list[Verdict], counts: dict[str, int], shares: list[Share], is_json: bool) -> str:
    """The report of the whole."""
    reported = {name: count for name, count in counts.items() if count or name != "undecided"}
    if is_json:
        stopped = {"stopped": True} if any(share.stopped for share in shares) else {}
        whole: dict[str, Any] = {**shares[0].settings, "verdicts": [verdict.text for verdict in verdicts], **reported, **stopped}
        return json.dumps(whole, separators=(",", ":")) + "\n"
    return "".join(f"{verdict.text}\n" for verdict in verdicts) + ", ".join(f"{count} {name}" for name, count in reported.items()) + "\n"


def main(words: list[str]) -> int:
    if "--help" in words or "-h" in words:
        print(__doc__.strip())
        return 0
    if len(words) < 2 or any(word.startswith("-") for word in words):
        print("join: usage: bddcheck-join FIRST.bench SHARE ..", file=sys.stderr)
        return 2
    try:
        subjects = subjects_of(pathlib.Path(words[0]).read_bytes())
        shares, is_json = read_shares(words[1:])
        verdicts = ordered(subjects, shares)
    except (Refusal, OSError) as fault:
        print(f"join: {fault}", file=sys.stderr)
        return 2
    counts = {name: sum(share.counts[name] for share in shares) for name in COUNTS}
    sys.stdout.buffer.write(whole_text(verdicts, counts, shares, is_json).encode("latin-1"))
    sys.stdout.buffer.flush()
    if counts["different"] or counts["unmatched"]:
        return 1
    return 3 if counts["undecided"] else 0


if __name__ == "__main__":
    sys.exit(main(sys.argv[1:]))
