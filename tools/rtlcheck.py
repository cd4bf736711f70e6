#!/usr/bin/env python3
"""Compares two designs that yosys reads, by one command: rtl2bench makes a netlist of each, their clocks, edges, resets and initial values
are compared, and then bddcheck compares the netlists.

usage: rtlcheck [OPTIONS] [WORDS] -g WORDS -r WORDS [-- OPTIONS OF BDDCHECK]

WORDS are files and options as rtl2bench takes them: those after -g are for the golden design, those after -r for the revised one, and
those before both of them, such as --top NAME or -I FOLDER, for both designs. rtl2bench --help lists them.

    rtlcheck --top timer -g timer.v -r --liberty cells.lib mapped.v
"""
# tools/install.sh installs this script as rtlcheck.
from __future__ import annotations

import argparse
import json
import os
import shutil
import subprocess
import sys
import tempfile
from dataclasses import dataclass
from pathlib import Path
from typing import Any

JsonObject = dict[str, Any]

HERE = Path(__file__).resolve().parent
# The statuses of bddcheck: nothing differs; something does; nothing was compared; something is missing from the answer.
EQUAL, DIFFERENT, REFUSED, INCOMPLETE = 0, 1, 2, 3
USAGE = "rtlcheck [OPTIONS] [WORDS] -g WORDS -r WORDS [-- OPTIONS OF BDDCHECK]"
EPILOG = """Standard output has what differs between registers, and then the report of bddcheck. The status is that of bddcheck: 0 if all
is equal, 1 if something differs or has no partner, also if that is only a clock, an edge, a reset or an initial value, 2 if nothing was
compared, because an argument or a design was refused, and 3 if pairs are undecided, the run gave up, or the page was not written."""


class Refusal(Exception):
    """Why there is no answer, or no whole one, and the status."""

    def __init__(self, said: str, status: int = REFUSED) -> None:
        super().__init__(said)
        self.status = status


@dataclass
class Words:
    """The arguments, by what they are for."""

    own: argparse.Namespace
    golden: list[str]
    revised: list[str]
    program: list[str]


def parser_of_options() -> argparse.ArgumentParser:
    about = (__doc__ or "").replace(f"usage: {USAGE}\n\n", "")
    formatter = argparse.RawDescriptionHelpFormatter
    parser = argparse.ArgumentParser("rtlcheck", USAGE, about, EPILOG, formatter_class=formatter, allow_abbrev=False)
    parser.add_argument("-g", metavar="WORDS", help="These files and options of rtl2bench are those of the golden design.")
    parser.add_argument("-r", metavar="WORDS", help="These files and options of rtl2bench are those of the revised design.")
    match = "Registers, inputs and outputs are paired by name, which is the default, or by their place in the netlists."
    parser.add_argument("--match", choices=["name", "position"], default="name", help=match)
    left_out = "These facts of registers are not compared: kind, clock, edge, clear, set, init, or several with commas between."
    parser.add_argument("--leave-out", metavar="FACT,..", help=left_out)
    parser.add_argument("--keep", metavar="FOLDER", type=Path, help="The netlists golden.bench and revised.bench are left in this folder.")
    parser.add_argument("--page", metavar="OUT.html", type=Path, help="The report is also written as a page for a browser.")
    return parser


def words_of(arguments: list[str]) -> Words:
    """Divides the arguments at -g, -r and --, each of which is once among them, -- perhaps not at all."""
    parser = parser_of_options()
    program: list[str] = []
    if "--" in arguments:
        at = arguments.index("--")
        arguments, program = arguments[:at], arguments[at + 1 :]
    places = {side: [at for at, word in enumerate(arguments) if word == side] for side in ("-g", "-r")}
    begin = min((at for found in places.values() for at in found), default=len(arguments))
    own, both = parser.parse_known_args(arguments[:begin])
    if any(len(found) != 1 for found in places.values()):
        parser.error("the golden design comes after -g, and the revised design after -r, each once")
    golden, revised = places["-g"][0], places["-r"][0]
    after = {at: arguments[at + 1 : max(golden, revised) if at == begin else None] for at in (golden, revised)}
    return Words(own, [*both, *after[golden]], [*both, *after[revised]], program)


def program_of() -> str:
    """The bddcheck to call: that of the variable BDDCHECK, of a clone of the repository, or of the installation of this script."""
    in_clone = HERE / "bddcheck.sh"
    return os.environ.get("BDDCHECK") or str(in_clone if in_clone.exists() else HERE.parent.parent / "bin" / "bddcheck")


def rtl2bench(words: list[str]) -> int:
    """The status of a call of rtl2bench."""
    return subprocess.run([HERE / "rtl2bench.sh", *words], stdin=subprocess.DEVNULL).returncode


def convert(words: list[str], out: Path, like: Path | None) -> None:
    """Makes the netlist of a design; registers get the names that they have in `like`."""
    if rtl2bench([*words, *(["--like", str(like)] if like else []), "-o", str(out)]) != EQUAL:
        raise Refusal(f"the {out.stem} design was refused, so nothing was compared")


def registers_alike(golden: Path, revised: Path, own: argparse.Namespace) -> bool:
    """Whether what the format does not hold of registers is alike; what differs is printed."""
    left_out = ["--leave-out", own.leave_out] if own.leave_out else []
    status = rtl2bench(["--compare", "--match", own.match, *left_out, str(golden), str(revised)])
    if status not in (EQUAL, DIFFERENT):
        raise Refusal("the registers could not be compared")
    return status == EQUAL


def line_of(verdict: JsonObject) -> str:
    """The line of a report by text."""
    subject = ("NEXT " if verdict["of"] == "next state" else "") + verdict["name"]
    if verdict["verdict"] == "DIFFER":
        bits = "".join(f" {name}={bit}" for name, bit in verdict["at"].items())
        return f"DIFFER {subject} at{bits} first={verdict['first']} second={verdict['second']}"
    if verdict["verdict"] == "ONLY":
        return f"ONLY {verdict['side'].upper()} {subject}"
    return f"{verdict['verdict']} {subject}"


def lines_of(report: JsonObject) -> list[str]:
    """The report by text that has the same verdicts."""
    undecided = f", {report['undecided']} undecided" if "undecided" in report else ""
    counts = f"{report['equal']} equal, {report['different']} different, {report['unmatched']} unmatched{undecided}"
    return [*map(line_of, report["verdicts"]), counts]


def check(words: Words, netlists: list[Path], folder: Path) -> int:
    """Runs bddcheck, with its report on standard output and on the page, and gives its status."""
    command = [program_of(), "--match", words.own.match, *words.program]
    if words.own.page is None:
        return subprocess.run([*command, *netlists], stdin=subprocess.DEVNULL).returncode
    made = folder / "report.json"
    with open(made, "wb") as file:
        status = subprocess.run([*command, "--format", "json", "--causes", *netlists], stdin=subprocess.DEVNULL, stdout=file).returncode
    if made.stat().st_size:
        print(*lines_of(json.loads(made.read_text())), sep="\n", flush=True)
        given = words.program[words.program.index("--given") :][:2] if "--given" in words.program else []
        page = [HERE / "page.py", made, "-o", words.own.page, "--first", netlists[0], "--second", netlists[1], *given]
        if subprocess.run([sys.executable, *page]).returncode != 0:
            raise Refusal(f"{words.own.page}: the page was not written", INCOMPLETE)
    return status


def compare(words: Words, folder: Path) -> int:
    """Converts and compares the designs in a folder, and gives the status of the whole."""
    golden, revised = folder / "golden.bench", folder / "revised.bench"
    if words.own.page:
        words.own.page.unlink(missing_ok=True)
    convert(words.golden, golden, None)
    convert(words.revised, revised, golden)
    if words.own.keep:
        words.own.keep.mkdir(parents=True, exist_ok=True)
        for netlist in (golden, revised):
            shutil.copy(netlist, words.own.keep)
    alike = registers_alike(golden, revised, words.own)
    status = check(words, [golden, revised], folder)
    return status if alike or status == REFUSED else DIFFERENT


def main() -> int:
    words = words_of(sys.argv[1:])
    try:
        with tempfile.TemporaryDirectory() as name:
            return compare(words, Path(name))
    except (Refusal, OSError) as fault:
        print(f"rtlcheck: {fault}", file=sys.stderr)
        return fault.status if isinstance(fault, Refusal) else REFUSED


if __name__ == "__main__":
    sys.exit(main())
