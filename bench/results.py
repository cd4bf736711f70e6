"""Files of measurements in bench/results/: what was measured, on which machine, on which day, with which versions.

A file NAME.json has a head and rows, and each row has a key. A row is written as soon as it is measured, so a script that was
stopped goes on after the rows it has, if program, machine and settings are the same; else it begins anew.
"""
from __future__ import annotations

import hashlib
import json
import math
import os
import pathlib
import re
import resource
import subprocess
import time
from argparse import ArgumentParser, Namespace, RawDescriptionHelpFormatter
from collections.abc import Iterable
from typing import Any

HERE = pathlib.Path(__file__).resolve().parent
FOLDER = HERE / "results"
# The figures of one comparison by name, as JSON has them.
Row = dict[str, Any]
# A machine is idle if other processes keep no more processors busy than this.
IDLE = 0.5


def first_line(words: list[str], pattern: str = ".*") -> str:
    """What a command prints, as far as it is like the pattern; "unknown" if there is no such command."""
    try:
        said = subprocess.run(words, stdin=subprocess.DEVNULL, stdout=subprocess.PIPE, stderr=subprocess.STDOUT, text=True)
    except OSError:
        return "unknown"
    found = re.search(pattern, said.stdout)
    return found.group().strip() if found else "unknown"


def package(name: str) -> str:
    """The version of a package of Debian, or of a system like it."""
    return first_line(["dpkg-query", "-W", "-f", "${Version}", name], r"^[0-9]\S*$")


def machine() -> dict[str, Any]:
    """The processor, as the system names it, and what is around it."""
    known = {}
    for line in first_line(["lscpu"], r"(?s).*").splitlines():
        name, _, value = line.partition(":")
        known[name.strip()] = value.strip()
    pages = os.sysconf("SC_PAGE_SIZE") * os.sysconf("SC_PHYS_PAGES")
    release = pathlib.Path("/etc/os-release")
    system = re.search(r'PRETTY_NAME="(.*)"', release.read_text()) if release.exists() else None
    family = [known.get(name, "?") for name in ("CPU family", "Model", "Stepping")]
    return {
        "processor": known.get("Model name", "unknown"),
        "family, model, stepping": ", ".join(family),
        "processors": os.cpu_count(),
        "caches": ", ".join(f"{name[:-6]} {known[name]}" for name in ("L1d cache", "L2 cache", "L3 cache") if name in known),
        "virtual": known.get("Hypervisor vendor", "no"),
        "memory": f"{pages / 2**30:.0f} GiB",
        "system": f"{system.group(1) if system else os.uname().sysname}, Linux {os.uname().release.split('-')[0]}",
    }


def kit() -> str:
    """The kit that the README names: the one by which the program is proved and built."""
    found = re.search(r"(?m)^`?Proved with (.*?)\.?`?\.?$", (HERE.parent / "README.md").read_text())
    return found.group(1) if found else "unknown"


def program_of(path: str | pathlib.Path) -> dict[str, str]:
    return {
        "program": first_line([str(path), "--version"]),
        "program's checksum": hashlib.sha256(pathlib.Path(path).read_bytes()).hexdigest()[:12],
        "kit": kit(),
    }


class Others:
    """How many processors were kept busy by other processes than this one and those it started."""

    def __init__(self) -> None:
        self.begun, self.busy, self.own = time.monotonic(), *self.used()

    @staticmethod
    def used() -> tuple[float, float]:
        numbers = list(map(int, pathlib.Path("/proc/stat").read_text().split("\n")[0].split()[1:9]))
        all_busy = (sum(numbers) - numbers[3] - numbers[4]) / os.sysconf("SC_CLK_TCK")
        usages = [resource.getrusage(who) for who in (resource.RUSAGE_SELF, resource.RUSAGE_CHILDREN)]
        return all_busy, sum(usage.ru_utime + usage.ru_stime for usage in usages)

    def mean(self) -> float:
        busy, own = self.used()
        passed = time.monotonic() - self.begun
        return max(0.0, (busy - self.busy - own + self.own) / passed) if passed > 0 else 0.0


class Results:
    """The file of a script's measurements."""

    def __init__(self, name: str, what: str, given: Namespace, settings: dict[str, Any], peers: dict[str, str] | None = None) -> None:
        """`given` has the program and the options that each script has, and `settings` what a figure depends on."""
        self.path = pathlib.Path(given.into or FOLDER) / f"{name}.json"
        self.head = {"what": what, **program_of(given.program), **(peers or {}), "settings": settings, "machine": machine()}
        self.date, self.rows = time.strftime("%Y-%m-%d"), dict[str, Row]()
        self.most_busy = IDLE if given.idle else math.inf
        if not given.anew and self.path.exists():
            kept = json.loads(self.path.read_text())
            if all(kept["head"].get(part) == value for part, value in self.head.items()):
                self.date, self.rows = kept["date"], {row["key"]: row for row in kept["rows"]}
        self.others = Others()

    def __contains__(self, key: object) -> bool:
        return isinstance(key, str) and key in self.rows and self.rows[key]["others"] <= self.most_busy

    def begin(self) -> None:
        """From here on a row is measured."""
        self.others = Others()

    def add(self, key: str, row: Row) -> Row:
        """Writes the file with one more row, and how many processors others kept busy meanwhile."""
        self.rows[key] = {"key": key, **row, "others": round(self.others.mean(), 1)}
        self.write()
        return self.rows[key]

    def keep_only(self, keys: Iterable[str]) -> None:
        """Leaves out rows that are no longer asked for, and puts the rest into this order."""
        self.rows = {key: self.rows[key] for key in keys if key in self.rows}
        self.write()

    def write(self) -> None:
        def line(value: object) -> str:
            return json.dumps(value, ensure_ascii=False)

        head = ",\n  ".join(f"{line(part)}: {line(value)}" for part, value in self.head.items())
        rows = ",\n ".join(map(line, self.rows.values()))
        text = f'{{"date": {line(self.date)},\n "head": {{\n  {head}}},\n "rows": [\n {rows}]}}\n'
        self.path.parent.mkdir(parents=True, exist_ok=True)
        draft = self.path.with_suffix(".part")
        draft.write_text(text)
        draft.replace(self.path)


def numbers(text: str) -> list[int]:
    """The value of an option that takes numbers with commas between them."""
    return [int(word) for word in text.split(",")]


def parser_of(text: str | None, seconds: int, repeats: int) -> ArgumentParser:
    """A parser whose help is the docstring of a script, with its line of usage, and with the program and the options that each script has."""
    before, _, after = (text or "").partition("usage: ")
    usage, _, rest = after.partition("\n")
    parser = ArgumentParser(usage=usage, description=before + rest.lstrip(), formatter_class=RawDescriptionHelpFormatter)
    parser.add_argument("program", metavar="PROGRAM", help="This is the bddcheck that is measured.")
    most = f"A run may take so many seconds of processor time; the default is {seconds}."
    parser.add_argument("--seconds", type=int, default=seconds, help=most)
    parser.add_argument("--repeats", type=int, default=repeats, help=f"Each is run so often; the default is {repeats}.")
    parser.add_argument("--anew", action="store_true", help="What the file of results has is measured again.")
    parser.add_argument("--idle", action="store_true", help="What was measured beside other work is measured again.")
    parser.add_argument("--into", metavar="FOLDER", help="This folder gets the file of results, in place of bench/results.")
    return parser
