"""Runs the program, and counts what passed: what all tests here share."""
from __future__ import annotations

import argparse
import concurrent.futures
import os
import re
import pathlib
import signal
import subprocess
import sys
import tempfile
from collections.abc import Callable, Iterable, Mapping
from dataclasses import dataclass
from typing import Any, NoReturn

TOP = pathlib.Path(__file__).resolve().parent.parent


@dataclass
class Run:
    """How a run ended. The status is None if the run was stopped, and minus a signal's number if one ended it."""

    status: int | None
    out: bytes
    err: bytes

    def __str__(self) -> str:
        status = "stopped: it hangs" if self.status is None else f"status {self.status}"
        return f"{status}, output {shown(self.out)}, errors {shown(self.err)}"


def shown(text: bytes, most: int = 300) -> str:
    """Bytes as a reader can see them, without the middle if they are many."""
    return repr(text) if len(text) <= most else f"{text[:most]!r} .. ({len(text)} bytes)"


def run(words: Iterable[object], given: bytes = b"", seconds: float = 60, environment: Mapping[str, str] | None = None, **more: Any) -> Run:
    """Runs words with `given` on standard input."""
    child = subprocess.Popen(
        [str(word) for word in words],
        stdin=subprocess.PIPE,
        stdout=more.pop("stdout", subprocess.PIPE),
        stderr=more.pop("stderr", subprocess.PIPE),
        env={**os.environ, **(environment or {})},
        **more,
    )
    try:
        out, err = child.communicate(given, timeout=seconds)
    except subprocess.TimeoutExpired:
        child.kill()
        out, err = child.communicate()
        return Run(None, out or b"", err or b"")
    return Run(child.returncode, out or b"", err or b"")


def unhelped(seen: Run) -> Run:
    """A refused run without the second line on standard error, which says what helps. A run without such a line becomes one that no check
    accepts."""
    said = seen.err.splitlines(keepends=True)
    has_help = len(said) == 2 and all(line.startswith(b"bddcheck: ") and line.endswith(b"\n") for line in said)
    return Run(seen.status, seen.out, said[0] if has_help else b"not two lines: " + seen.err)


UNDECIDED = re.compile(rb"bddcheck: the number of undecided pairs is (\d+); [^\n]*\n")


def without_cause(seen: Run) -> Run:
    """A run with a report, without the line on standard error that says why pairs are undecided. A run whose line has another number of
    them than the report, or that has no line though some are undecided, becomes one that no check accepts."""
    left = re.search(rb"(\d+) undecided|\"undecided\":(\d+)", seen.out)
    said = UNDECIDED.search(seen.err)
    if not left and not said:
        return seen
    if not left or not said or said[1] != (left[1] or left[2]):
        return Run(seen.status, seen.out, b"not the cause of undecided pairs: " + seen.err)
    return Run(seen.status, seen.out, UNDECIDED.sub(b"", seen.err))


class Tally:
    """Counts the checks of a part. Each failed one is reported at once, and so is what is skipped, with what it lacks."""

    def __init__(self, part: str) -> None:
        self.part, self.passed, self.failed, self.skipped = part, 0, 0, 0

    def check(self, name: str, is_right: object, seen: object = "") -> bool:
        if is_right:
            self.passed += 1
        else:
            self.failed += 1
            print(f"FAILED {self.part}: {name}: {seen}", flush=True)
        return bool(is_right)

    def same(self, name: str, run: Run, status: int | None, out: bytes, err: bytes) -> bool:
        """That the run ended with exactly this."""
        wanted = Run(status, out, err)
        return self.check(name, run == wanted, f"{run}; wanted {wanted}")

    def skip(self, what: str) -> None:
        """Notes that something is not tried here: what, and what it lacks."""
        self.skipped += 1
        print(f"SKIPPED {self.part}: {what}", flush=True)

    def figures(self, text: str) -> None:
        print(f"{self.part}: {text}", flush=True)

    def finish(self) -> NoReturn:
        """Prints the counts, and ends the script with status 1 if a check failed."""
        self.end()
        sys.exit(self.failed > 0)

    def end(self) -> None:
        skipped = f", {self.skipped} skipped" if self.skipped else ""
        print(f"{self.part}: {self.passed} passed, {self.failed} failed{skipped}", flush=True)


def folder() -> tempfile.TemporaryDirectory[str]:
    """A folder that is gone when the block that it is made for ends."""
    return tempfile.TemporaryDirectory(prefix="bddcheck-")


def written(place: str | pathlib.Path, name: str, text: bytes) -> pathlib.Path:
    path = pathlib.Path(place) / name
    path.write_bytes(text)
    return path


def kept(name: str, files: Mapping[str, bytes]) -> pathlib.Path:
    """Writes the files of a failed case into a folder that stays, and returns it."""
    place = pathlib.Path(tempfile.mkdtemp(prefix=f"bddcheck-{name}-"))
    for file, text in files.items():
        (place / file).write_bytes(text)
    return place


def lines(*words: str) -> bytes:
    """The words as lines."""
    return "".join(word + "\n" for word in words).encode()


def netlist(statements: str) -> bytes:
    """A netlist with a statement a line, from statements divided by `;`."""
    return lines(*(statement.strip() for statement in statements.split(";") if statement.strip()))


C17 = netlist(
    "INPUT(1); INPUT(2); INPUT(3); INPUT(6); INPUT(7); OUTPUT(22); OUTPUT(23); 10 = NAND(1, 3); 11 = NAND(3, 6); "
    "16 = NAND(2, 11); 19 = NAND(11, 7); 22 = NAND(10, 16); 23 = NAND(16, 19)"
)
C17B = C17.replace(b"19 = NAND(11, 7)", b"19 = NAND(11, 6)")
C17_EQUAL = lines("EQUAL 22", "EQUAL 23", "2 equal, 0 different, 0 unmatched")
C17_DIFFERS = lines("EQUAL 22", "DIFFER 23 at 1=0 2=0 3=0 6=0 7=1 first=1 second=0", "1 equal, 1 different, 0 unmatched")


def parser_of(text: str | None) -> argparse.ArgumentParser:
    """A parser whose help is the docstring of a script, with its line of usage."""
    before, _, after = (text or "").partition("usage: ")
    usage, _, rest = after.partition("\n")
    return argparse.ArgumentParser(usage=usage, description=before + rest.lstrip(), formatter_class=argparse.RawDescriptionHelpFormatter)


def parser_with_program(text: str | None) -> argparse.ArgumentParser:
    """The same for a script that tries a program."""
    parser = parser_of(text)
    parser.add_argument("program", metavar="PROGRAM", help="This is the bddcheck that is tried.")
    return parser


def program_of(text: str | None) -> str:
    """The argument of a script that takes the program and nothing else."""
    return str(parser_with_program(text).parse_args().program)


def say(text: str) -> None:
    print(text, file=sys.stderr, flush=True)


def pool(jobs: int) -> concurrent.futures.ProcessPoolExecutor:
    """Processes that end at once, and print nothing, if the user interrupts."""
    return concurrent.futures.ProcessPoolExecutor(jobs, initializer=signal.signal, initargs=(signal.SIGINT, signal.SIG_DFL))


def ended(main: Callable[[], object]) -> None:
    """Runs a part's `main`; an interrupt ends it without a word."""
    try:
        main()
    except (KeyboardInterrupt, concurrent.futures.BrokenExecutor):
        sys.exit(130)
