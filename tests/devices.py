#!/usr/bin/env python3
"""What the program does on devices that fail, end early, never end, or are no files at all.

usage: tests/devices.py PROGRAM
"""
from __future__ import annotations

import os
import pathlib
import re
import shutil
import socket
import subprocess
import sys
import threading
import time
from collections.abc import Sequence
from typing import Any

import harness
from harness import C17, C17_DIFFERS, C17_EQUAL, C17B, TOP, Run, Tally, lines, netlist, run, written
from refusals import products

sys.path.append(str(TOP / "bench"))
import circuits  # noqa: E402

TEXT_LIMIT = 67_108_864
INPUT_LIMIT = 134_221_824
UNWRITTEN = lines("bddcheck: report: cannot be written", "bddcheck: standard output is full, or closed")
EMPTY = lines("0 equal, 0 different, 0 unmatched")


def refused(text: str, status: int = 2) -> Run:
    return Run(status, b"", lines("bddcheck: " + text))


def byte_by_byte(child: subprocess.Popen[bytes], text: bytes) -> tuple[bytes, bytes]:
    """What a run writes to its output and its errors that has its input one byte at a time."""
    assert child.stdin
    for byte in text:
        child.stdin.write(bytes([byte]))
    return child.communicate()


class Devices:
    def __init__(self, program: str, place: str, tally: Tally) -> None:
        self.program, self.place, self.tally = program, pathlib.Path(place), tally
        self.c17, self.c17b = self.file("c17", C17), self.file("c17b", C17B)

    def file(self, name: str, text: bytes) -> pathlib.Path:
        return written(self.place, name, text)

    def run(self, *words: object, given: bytes = b"", **more: Any) -> Run:
        return run([self.program, *words], given, **more)

    def check(self, name: str, seen: object, wanted: object) -> None:
        self.tally.check(name, seen == wanted, f"{seen}; wanted {wanted}")

    # Outputs.

    def progress(self) -> None:
        """What --verbose reports while the diagrams are built: lines on standard error only, at most one a second."""
        one, chain = self.file("one", products(21)), self.file("chain", products(21, "chain"))
        silent = self.run("--sizes", one, chain, seconds=240)
        alone = self.run("--sizes", "--workers", "1", one, chain, seconds=240)
        equal = Run(0, lines("EQUAL o size 4194302", "1 equal, 0 different, 0 unmatched"), b"")
        self.check("levels of a million requests, by several workers", silent, equal)
        self.check("levels of a million requests, by one", alone, equal)
        begun = time.monotonic()
        seen = self.run("--sizes", "--verbose", one, chain, seconds=240)
        seconds = time.monotonic() - begun
        reported = seen.err.decode().splitlines()
        is_reported = all(
            re.fullmatch(r"bddcheck: building rank \d+ of \d+: \d+ nodes and \d+ requests so far in \d+ MB", line) for line in reported
        )
        self.check("a long run, and what is reported of it", Run(seen.status, seen.out, b""), silent)
        self.tally.check("lines of progress", is_reported and len(reported) <= seconds, seen)

    def widest(self) -> None:
        """A wave of sixteen million requests: the sum of 23 products, all first factors before all second ones."""
        one, chain = self.file("one", products(23)), self.file("chain", products(23, "chain"))
        seen = self.run("--order", "declared", "--workers", "4", one, chain, seconds=240)
        equal = Run(0, lines("EQUAL o", "1 equal, 0 different, 0 unmatched"), b"")
        self.check("a wave of sixteen million requests", seen, equal)

    def padded(self) -> None:
        """With 4,096 variables a number of four bytes has few bits for a place: shards that pass 16,384 nodes have parents in eight."""
        pad = netlist(";".join(f"INPUT(z{i})" for i in range(4096 - 2 * 19)))
        one, chain = (self.file(f"padded {join}", pad + products(19, join)) for join in ("one", "chain"))
        equal = Run(0, lines("EQUAL o size 1048574", "1 equal, 0 different, 0 unmatched"), b"")
        for workers in "1", "4":
            seen = self.run("--sizes", "--workers", workers, one, chain, seconds=240)
            self.check(f"wide levels of 4,096 variables by {workers}", seen, equal)

    def terminal(self) -> None:
        """On a terminal one line is written over and over if a rank begins more than a second after the start, and cleared at the end."""
        late = self.fifo("slow", C17, len(C17), wait=1.2)
        status, out, reported = self.on_terminal(self.c17, late)
        place = rb"\rbddcheck: attempt 1 is building rank \d+ of \d+: \d+ nodes and \d+ requests so far in \d+ MB\x1b\[K"
        right = (status, out) == (0, C17_EQUAL)
        self.tally.check("a line on a terminal", right and re.fullmatch(rb"(?:(?:" + place + rb")+\r\x1b\[K)+", reported), (out, reported))
        if shutil.which("script"):
            seen = run(["script", "-qec", f"{self.program} --verbose {self.c17} {self.c17}", "/dev/null"])
            self.tally.check("no line of a short run on a terminal", b"\x1b" not in seen.out, seen)
        else:
            self.tally.skip("script is not installed (Debian: bsdutils), so a short run on a terminal was not tried")
        self.refused_on_terminal()

    def refused_on_terminal(self) -> None:
        """What helps against a fault is on a terminal the same as in a file."""
        bad = self.file("inverted", C17 + b"x = INV(1)\n")
        first, second = b"bddcheck: first: line 14: unknown gate", b":14: the word for an inverter is NOT: x = INV(1)"
        wanted = first + b"\r\nbddcheck: " + os.fsencode(bad) + second + b"\r\n"
        self.check("what helps on a terminal", self.on_terminal(bad, self.c17), (2, b"", wanted))

    def on_terminal(self, *files: pathlib.Path) -> tuple[int, bytes, bytes]:
        """The status, the report, and what is reported on a terminal that is standard error."""
        ours, theirs = os.openpty()
        child = subprocess.Popen([self.program, *files], stdin=subprocess.DEVNULL, stdout=subprocess.PIPE, stderr=theirs)
        os.close(theirs)
        reported = b""
        # The loop ends when the program has closed the terminal: reading it then fails.
        while part := self.front_of(ours):
            reported += part
        os.close(ours)
        out = child.communicate()[0]
        return child.returncode, out, reported

    @staticmethod
    def front_of(terminal: int) -> bytes:
        try:
            return os.read(terminal, 4096)
        except OSError:
            return b""

    def late_progress(self) -> None:
        """The clock of the progress starts before the texts are read: a rank that begins over a second later is reported."""
        late = self.fifo("late", C17B, len(C17B), wait=1.2)
        seen = self.run("--verbose", self.c17, late)
        reported = seen.err.decode()
        self.check("a report behind a late text", Run(seen.status, seen.out, b""), Run(1, C17_DIFFERS, b""))
        self.tally.check(
            "a rank behind a late text",
            re.fullmatch(
                r"bddcheck: building rank 1 of 3: 5 nodes and 0 requests so far in \d+ MB\nbddcheck: order msb-first decided within 16384 nodes\n",
                reported,
            ),
            seen,
        )

    def later_attempts(self) -> None:
        """Within a later budget that order is tried first which came furthest within the one before, and the report does not change."""
        texts = []
        for name, multiply in (("array", circuits.array), ("wallace", circuits.wallace)):
            net = circuits.Netlist()
            circuits.multiplier(net, 10, multiply)
            texts.append(self.file(name, net.text().encode()))
        seen = self.run("--verbose", "--order", "best", *texts, seconds=240)
        reported = [line for line in seen.err.decode().splitlines() if line.startswith("bddcheck: order ")]
        self.check("the attempt that came furthest goes first", reported[6:], ["bddcheck: order weights decided within 16777216 nodes"])
        orders = ("msb-first", "weights", "force-groups")
        needs = r"bddcheck: order ([\w-]+) needs (?:more than|too many requests in one wave for a budget of) (\d+) nodes"
        matches = [re.fullmatch(needs, line) for line in reported[:6]]
        ends = [match.groups() if match else None for match in matches]
        self.check("each attempt of the first budget is reported", ends[:3], [(order, "16384") for order in orders])
        self.tally.check("each attempt of the second", set(ends[3:]) == {(order, "524288") for order in orders}, reported)
        first = self.run("--order", "msb-first", "--limit", 4194304, *texts, seconds=240)
        self.check("the first candidate would have ended there too", first, Run(seen.status, seen.out, b""))
        rounds = [self.run("--verbose", "--order", "cones", "--workers", workers, *texts, seconds=240) for workers in (1, 3)]
        by_one, by_three = ([line for line in one.err.decode().splitlines() if " rank " not in line] for one in rounds)
        self.check("a line for each round, whatever the workers are", by_three, by_one)
        self.check("first what patterns show", by_one[:1], ["bddcheck: patterns show that 0 of 20 pairs differ"])
        self.tally.check(
            "some pairs are left by each round but the last",
            re.fullmatch(
                r"(bddcheck: [1-9]\d* of 20 pairs are undecided by cones within (16384|524288) nodes\n){2}"
                r"bddcheck: 0 of 20 pairs are undecided by cones within 5263440 nodes\nbddcheck: each pair was judged by its cones",
                "\n".join(by_one[1:]),
            ),
            by_one,
        )

    def full_disk(self) -> None:
        options: list[list[object]] = [["--sizes"], ["--workers", 1], ["--format", "json"]]
        for words in options:
            with open("/dev/full", "wb") as full:
                seen = self.run(*words, self.c17, self.c17b, stdout=full)
            self.check("a full disk", seen, Run(3, b"", UNWRITTEN))

    def closed_output(self) -> None:
        seen = self.through_shell(">&-", self.c17, self.c17b)
        self.check("a closed output", seen, Run(3, b"", UNWRITTEN))

    def closed_errors(self) -> None:
        seen = self.through_shell("2>&-", self.c17, self.place / "none")
        self.check("closed errors, a fault", seen, Run(2, b"", b""))
        seen = self.through_shell("2>&-", self.c17, self.c17b)
        self.check("closed errors, a report", seen, Run(1, C17_DIFFERS, b""))
        options: list[list[str]] = [[], ["--verbose"]]
        for words in options:
            with open("/dev/full", "wb") as full:
                seen = self.run(*words, self.c17, self.place / "none", stderr=full)
            self.check("errors on a full disk", seen, Run(2, b"", b""))
            with open("/dev/full", "wb") as full:
                seen = self.run(*words, "--order", "best", self.c17, self.c17, stderr=full)
            self.check("a report, errors on a full disk", seen, Run(0, C17_EQUAL, b""))
        seen = self.through_shell("2>&-", "--verbose", "--order", "best", self.c17, self.c17)
        self.check("closed errors, an attempt", seen, Run(0, C17_EQUAL, b""))

    def through_shell(self, closing: str, *words: object) -> Run:
        """With a stream closed by the shell. What is still open is given back."""
        return run(["sh", "-c", f'"$0" "$@" {closing}', self.program, *words])

    def closed_pipe(self) -> None:
        reading, writing = os.pipe()
        os.close(reading)
        seen = self.run(self.c17, self.c17b, stdout=writing)
        os.close(writing)
        self.check("a pipe that nobody reads", seen, Run(3, b"", UNWRITTEN))

    def early_pipe(self) -> None:
        """`| head -1` over a report that is larger than what a pipe holds."""
        ports = [f"INPUT(x{i})" for i in range(20)] + [f"OUTPUT(o{i})" for i in range(4000)]
        text = netlist(";".join(ports + [f"o{i} = BUFF(x{i % 20})" for i in range(4000)]))
        wide = self.file("wide", text)
        other = self.file("other", text.replace(b"BUFF", b"NOT"))
        child = subprocess.Popen([self.program, wide, other], stdout=subprocess.PIPE, stderr=subprocess.PIPE)
        head = subprocess.run(["head", "-1"], stdin=child.stdout, stdout=subprocess.PIPE)
        assert child.stdout and child.stderr
        child.stdout.close()
        errors = child.stderr.read()
        child.stderr.close()
        seen = Run(child.wait(), head.stdout, errors)
        bits = " ".join(f"x{i}=0" for i in range(20))
        self.check("| head -1", seen, Run(3, lines(f"DIFFER o0 at {bits} first=0 second=1"), UNWRITTEN))

    def socket_output(self) -> None:
        ours, theirs = socket.socketpair()
        seen = self.run(self.c17, self.c17b, stdout=theirs.fileno())
        theirs.close()
        with ours:
            reported = ours.recv(65536)
        self.check("a socket", Run(seen.status, reported, seen.err), Run(1, C17_DIFFERS, b""))

    # Inputs.

    def endless(self) -> None:
        for name, words, text in (
            ("first", ["/dev/zero", self.c17], "first: longer than 67108864 bytes"),
            ("second", [self.c17, "/dev/zero"], "second: longer than 67108864 bytes"),
            ("order", ["--order-file", "/dev/zero", self.c17, self.c17], "order: longer than 67108864 bytes"),
        ):
            self.check(f"/dev/zero as {name}", harness.unhelped(self.run(*words)), refused(text))
        yes = subprocess.Popen(["yes", "# yes"], stdout=subprocess.PIPE)
        child = subprocess.run([self.program], stdin=yes.stdout, capture_output=True)
        assert yes.stdout
        yes.stdout.close()
        yes.wait()
        seen = Run(child.returncode, child.stdout, child.stderr)
        self.check("yes on standard input", harness.unhelped(seen), refused("standard input: too long"))
        for name, words in (("first", ["-", self.c17]), ("second", [self.c17, "-"])):
            with open("/dev/zero", "rb") as zeros:
                child = subprocess.run([self.program, *map(str, words)], stdin=zeros, capture_output=True)
            seen = Run(child.returncode, child.stdout, child.stderr)
            self.check(f"/dev/zero on standard input as {name}", harness.unhelped(seen), refused(f"{name}: longer than 67108864 bytes"))

    def limits(self) -> None:
        """Texts of comments only, at their limits and one byte over them."""

        def comment(size: int) -> bytes:
            return b"#" + b" " * (size - 2) + b"\n"

        whole, over = self.file("whole", comment(TEXT_LIMIT)), self.file("over", comment(TEXT_LIMIT + 1))
        empty = self.file("empty", b"")
        self.check("a text at its limit", self.run(whole, whole), Run(0, EMPTY, b""))
        self.check("first over it", harness.unhelped(self.run(over, empty)), refused("first: longer than 67108864 bytes"))
        self.check("second over it", harness.unhelped(self.run(empty, over)), refused("second: longer than 67108864 bytes"))
        rest = INPUT_LIMIT - TEXT_LIMIT - 4
        at_most = comment(TEXT_LIMIT) + b"%%\r\n" + comment(rest)
        self.check("standard input at its limit", harness.unhelped(self.run(given=at_most)), refused("second: longer than 67108864 bytes"))
        self.check("standard input over it", harness.unhelped(self.run(given=at_most + b"#")), refused("standard input: too long"))
        fits = comment(TEXT_LIMIT) + b"%%\n" + comment(TEXT_LIMIT)
        self.check("two whole texts on standard input", self.run(given=fits), Run(0, EMPTY, b""))
        for name in ("whole", "over"):
            (self.place / name).unlink()

    def front_parts(self) -> None:
        """Each front part of C17 as the first text: its fault, or none."""
        for length in range(len(C17) + 1):
            front = C17[:length]
            line, closed, left = 1 + front.count(b"\n"), front.count(b")"), front.rsplit(b")", 1)[-1]
            fault = None
            if re.search(rb"= N(A|AN)?$", left):
                fault = f"first: line {line}: unknown gate"
            elif left.strip():
                fault = f"first: line {line}: broken statement"
            elif 6 <= closed <= 12:
                fault = f"first: line {6 if closed < 12 else 7}: signal without definition"
            seen = self.run(self.file("front", front), self.c17)
            if fault:
                self.check(f"{length} bytes of C17", harness.unhelped(seen), refused(fault))
            else:
                self.tally.check(f"{length} bytes of C17", seen.status in (0, 1) and not seen.err, seen)

    def no_files(self) -> None:
        none, place = self.place / "none", self.place
        bad = self.file("bad", C17 + b"x")
        cases: tuple[tuple[str, list[object], str], ...] = (
            ("first missing", [none, self.c17], "first: cannot be opened"),
            ("second missing", [self.c17, none], "second: cannot be opened"),
            ("order missing", ["--order-file", none, self.c17, self.c17], "order: cannot be opened"),
            ("both missing", [none, none], "first: cannot be opened"),
            ("second missing, first bad", [bad, none], "second: cannot be opened"),
            ("order missing, first bad", ["--order-file", none, bad, self.c17], "order: cannot be opened"),
            ("order bad, first bad", ["--order-file", bad, bad, self.c17], "order: line 1: not a signal name"),
            ("both bad", [bad, bad], "first: line 14: broken statement"),
            ("second bad", [self.c17, bad], "second: line 14: broken statement"),
            ("an empty path", ["", self.c17], "first: cannot be opened"),
            ("a path below a file", [self.c17 / "x", self.c17], "first: cannot be opened"),
            ("a path too long", ["x" * 5000, self.c17], "first: cannot be opened"),
            ("a folder as first", [place, self.c17], "first: cannot be read"),
            ("a folder as second", [self.c17, place], "second: cannot be read"),
            ("a folder as order", ["--order-file", place, self.c17, self.c17], "order: cannot be read"),
        )
        for name, words, text in cases:
            self.check(name, harness.unhelped(self.run(*words)), refused(text))
        loop = self.place / "loop"
        loop.symlink_to(loop)
        self.check("a link to itself", harness.unhelped(self.run(loop, self.c17)), refused("first: cannot be opened"))
        seen = self.run("--verbose", loop, self.c17)
        reported = lines("bddcheck: first: cannot be opened", f"bddcheck: {loop}: its links form a loop")
        self.check("a link to itself, and what stands in the way", seen, Run(2, b"", reported))
        with open("/dev/null", "rb") as null:
            child = subprocess.run([self.program], stdin=null, capture_output=True)
        seen = Run(child.returncode, child.stdout, child.stderr)
        self.check("no input", harness.unhelped(seen), refused("standard input: no line %%"))
        folder = os.open(place, os.O_RDONLY)
        child = subprocess.run([self.program], stdin=folder, capture_output=True)
        os.close(folder)
        seen = Run(child.returncode, child.stdout, child.stderr)
        self.check("a folder as standard input", harness.unhelped(seen), refused("standard input: cannot be read"))
        seen = self.through_shell("<&-")
        self.check("closed standard input", harness.unhelped(seen), refused("standard input: cannot be read"))
        # The system gives the number of a closed standard input to the file that is opened, which is then read for both.
        for words in (["-", self.c17], [self.c17, "-"]):
            seen = self.through_shell("<&-", *words)
            self.tally.check("closed standard input as a file", seen.status in (1, 2) and b"EQUAL" not in seen.out, seen)

    def no_permission(self) -> None:
        secret = self.file("secret", C17)
        secret.chmod(0)
        words: list[object] = [self.program, secret, self.c17]
        more: dict[str, Any] = {}
        if os.geteuid() == 0:
            # Root may open each file, so the program is run as nobody, by a copy in a folder that nobody may enter.
            self.place.chmod(0o755)
            program = shutil.copy(self.program, self.place / "program")
            os.chmod(program, 0o755)
            words[0], more = program, {"user": 65534, "group": 65534, "cwd": "/"}
        self.check("no permission", harness.unhelped(run(words, **more)), refused("first: cannot be opened"))
        words.insert(1, "--verbose")
        reported = lines("bddcheck: first: cannot be opened", f"bddcheck: {secret}: permission is denied")
        self.check("no permission, and what stands in the way", run(words, **more), Run(2, b"", reported))

    def fifo(self, name: str, text: bytes, bytes_at_once: int, wait: float = 0) -> pathlib.Path:
        """The path of a fifo that gives so many bytes at each read, the first of them so many seconds after it is opened."""
        path = self.place / name
        os.mkfifo(path)

        def give() -> None:
            with open(path, "wb", buffering=0) as out:
                time.sleep(wait)
                for at in range(0, len(text), bytes_at_once):
                    out.write(text[at : at + bytes_at_once])

        threading.Thread(target=give, daemon=True).start()
        return path

    def slow_files(self) -> None:
        for count in (1, 3):
            first, second = self.fifo(f"a{count}", C17, count), self.fifo(f"b{count}", C17B, count)
            order = self.fifo(f"o{count}", b"1 2 3 6 7", count)
            seen = self.run("--order-file", order, first, second)
            self.check(f"fifos of {count} bytes a read", seen, Run(1, C17_DIFFERS, b""))
        refused_fifo = self.fifo("refused", b"a = FOO(b)\n", 1)
        seen = self.run("--verbose", refused_fifo, self.c17)
        remedy = "the gates are AND, NAND, OR, NOR, XOR, XNOR, NOT, BUFF and DFF; see docs/FLOWS.md"
        reported = lines("bddcheck: first: line 1: unknown gate", f"bddcheck: {refused_fifo}:1: {remedy}")
        self.check("a refused fifo is read once", seen, Run(2, b"", reported))
        child = subprocess.Popen([self.program], stdin=subprocess.PIPE, stdout=subprocess.PIPE, stderr=subprocess.PIPE, bufsize=0)
        out, err = byte_by_byte(child, C17 + b"%%\r\n" + C17)
        self.check("standard input, byte by byte", Run(child.returncode, out, err), Run(0, C17_EQUAL, b""))
        for words, report in ((["-", self.c17b], C17_DIFFERS), ([self.c17, "-"], C17_EQUAL)):
            child = subprocess.Popen(
                [self.program, *map(str, words)], stdin=subprocess.PIPE, stdout=subprocess.PIPE, stderr=subprocess.PIPE, bufsize=0
            )
            out, err = byte_by_byte(child, C17)
            seen = Run(child.returncode, out, err)
            self.check("one file on standard input, byte by byte", seen, Run(int(report == C17_DIFFERS), report, b""))

    def same_device(self) -> None:
        """Both texts from one device: the first takes all of it, and an empty text is left."""
        seen = self.run("/dev/stdin", "/dev/stdin", given=C17)
        self.check("one pipe twice", seen, Run(1, lines("ONLY FIRST 22", "ONLY FIRST 23", "0 equal, 0 different, 2 unmatched"), b""))

    def odd_words(self) -> None:
        seen = self.bytes_run([b"\xff", b"x"])
        self.check("words that are no UTF-8", seen, refused("a word of the command line is no UTF-8"))
        dash = self.file("-", C17)
        self.check("a file that is called -", self.run(f"{self.place}/./-", self.c17), Run(0, C17_EQUAL, b""))
        seen = self.run("./-", self.c17, cwd=self.place)
        self.check("a file that is called -, by ./", seen, Run(0, C17_EQUAL, b""))
        dash.unlink()
        odd = self.file("é ü\n", C17)
        self.check("an odd path", self.run(odd, self.c17), Run(0, C17_EQUAL, b""))
        seen = self.run("--help")
        parts = all(part in seen.out for part in (b"Usage: bddcheck", b"FIRST", b"SECOND", b"Exit status:"))
        self.tally.check("help", seen.status == 0 and seen.out.startswith(b"Decides") and parts and not seen.err, seen)

    def bytes_run(self, words: Sequence[bytes]) -> Run:
        child = subprocess.run([os.fsencode(self.program), *words], capture_output=True, stdin=subprocess.DEVNULL)
        return Run(child.returncode, child.stdout, child.stderr)


def main() -> None:
    program, tally = harness.program_of(__doc__), Tally("devices")
    with harness.folder() as place:
        devices = Devices(program, place, tally)
        devices.progress()
        devices.widest()
        devices.padded()
        devices.terminal()
        devices.late_progress()
        devices.later_attempts()
        devices.full_disk()
        devices.closed_output()
        devices.closed_errors()
        devices.closed_pipe()
        devices.early_pipe()
        devices.socket_output()
        devices.endless()
        devices.limits()
        devices.front_parts()
        devices.no_files()
        devices.no_permission()
        devices.slow_files()
        devices.same_device()
        devices.odd_words()
    tally.finish()


if __name__ == "__main__":
    main()
