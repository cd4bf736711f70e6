#!/usr/bin/env python3
"""Proves and builds the program, crate after crate. The program is then crates/bddcheck/out/bddcheck.

usage: tools/build.py [--jobs N] [--lanes N]

`rt` proves a crate and keeps the crates below it to itself meanwhile, so crates of one folder are proved one after the other.
Therefore each crate is proved in a folder of its own, which has the sources of the crates that it needs and, as hard links, their
built libraries; what is proved there is moved into the repository, where the crates above find it. So up to three crates are proved
side by side (two if there are fewer than four processors or less memory), each as soon as the libraries that it needs are built.
The crate with which the costliest chain of crates begins has N jobs and the usual priority; the others have half as many and a lower
priority, so they use the processors that the first leaves idle. N is the number of processors, with 3 GB of free memory for each.
Last, `rt run` builds the program in the repository. The folders are below .git, or in the temporary folder if there is no .git;
if neither can hold hard links of the repository's files, crates are proved one after the other in the repository itself.

Standard error reports how many crates are proved, what is being proved, the time so far, and about how long it will still take, by
what the crates so far have taken for each of their lines. What an earlier call has proved is kept, also of a call that was stopped
or killed. A second call waits for the first, and takes what that has built.

Status 0: built. 4: not built, since `rt` is missing, a crate was not proved or a folder could not be written; the reason is on
standard error. 128 and the signal's number: stopped.
"""
from __future__ import annotations

import argparse
import contextlib
import ctypes
import fcntl
import functools
import hashlib
import os
import pathlib
import shutil
import signal
import stat
import subprocess
import sys
import tempfile
import threading
import time
from collections.abc import Iterator, Mapping
from typing import NoReturn, TextIO

from crates_txt import TOP, Named, named, named_here
from machine import free_memory, jobs_here

PROGRAM = "bddcheck"
BUILT = TOP / "crates" / PROGRAM / "out" / PROGRAM
NOT_BUILT = 4
MEMORY_OF_A_JOB = 3 << 30
BEGUN = time.monotonic()
# What a check costs before its first function, by itself and for each library below it, in lines that could be proved meanwhile.
LINES_OF_A_START, LINES_OF_A_LIBRARY = 1000, 300
# A program reads the code of all that it links; so many of its lines cost as much as one that is proved.
LINES_READ_FOR_ONE = 7
# A crate that ended sooner was proved before, so it says nothing of what lines cost.
SECONDS_OF_NOTHING = 10
# While nothing begins or ends, a line says so often, in seconds, how far it is.
SECONDS_OF_SILENCE = 180
LOWER_PRIORITY = 5
LIBC = ctypes.CDLL(None)
END_WITH_PARENT = 1


def say(text: str) -> None:
    seconds = int(time.monotonic() - BEGUN)
    print(f"build.py: {seconds // 60:2}:{seconds % 60:02} {text}", file=sys.stderr, flush=True)


def in_minutes(seconds: float) -> str:
    minutes = max(1, round(seconds / 60))
    return "a minute" if minutes == 1 else f"{minutes} minutes"


def below() -> Named:
    """Of each crate of the repository that the program needs: the crates of the repository that it names."""
    here = named_here()
    needed: Named = {}
    waiting = [PROGRAM]
    while waiting:
        crate = waiting.pop()
        if crate not in needed:
            needed[crate] = here[crate]
            waiting += needed[crate]
    return needed


def sources_of(crate: str) -> list[pathlib.Path]:
    """The files of a crate that its proof reads, in a fixed order."""
    folder = TOP / "crates" / crate
    return sorted(file for part in ("src", "specs", "proofs") for file in (folder / part).rglob("*") if file.is_file())


def all_below(needed: Named, crate: str) -> list[str]:
    """Every crate that a crate needs."""
    found: list[str] = []
    waiting = list(needed[crate])
    while waiting:
        other = waiting.pop()
        if other not in found:
            found.append(other)
            waiting += needed[other]
    return found


def costs_of(needed: Named) -> dict[str, int]:
    """About what the proof of each crate costs, in lines of code and of proofs."""
    lines = {crate: sum(file.read_bytes().count(b"\n") for file in sources_of(crate)) for crate in needed}
    costs = {crate: LINES_OF_A_START + LINES_OF_A_LIBRARY * len(all_below(needed, crate)) + lines[crate] for crate in needed}
    code = sum(file.read_bytes().count(b"\n") for crate in needed for file in sources_of(crate) if file.suffix == ".rt")
    costs[PROGRAM] += code // LINES_READ_FOR_ONE
    return costs


def chains_of(needed: Named, costs: Mapping[str, float]) -> dict[str, float]:
    """Of each crate that has a cost: the cost of the costliest chain of crates from it to the program."""
    chains: dict[str, float] = {}

    def chain(crate: str) -> float:
        if crate not in chains:
            chains[crate] = costs[crate] + max((chain(other) for other in costs if crate in needed[other]), default=0)
        return chains[crate]

    for crate in costs:
        chain(crate)
    return chains


def lanes_for(jobs: int) -> int:
    """How many crates are proved side by side: each after the first takes about as much memory as one of its jobs."""
    others = max(0, free_memory() // MEMORY_OF_A_JOB - jobs)
    if jobs >= 4:
        return 1 + max(1, min(2, others))
    return 1 + min(jobs - 1, others)


class Build:
    """The crates that are proved, those that are worked on, and those that wait for them."""

    def __init__(self) -> None:
        self.needed = below()
        self.costs = costs_of(self.needed)
        self.chains = chains_of(self.needed, self.costs)
        self.begun: set[str] = set()
        self.done: set[str] = set()
        # Of each crate that is worked on when that began.
        self.running: dict[str, float] = {}
        self.failed = False
        # The lines and the seconds of the crates that were proved in this call.
        self.seen_lines, self.seen_seconds = 0, 0.0
        self.lanes, self.last_report = 1, BEGUN
        self.changed = threading.Condition()
        self.children: set[subprocess.Popen[bytes]] = set()

    @functools.lru_cache(maxsize=None)
    def sum_of(self, crate: str) -> str:
        """A sum of the kit and of all the sources on which the library of a crate rests."""
        total = hashlib.sha256(kit().encode())
        for file in [TOP / "crates.txt", TOP / "HANDLES", *sources_of(crate)]:
            if file.exists():
                total.update(repr((str(file.relative_to(TOP)), file.read_bytes())).encode())
        for other in sorted(self.needed[crate]):
            total.update(self.sum_of(other).encode())
        return total.hexdigest()

    def seconds_left(self) -> float | None:
        """About how many seconds are left, by what the lines so far have taken: those of the costliest chain of crates that is left, or,
        if they are more, those of all lines that are left, shared by the lanes. None before the first crate is proved."""
        lines, seconds = self.seen_lines, self.seen_seconds
        if not lines:
            return None
        now = time.monotonic()
        spent = {crate: now - begun for crate, begun in self.running.items()}
        for crate in spent:
            # One that takes longer than it should shows that lines cost more than was seen.
            if spent[crate] * lines > self.costs[crate] * seconds:
                lines, seconds = lines + self.costs[crate], seconds + spent[crate]
        left = {}
        for crate in self.needed:
            if crate not in self.done:
                left[crate] = max(0.0, self.costs[crate] * seconds / lines - spent.get(crate, 0))
        return max(sum(left.values()) / self.lanes, *chains_of(self.needed, left).values())

    def report(self) -> None:
        """Reports how far the build is. The caller holds the lock."""
        seconds = self.seconds_left()
        more = f"; about {in_minutes(seconds)} more" if seconds is not None else ""
        now = " and ".join(self.running)
        self.last_report = time.monotonic()
        say(f"{len(self.done)} of {len(self.needed)} crates proved; now {now}{more}")

    def next(self) -> str | None:
        """A crate whose lower crates are proved, with the costliest chain above it; None if nothing is left to begin."""
        with self.changed:
            while not self.failed and len(self.begun) < len(self.needed):
                ready = [crate for crate in self.needed if crate not in self.begun and self.done.issuperset(self.needed[crate])]
                if ready:
                    crate = max(ready, key=self.chains.__getitem__)
                    self.begun.add(crate)
                    self.running[crate] = time.monotonic()
                    self.report()
                    return crate
                self.changed.wait()
            return None

    def watch(self, lanes: list[threading.Thread]) -> None:
        """Waits for the lanes. While nothing begins or ends for long, a line says that the build goes on."""
        for one in lanes:
            while one.is_alive():
                one.join(SECONDS_OF_SILENCE)
                with self.changed:
                    if self.running and not self.failed and time.monotonic() - self.last_report >= SECONDS_OF_SILENCE:
                        self.report()

    def is_dearest(self, crate: str) -> bool:
        """Whether the costliest chain of all crates that are not proved begins with this one."""
        with self.changed:
            return all(self.chains[other] <= self.chains[crate] for other in self.needed if other not in self.done)

    def stop(self) -> None:
        """Begins no further crate, and ends what is running."""
        with self.changed:
            self.failed = self.failed or len(self.done) < len(self.needed)
            for child in self.children:
                child.terminate()
            self.changed.notify_all()

    def ended(self, crate: str, is_proved: bool, output: str) -> None:
        with self.changed:
            seconds = time.monotonic() - self.running.pop(crate)
            if is_proved:
                self.done.add(crate)
                if seconds > SECONDS_OF_NOTHING:
                    self.seen_lines += self.costs[crate]
                    self.seen_seconds += seconds
            elif not self.failed:
                self.failed = True
                say(f"{crate} was not proved:\n{output}")
            self.changed.notify_all()

    def run(self, folder: pathlib.Path, crate: str, jobs: int, priority: int) -> tuple[bool, str]:
        """What `rt` says of a crate that is proved in a folder by so many jobs, and whether it is proved. The program is built by running it."""
        words = ["rt", "run", "--jobs", str(jobs), "--", "--help"] if crate == PROGRAM else ["rt", "lib", "--jobs", str(jobs)]

        def begin() -> None:
            LIBC.prctl(END_WITH_PARENT, signal.SIGKILL)
            os.nice(priority)

        with self.changed:
            if self.failed:
                return False, ""
            child = subprocess.Popen(
                words,
                cwd=folder / "crates" / crate,
                stdin=subprocess.DEVNULL,
                stdout=subprocess.PIPE,
                stderr=subprocess.STDOUT,
                preexec_fn=begin,
            )
            self.children.add(child)
        output = child.communicate()[0]
        with self.changed:
            self.children.remove(child)
        return child.returncode == 0, output.decode(errors="replace")


@functools.lru_cache(maxsize=None)
def kit() -> str:
    return subprocess.run(["rt", "version"], stdout=subprocess.PIPE, check=False).stdout.decode(errors="replace")


@contextlib.contextmanager
def held(crate: str) -> Iterator[None]:
    """Has a crate's folder, as `rt` does that works in it, so that none works there meanwhile."""
    folder = os.open(TOP / "crates" / crate, os.O_RDONLY)
    try:
        with contextlib.suppress(OSError):
            fcntl.flock(folder, fcntl.LOCK_EX)
        yield
    finally:
        os.close(folder)


def remove(path: pathlib.Path) -> None:
    shutil.rmtree(path, ignore_errors=True)


def linked(one: pathlib.Path, other: pathlib.Path) -> None:
    """Gives each file of a folder a second name in another. `rt` removes the files of a library before it makes them anew, and writes into none."""
    remove(other)
    shutil.copytree(one, other, copy_function=os.link)


class Place:
    """The folder in which a crate is proved beside others."""

    def __init__(self, build: Build, workspace: pathlib.Path, crate: str) -> None:
        self.build, self.crate, self.folder = build, crate, workspace / crate
        self.own = TOP / "crates" / crate / "out"
        self.out = self.folder / "crates" / crate / "out"

    def record(self) -> pathlib.Path:
        return self.own / "built.sum"

    def sum(self) -> str:
        """What is noted beside a built library: what it rests on, and the stamp that `rt` gave it."""
        stamp = self.own / "rlib" / "stamp"
        return f"{self.build.sum_of(self.crate)} {stamp.read_text()}\n" if stamp.exists() else ""

    def is_built(self) -> bool:
        """Whether an earlier call has proved this very text. If that is wrong, the program's own build proves it again."""
        return self.record().exists() and self.record().read_text() == self.sum()

    def fill(self) -> None:
        """Lays out the sources that the crate needs, the libraries below it, and what earlier checks of it have kept."""
        self.folder.mkdir(parents=True, exist_ok=True)
        if (TOP / "HANDLES").exists():
            shutil.copy(TOP / "HANDLES", self.folder)
        crates = [self.crate, *all_below(self.build.needed, self.crate)]
        lines = (f"{crate}: {' '.join(libraries)}".strip() for crate, libraries in named().items() if crate in crates)
        (self.folder / "crates.txt").write_text("".join(f"{line}\n" for line in lines))
        for crate in crates:
            to = self.folder / "crates" / crate
            to.mkdir(parents=True, exist_ok=True)
            for part in ("src", "specs", "proofs"):
                remove(to / part)
            for file in sources_of(crate):
                copy = to / file.relative_to(TOP / "crates" / crate)
                copy.parent.mkdir(parents=True, exist_ok=True)
                shutil.copyfile(file, copy)
            if crate != self.crate:
                linked(TOP / "crates" / crate / "out" / "rlib", to / "out" / "rlib")
        self.out.mkdir(exist_ok=True)
        with held(self.crate):
            if (self.own / "rlib" / "stamp").exists():
                linked(self.own / "rlib", self.out / "rlib")
            self.move("incremental", self.own, self.out)

    def move(self, name: str, one: pathlib.Path, other: pathlib.Path) -> None:
        if (one / name).exists():
            remove(other / name)
            other.mkdir(exist_ok=True)
            (one / name).rename(other / name)

    def keep(self, is_proved: bool) -> None:
        """Moves what was proved into the repository."""
        with held(self.crate):
            self.move("incremental", self.out, self.own)
            if is_proved:
                self.record().unlink(missing_ok=True)
                self.move("rlib", self.out, self.own)
                self.record().write_text(self.sum())
        remove(self.folder)

    def prove(self, jobs: int, priority: int) -> tuple[bool, str]:
        if self.is_built():
            return True, ""
        is_proved = False
        try:
            self.fill()
            is_proved, output = self.build.run(self.folder, self.crate, jobs, priority)
        finally:
            self.keep(is_proved)
        return is_proved, output


def lane(build: Build, workspace: pathlib.Path | None, jobs: int) -> None:
    """Proves crate after crate: by all jobs if the costliest chain of crates begins with it, else by half of them and at a lower
    priority. Without a workspace, and for the program itself, that is done in the repository."""
    while crate := build.next():
        is_dearest = build.is_dearest(crate)
        share, priority = (jobs, 0) if is_dearest or not workspace else (max(1, jobs // 2), LOWER_PRIORITY)
        try:
            if crate == PROGRAM or not workspace:
                build.ended(crate, *build.run(TOP, crate, share, priority))
            else:
                build.ended(crate, *Place(build, workspace, crate).prove(share, priority))
        except OSError as error:
            build.ended(crate, False, f"{error.filename or workspace}: {error.strerror or error}")


def is_ours(folder: pathlib.Path) -> bool:
    """Whether a folder is a real one, into which only this user can write."""
    found = os.lstat(folder)
    return stat.S_ISDIR(found.st_mode) and found.st_uid == os.geteuid() and not found.st_mode & 0o022


def workspace_for_lanes() -> pathlib.Path | None:
    """A folder that stays after a call that was killed, and takes hard links of the repository's files; None if there is none."""
    name = f"bddcheck-build-{os.geteuid()}-{hashlib.sha256(str(TOP).encode()).hexdigest()[:12]}"
    for workspace in (TOP / ".git" / "bddcheck-build", pathlib.Path(tempfile.gettempdir()) / name):
        with contextlib.suppress(OSError):
            if workspace.parent.is_dir():
                workspace.mkdir(mode=0o700, exist_ok=True)
                if is_ours(workspace):
                    (workspace / "link").unlink(missing_ok=True)
                    os.link(TOP / "crates.txt", workspace / "link")
                    (workspace / "link").unlink()
                    return workspace
    return None


def build_all(jobs: int, lanes: int) -> bool:
    """Whether all crates were proved, each by so many jobs, so many side by side."""
    build = Build()
    workspace = workspace_for_lanes() if lanes > 1 else None
    build.lanes = lanes if workspace else 1
    threads = [threading.Thread(target=lane, args=(build, workspace, jobs)) for _ in range(build.lanes)]
    for one in threads:
        one.start()
    try:
        build.watch(threads)
    finally:
        build.stop()
        for one in threads:
            one.join()
        if workspace:
            remove(workspace)
    if not build.failed:
        say(f"{len(build.done)} of {len(build.needed)} crates proved; {PROGRAM} is built")
    return not build.failed


def wait_for(lock: TextIO) -> None:
    """Waits until no other call builds. The lock goes with the process."""
    try:
        fcntl.flock(lock, fcntl.LOCK_EX | fcntl.LOCK_NB)
    except BlockingIOError:
        say("another call is building the program; this one waits for it")
        fcntl.flock(lock, fcntl.LOCK_EX)


def is_fresh() -> bool:
    """Whether the program is built and no source is newer, by the times of the files, as tools/bddcheck.sh has it."""
    if not os.access(BUILT, os.X_OK):
        return False
    files = [TOP / "crates.txt"]
    for at, folders, names in os.walk(TOP / "crates"):
        folders[:] = [name for name in folders if name != "out"]
        files += [pathlib.Path(at, name) for name in names]
    return max(file.stat().st_mtime_ns for file in files) <= BUILT.stat().st_mtime_ns


def stopped(number: int, _: object) -> NoReturn:
    sys.exit(128 + number)


def main() -> int:
    before, _, after = (__doc__ or "").partition("usage: ")
    usage, _, rest = after.partition("\n")
    formatter = argparse.RawDescriptionHelpFormatter
    parser = argparse.ArgumentParser(usage=usage, description=before + rest.lstrip(), formatter_class=formatter)
    parser.add_argument("--jobs", type=int, help="A crate is proved by so many jobs; the default depends on processors and memory.")
    parser.add_argument("--lanes", type=int, help="So many crates are proved at the same time; the default depends on the jobs.")
    settings = parser.parse_args()
    for number in (signal.SIGINT, signal.SIGTERM, signal.SIGHUP):
        signal.signal(number, stopped)
    with open(TOP / "crates.txt") as lock:
        wait_for(lock)
        if is_fresh():
            say("the program is built, and no source is newer")
            return 0
        if not shutil.which("rt"):
            say("the command `rt` is not found. It comes with the kit that proves the program; README.md names those that do")
            return NOT_BUILT
        begun = time.time()
        jobs = settings.jobs or jobs_here(MEMORY_OF_A_JOB)
        lanes = settings.lanes or lanes_for(jobs)
        say(f"proving and building the program by {jobs} jobs: an hour or more from nothing on four processors, later only what changed")
        if not build_all(jobs, lanes):
            return NOT_BUILT
        # So it is newer than each source that was read, also if nothing had to be built, and older than one that was changed meanwhile.
        os.utime(BUILT, (begun, begun))
    return 0


if __name__ == "__main__":
    sys.exit(main())
