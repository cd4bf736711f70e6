#!/usr/bin/env python3
"""Tries the planted bugs that the gate leaves out for its time, those in crates/*/planted-bugs: the prover has to refuse each, as
those in must-fail, which the gate tries.

usage: tools/planted_bugs.sh [--since REV | --all] [--only WORD] [--jobs N] [CRATE ..]

Without a crate it takes those whose src/, specs/, proofs/ or planted-bugs/ differ from the commit REV, in the working tree too. REV is
by default where this branch left its upstream branch; a branch without one is compared with the commit before its last. --all takes
each crate. --only WORD takes only the edits that have this word in the names of their files, and the status is 1 if there are none.
--jobs N tries N batches at a time, as many as there are processors and 4 GB of free memory for each if left out.

The crates are tried on a copy, which takes what was proved here along. A batch is one check that has a planted bug in each of several
functions; a refusal belongs to the edit of the function that it names. If a check says nothing of an edit, since its function calls one
that is wrong too, or since the check ended without a verdict, the edit is tried again in other batches, and last by itself. A line for
each edit says
  REFUSED      a goal of the changed function is not proved, and what the first of them is
  NOT REFUSED  the crate is still proved with only this edit: strengthen the contract, or remove an edit that means the same
  BAD EDIT     it does not apply (each old text is exactly once in its file), compile or read, or changes no body: mend it
  NOT TRIED    no check of it came to a verdict: run this again
The last line is 'N refused, M failed', and the status 0 if M is 0.
"""
from __future__ import annotations

import argparse
import concurrent.futures
import contextlib
import os
import pathlib
import queue
import re
import resource
import shutil
import signal
import subprocess
import sys
import tempfile
import time
from collections.abc import Callable
from dataclasses import dataclass
from typing import Any, NoReturn

from crates_txt import TOP, Named, named_here
from edit_files import BadEdit, Edit, Function, functions_of, read_edit
from machine import jobs_here

PARTS = ("src", "specs", "proofs")
# How a file is copied from one path to another.
Copy = Callable[[str, str], object]
MEMORY_OF_A_JOB = 4 << 30
# The most edits of a batch, and the seconds that its check has, with more for each edit.
BATCH, SECONDS, SECONDS_EACH = 10, 600, 60
# How often an edit of which nothing is known is tried together with others before it is tried by itself.
ROUNDS = 3
REFUSED, MISSED, BAD, UNSURE = "REFUSED", "NOT REFUSED", "BAD EDIT", "NOT TRIED"
UNREADABLE = "it does not compile or read"
MOST_OF_A_LINE = 300
# What a check says: of a place in the sources, of a proof file, and of a function.
GOAL = re.compile(r"^note: (?:\./)?(src/\S+?):(\d+):\d+: (it is not proved that .*)")
FAULT = re.compile(r"^(?:\./)?(src/\S+?):(\d+):\d+: (error\b.*)")
# An error with a word in brackets is the compiler's; one that names no statement is the prover's, which could not read a text.
MISREAD = "is not in scope|has no field|is no name|operand is missing|expected the end|cannot continue"
UNREAD = re.compile(rf"error\[|error: (?!`[^`]*`: )|.*(?:{MISREAD})")
UNPROVED = re.compile(r"^(?:\./)?proofs/(\S+)/\w+\.antt:\d+:\d+: (error: .*)")
VERDICT = re.compile(r"^fn (\S+?): (.*)")
CALLED = re.compile(r"it calls ((?:`[^`]+`(?:, | and )?)+)")
# A proof file that names what an edit took away, or that rests on what was not proved: says little of the edited body, or nothing.
NAMES = re.compile(r"has no field|is not in scope|has no `|was not admitted|was not checked")
# A limit of the prover's own, which it meets wherever it checks the same.
LIMIT = re.compile(r"antt ran out of (?:stack|the (?:steps|memory) that)|(?:outgrew the memory limit|stopped at the step limit) \(")


@dataclass
class Said:
    """How a check ended, and its lines. The status is None if it was stopped, since it took too long."""

    status: int | None
    lines: list[str]

    def starts(self, word: str) -> str:
        return next((line for line in self.lines if line.startswith(word)), "")

    def compiles(self) -> bool:
        return bool(self.starts("only=") or self.starts("logic=") or self.starts("rattle: no verdict"))

    def verdicts(self) -> dict[str, str]:
        return {match[1]: match[2] for match in map(VERDICT.match, self.lines) if match}

    def limit(self) -> str:
        return next((line for line in self.lines if LIMIT.search(line)), "")

    def how(self) -> str:
        return "took too long" if self.status is None else f"ended with status {self.status}"


class Stopped(Exception):
    """That no more checks are to begin."""


class Runs:
    """The checks that run now, so that all of them end with this program."""

    def __init__(self) -> None:
        self.running: set[subprocess.Popen[bytes]] = set()
        self.is_over = False

    def check(self, folder: pathlib.Path, words: list[str], seconds: float) -> Said:
        if self.is_over:
            raise Stopped
        # A group of its own, which ends as a whole.
        child = subprocess.Popen(
            ["rt", "check", *words],
            cwd=folder,
            stdin=subprocess.DEVNULL,
            stdout=subprocess.PIPE,
            stderr=subprocess.STDOUT,
            start_new_session=True,
        )
        self.running.add(child)
        try:
            if self.is_over:
                self.end(child)
            out, is_late = child.communicate(timeout=seconds)[0], False
        except subprocess.TimeoutExpired:
            self.end(child)
            out, is_late = child.communicate()[0], True
        finally:
            self.running.discard(child)
        return Said(None if is_late else child.returncode, out.decode(errors="replace").split("\n"))

    def end(self, child: subprocess.Popen[bytes]) -> None:
        with contextlib.suppress(ProcessLookupError):
            os.killpg(child.pid, signal.SIGKILL)

    def end_all(self, status: int, *_: object) -> NoReturn:
        """Ends the checks, and then the program."""
        self.is_over = True
        for child in list(self.running):
            self.end(child)
        sys.exit(128 + status)


def say(line: str) -> None:
    """Prints a line whole, whichever thread says it."""
    sys.stdout.write(line + "\n")
    sys.stdout.flush()


def below(crate: str, named: Named) -> list[str]:
    found: list[str] = []
    for library in named[crate]:
        found += [it for it in [*below(library, named), library] if it not in found]
    return found


def linked(one: str, other: str) -> None:
    """A second name for a file, or a copy if the folders are on different disks. A check replaces such a file, and changes none."""
    try:
        os.link(one, other)
    except OSError:
        shutil.copy2(one, other)


def kept(one: str, other: str) -> None:
    """A copy of a file of kept work, by a link if it is one of what was proved."""
    if str(one).endswith(".oantt"):
        linked(one, other)
    else:
        shutil.copy2(one, other)


def copied(one: pathlib.Path, other: pathlib.Path, how: Copy) -> None:
    if one.is_dir():
        shutil.copytree(one, other, copy_function=how, symlinks=True)


class Place:
    """A copy of a crate and of those below it, in which one check runs at a time."""

    def __init__(self, scratch: pathlib.Path, crate: str, named: Named, runs: Runs) -> None:
        self.scratch, self.crate, self.runs = scratch, crate, runs
        self.folder = scratch / "crates" / crate
        self.needs = [*below(crate, named), crate]

    def fill(self, top: pathlib.Path) -> None:
        """Copies the crates from a repository, with what was proved there."""
        self.scratch.mkdir()
        lines = (top / "crates.txt").read_text().splitlines()
        lines = [line for line in lines if line.partition(":")[0].split()[:1] and line.partition(":")[0].split()[0] in self.needs]
        (self.scratch / "crates.txt").write_text("".join(f"{line}\n" for line in lines))
        if (top / "HANDLES").is_file():
            shutil.copy(top / "HANDLES", self.scratch)
        for crate in self.needs:
            one, other = top / "crates" / crate, self.scratch / "crates" / crate
            (other / "out").mkdir(parents=True)
            for part in PARTS:
                copied(one / part, other / part, shutil.copy2)
            if crate != self.crate:
                copied(one / "out" / "rlib", other / "out" / "rlib", linked)
        copied(top / "crates" / self.crate / "out" / "incremental", self.folder / "out" / "incremental", kept)

    def prove_seed(self, jobs: int) -> Said:
        """Proves the crate without an edit. What that leaves is the seed, with which each check here begins."""
        said = self.runs.check(self.folder, ["--jobs", str(jobs)], 10 * SECONDS)
        if said.starts("logic=proved"):
            (self.folder / "out" / "incremental").rename(self.scratch / "seed")
        return said

    def check(self, edits: list[Edit], words: list[str]) -> Said:
        """What a check says of the crate with these edits, which change no line twice."""
        shutil.rmtree(self.folder / "out" / "incremental", ignore_errors=True)
        copied(self.scratch / "seed", self.folder / "out" / "incremental", kept)
        files = {file for edit in edits for file in edit.lines}
        were = {file: (self.folder / file).read_text(encoding="utf-8") for file in files}
        try:
            for file, was in were.items():
                lines = was.split("\n")
                for edit in edits:
                    for number, line in edit.lines.get(file, {}).items():
                        lines[number] = line
                (self.folder / file).write_text("\n".join(lines), encoding="utf-8")
            return self.runs.check(self.folder, ["--jobs", "1", *words], SECONDS + SECONDS_EACH * len(edits))
        finally:
            for file, was in were.items():
                (self.folder / file).write_text(was, encoding="utf-8")


def symbol_of(function: Function, symbols: list[str], crate: str) -> str | None:
    """The name that a check gives a function, or None if it can be that of several."""
    module = [it for it in function.file[len("src/") : -len(".rt")].split("/") if it not in ("lib", "main", "mod")]
    path = [crate, *module]

    def fits(words: list[str]) -> bool:
        if words[: len(path)] != path or words[-1] != function.name:
            return False
        home = words[len(path) : -1]
        if not function.trait:
            return home == [function.owner] * bool(function.owner)
        return len(home) == 1 and home[0].startswith(function.owner) and function.trait in home[0]

    def is_of_type(words: list[str]) -> bool:
        """Whether this is a method of such a type: a check names it by its type's module, and it can be in another."""
        return words[0] == crate and words[-2:] == [function.owner, function.name] and not function.trait

    found = [it for it in symbols if fits(it.split("::"))] or [it for it in symbols if is_of_type(it.split("::"))]
    return found[0] if len(found) == 1 else None


def own_goals(said: Said, function: Function, symbol: str) -> list[str]:
    """What a check says of goals of this function itself that are not proved, and of its proof files, if that is more than of names
    that are gone."""
    goals, inside = [], "/".join(symbol.split("::")[1:])
    for line in said.lines:
        goal, proof = GOAL.match(line) or FAULT.match(line), UNPROVED.match(line)
        if goal and goal.group(1) == function.file and function.first < int(goal.group(2)) <= function.last + 1:
            goals.append(re.sub("^note: ", "", line))
        elif proof and proof.group(1) == inside and not NAMES.search(line):
            goals.append(line)
    verdict = said.verdicts().get(symbol, "")
    return goals or ([verdict] if "`search` did not prove" in verdict else [])


def misread(said: Said, edits: list[Edit]) -> dict[Edit, str]:
    """Of each edit that the compiler or the prover cannot read: the error that says so."""
    found: dict[Edit, str] = {}
    errors = [match for match in map(FAULT.match, said.lines) if match and UNREAD.match(match.group(3))]
    for file, line, error in (match.groups() for match in errors):
        number = int(line) - 1
        of_line = [edit for edit in edits if number in edit.lines.get(file, {})]
        inside = [edit for edit in edits if any(it.file == file and it.first <= number <= it.last for it in edit.functions)]
        for edit in of_line or inside:
            found.setdefault(edit, f"{file}:{line}: {error}")
    return found


@dataclass(eq=False)
class Case:
    """An edit that applies, the names that a check gives the functions which it changes, and what it came to."""

    edit: Edit
    symbols: list[str | None]
    kind: str = ""
    # Whether only a check of the whole crate with no other edit says what this edit comes to.
    needs_own_check: bool = False

    def __post_init__(self) -> None:
        self.needs_own_check = self.edit.is_wide or None in self.symbols or not self.symbols

    def known(self) -> list[str]:
        """The names of its functions that a check gives no other one."""
        return [symbol for symbol in self.symbols if symbol is not None]

    def meets(self, other: Case) -> bool:
        """Whether both change one function, or one that is inside the other's."""
        pairs = [(one, two) for one in self.edit.functions for two in other.edit.functions if one.file == two.file]
        return any(one.first <= two.last and two.first <= one.last for one, two in pairs)


class Crate:
    """The trial of the planted bugs of one crate, of those whose names have a word: the empty word is in each."""

    def __init__(self, name: str, scratch: pathlib.Path, named: Named, jobs: int, runs: Runs, word: str) -> None:
        self.name, self.scratch, self.named, self.jobs, self.runs, self.word = name, scratch, named, jobs, runs, word
        self.folder = TOP / "crates" / name
        self.places: queue.Queue[Place] = queue.Queue()
        # By function those that it was seen to call.
        self.calls: dict[str, set[str]] = {}
        self.checks = 0
        # By the name of an edit what it came to.
        self.kinds: dict[str, str] = {}

    def settle(self, edit: str, kind: str, why: object) -> None:
        """Reports at once what an edit came to, which is final."""
        self.kinds[edit] = kind
        say(f"{self.name}/{edit}: {kind}: {why}"[:MOST_OF_A_LINE])

    def read(self) -> list[Edit]:
        """The edits that apply. Of the others is reported what they are."""
        edits = []
        for path in sorted((self.folder / "planted-bugs").glob("*")):
            try:
                if path.suffix == ".md" or self.word not in path.name:
                    continue
                if path.suffix != ".edit":
                    raise BadEdit("an edit stands right in planted-bugs/, and its name ends in .edit")
                edits.append(read_edit(path, self.folder))
            except BadEdit as why:
                self.settle(path.name, BAD, why)
            except OSError as why:
                self.settle(path.name, UNSURE, f"it cannot be read: {why.strerror}")
        return edits

    def prepare(self, most: int) -> tuple[list[str] | None, Said]:
        """Proves the crate without an edit in a copy, makes as many copies of that as serve, and returns the functions that were proved."""
        first = Place(self.scratch / f"{self.name}-0", self.name, self.named, self.runs)
        first.fill(TOP)
        said = first.prove_seed(self.jobs)
        if not (first.scratch / "seed").is_dir():
            return None, said
        self.places.put(first)
        for number in range(1, min(self.jobs, most)):
            place = Place(self.scratch / f"{self.name}-{number}", self.name, self.named, self.runs)
            place.fill(first.scratch)
            copied(first.scratch / "seed", place.scratch / "seed", kept)
            self.places.put(place)
        return list(said.verdicts()), said

    def check(self, cases: list[Case], words: list[str]) -> Said:
        place = self.places.get()
        try:
            self.checks += 1
            return place.check([case.edit for case in cases], words)
        finally:
            self.places.put(place)

    def ends(self, case: Case, kind: str, why: object) -> None:
        case.kind = kind
        self.settle(case.edit.path.name, kind, why)

    def try_alone(self, case: Case) -> None:
        """Tries one edit, by a check of the whole crate, which always says what the edit comes to."""
        said = self.check([case], [])
        if not said.starts("logic=") and said.status not in (1, 3):
            said = self.check([case], [])
        bad = misread(said, [case.edit]).get(case.edit) or next((line for line in said.lines if re.search(r"\berror\[", line)), "")
        if bad:
            self.ends(case, BAD, f"{UNREADABLE}: {bad}")
        elif said.starts("logic=proved"):
            self.ends(case, MISSED, "the crate is still proved with it")
        elif said.starts("logic=not-proved"):
            reported = [line for line in said.lines if GOAL.match(line) or FAULT.match(line) or UNPROVED.match(line)]
            plain = [line for line in reported if not NAMES.search(line)]
            only = "" if plain or not reported else "(only since a proof file names what it took away: change a value and keep the names) "
            self.ends(case, REFUSED, only + re.sub("^note: ", "", next(iter(plain or reported), "")))
        elif said.status == 3 and said.limit():
            self.ends(case, REFUSED, f"(only by a limit of the prover: choose a change that it refuses sooner) {said.limit()}")
        else:
            first = next((line for line in said.lines if line), "")
            self.ends(case, UNSURE, f"its check {said.how()}: {first}")

    def try_batch(self, cases: list[Case]) -> None:
        """Tries edits of different functions in one check. Those of which it says nothing are to be tried again."""
        while cases:
            said = self.check(cases, [word for case in cases for symbol in case.known() for word in ("--only", symbol)])
            bad = misread(said, [case.edit for case in cases])
            if said.compiles() and not bad:
                return self.judge(cases, said)
            for case in cases:
                if case.edit in bad:
                    self.ends(case, BAD, f"{UNREADABLE}: {bad[case.edit]}")
            if not bad:
                return self.halve(cases)
            cases = [case for case in cases if not case.kind]

    def halve(self, cases: list[Case]) -> None:
        """Tries the halves of a batch whose check came to nothing, if none of its edits is known to be the cause."""
        if len(cases) > 1:
            self.try_batch(cases[: len(cases) // 2])
            self.try_batch(cases[len(cases) // 2 :])

    def judge(self, cases: list[Case], said: Said) -> None:
        verdicts = said.verdicts()
        for symbol, verdict in verdicts.items():
            for names in CALLED.findall(verdict):
                self.calls.setdefault(symbol, set()).update(re.findall(r"`([^`]+)`", names))
        for case in cases:
            goals: list[str] = []
            for function, symbol in zip(case.edit.functions, case.known()):
                is_open = symbol in verdicts and not verdicts[symbol].startswith(("proved", "could not tell"))
                goals += own_goals(said, function, symbol) if is_open else []
            if goals:
                self.ends(case, REFUSED, goals[0])
            elif not any(CALLED.search(verdicts.get(symbol, "")) for symbol in case.known()):
                case.needs_own_check = True

    def reached(self, symbol: str) -> set[str]:
        """The functions that were seen to be called by this one, by those too, and so on."""
        found: set[str] = set()
        waiting = [symbol]
        while waiting:
            more = self.calls.get(waiting.pop(), set()) - found
            found |= more
            waiting += more
        return found

    def batches(self, cases: list[Case], likely: set[tuple[str, str]]) -> list[list[Case]]:
        """Parts cases into batches. No function is in one twice, nor beside one that it was seen to call; of the batches that are
        left a case takes one with few that it is likely to call, and then one with few edits."""
        taken = [symbol for case in cases for symbol in case.known()]
        count = max([-(-len(cases) // BATCH), *map(taken.count, taken)])
        batches: list[list[Case]] = [[] for _ in range(count)]
        for case in sorted(cases, key=lambda it: -max(map(taken.count, it.known()))):
            own, reached = set(case.known()), set[str]().union(*map(self.reached, case.known()))

            def fits(batch: list[Case]) -> bool:
                others = {symbol for other in batch for symbol in other.known()}
                calls = others & reached or any(own & self.reached(symbol) for symbol in others)
                return len(batch) < BATCH and not calls and not any(map(case.meets, batch))

            def cost(batch: list[Case]) -> tuple[int, int]:
                others = {symbol for other in batch for symbol in other.known()}
                near = sum((one, other) in likely or (other, one) in likely for one in own for other in others)
                return near, len(batch)

            open_ones = [batch for batch in batches if fits(batch)]
            if not open_ones:
                open_ones = [[]]
                batches += open_ones
            min(open_ones, key=cost).append(case)
        return [batch for batch in batches if batch]

    def likely_calls(self, symbols: set[str]) -> set[tuple[str, str]]:
        """Pairs of functions of which the first is likely to call the second, itself or by others, by the words of the sources."""
        bodies: dict[str, set[str]] = {}
        for path in sorted((self.folder / "src").rglob("*.rt")):
            text, file = path.read_text(encoding="utf-8"), path.relative_to(self.folder).as_posix()
            for function in functions_of(file, text):
                words = re.findall(r"(\w+)\s*(?:::<[^>]*>)?\(", text[function.body[0] : function.body[1]])
                bodies.setdefault(function.name, set()).update(words)
        near = {}
        for name in bodies:
            found: set[str] = set()
            waiting = [name]
            while waiting:
                more = (bodies[waiting.pop()] & bodies.keys()) - found
                found |= more
                waiting += more
            near[name] = found
        last = {symbol: symbol.rpartition("::")[2] for symbol in symbols}
        return {(one, other) for one in symbols for other in symbols if last[other] in near.get(last[one], ())}

    def run_all(self, pool: concurrent.futures.ThreadPoolExecutor, how: Callable[[Any], None], cases: list[Any]) -> None:
        for done in [pool.submit(how, it) for it in cases]:
            done.result()

    def try_all(self, cases: list[Case]) -> None:
        """Tries the cases by batches, those of which nothing is known then in others, and what is left one by one."""
        likely = self.likely_calls({symbol for case in cases for symbol in case.symbols if symbol})
        with concurrent.futures.ThreadPoolExecutor(self.jobs) as pool:
            for _ in range(ROUNDS):
                waiting = [case for case in cases if not case.kind and not case.needs_own_check]
                batches = self.batches(waiting, likely) if waiting else []
                self.run_all(pool, self.try_batch, batches)
            self.run_all(pool, self.try_alone, [case for case in cases if not case.kind])

    def run(self) -> None:
        """Tries each edit of the crate."""
        edits = self.read()
        if not edits:
            return
        symbols, said = self.prepare(len(edits))
        if symbols is None:
            first = said.starts("note:") or next((line for line in said.lines if line), "")
            for edit in edits:
                self.settle(edit.path.name, UNSURE, f"the crate itself is not proved: {first}")
            return
        self.try_all([Case(edit, [symbol_of(it, symbols, self.name) for it in edit.functions]) for edit in edits])


def said_by_git(*words: str) -> str | None:
    ran = subprocess.run(["git", *words], cwd=TOP, stdin=subprocess.DEVNULL, stdout=subprocess.PIPE, stderr=subprocess.PIPE)
    return ran.stdout.decode(errors="replace").strip() if ran.returncode == 0 else None


def default_commit() -> str | None:
    """Where this branch left its upstream branch, or else the commit before its last."""
    return said_by_git("merge-base", "HEAD", "@{upstream}") or said_by_git("rev-parse", "--verify", "--quiet", "HEAD~1")


def changed(commit: str) -> set[str] | None:
    """The crates that differ from a commit, or None if there is no such commit."""
    differing = said_by_git("diff", "--name-only", commit, "--", "crates")
    new = said_by_git("ls-files", "--others", "--exclude-standard", "--", "crates")
    if differing is None or new is None:
        return None
    paths = [path.split("/") for path in [*differing.split("\n"), *new.split("\n")]]
    # Commits before the folder was renamed have wrong-bodies/.
    return {path[1] for path in paths if len(path) > 3 and path[2] in (*PARTS, "planted-bugs", "wrong-bodies")}


def chosen(settings: argparse.Namespace) -> list[str]:
    """The crates to try, those below first."""
    named = named_here()
    have = [crate for crate in named if (TOP / "crates" / crate / "planted-bugs").is_dir()]
    if settings.crates:
        lacking = [crate for crate in settings.crates if crate not in have]
        if lacking:
            sys.exit(f"planted_bugs.py: {lacking[0]} is no crate with planted bugs")
        return list(settings.crates)
    if settings.all:
        return have
    commit = settings.since or default_commit()
    differing = changed(commit) if commit else None
    if not commit or differing is None:
        sys.exit(f"planted_bugs.py: there is no commit {commit or 'before the last'}: name one by --since, or crates, or take --all")
    say(f"since {said_by_git('describe', '--always', commit) or commit}")
    found = [crate for crate in have if crate in differing]
    if not found:
        say("no crate with planted bugs differs from it")
    return found


def processor_seconds() -> float:
    """What the checks that have ended took of a processor."""
    used = resource.getrusage(resource.RUSAGE_CHILDREN)
    return used.ru_utime + used.ru_stime


def try_crates(crates: list[str], jobs: int, scratch: pathlib.Path, runs: Runs, word: str) -> tuple[int, int]:
    """Tries crate after crate, of each the edits whose names have the word, and returns how many were refused and how many not."""
    refused = failed = 0
    for name in crates:
        begun, used, crate = time.monotonic(), processor_seconds(), Crate(name, scratch, named_here(), jobs, runs, word)
        crate.run()
        took, used = time.monotonic() - begun, processor_seconds() - used
        each = used / max(1, len(crate.kinds))
        reported = f"{took:.0f} seconds, {used:.0f} of a processor, {each:.1f} of these an edit"
        say(f"{name}: {len(crate.kinds)} planted bugs, {crate.checks} checks, {reported}")
        refused += sum(kind == REFUSED for kind in crate.kinds.values())
        failed += sum(kind != REFUSED for kind in crate.kinds.values())
        for place in scratch.glob(f"{name}-*"):
            shutil.rmtree(place, ignore_errors=True)
    return refused, failed


def main() -> bool:
    head, usage, *more = (__doc__ or "").split("\n\n")
    about = "\n\n".join([head, *more])
    formatter = argparse.RawDescriptionHelpFormatter
    parser = argparse.ArgumentParser(usage=usage.partition(" ")[2], description=about, formatter_class=formatter)
    which = parser.add_mutually_exclusive_group()
    which.add_argument("--since", metavar="REV", help="The edits of the crates that differ from this commit are tried.")
    which.add_argument("--all", action="store_true", help="The edits of each crate are tried.")
    parser.add_argument("--only", metavar="WORD", default="", help="Only edits with this word in their names are tried.")
    parser.add_argument("--jobs", metavar="N", type=int, help="So many batches are tried at the same time.")
    parser.add_argument("crates", metavar="CRATE", nargs="*", help="The edits of this crate are tried; it has its name in crates.txt.")
    settings = parser.parse_args()
    if settings.crates and (settings.since or settings.all):
        parser.error("crates are named, or chosen by --since or --all")
    crates, runs = chosen(settings), Runs()
    if not shutil.which("rt"):
        sys.exit("planted_bugs.py: the command `rt` is not found. It comes with the kit; README.md says which one")
    for kind in (signal.SIGINT, signal.SIGTERM):
        signal.signal(kind, runs.end_all)
    with tempfile.TemporaryDirectory(prefix="planted-bugs-") as scratch:
        refused, failed = try_crates(
            crates, max(1, settings.jobs or jobs_here(MEMORY_OF_A_JOB)), pathlib.Path(scratch), runs, settings.only
        )
    if settings.only and not refused + failed:
        sys.exit(f"planted_bugs.py: no edit of these crates has {settings.only} in its name")
    print(f"{refused} refused, {failed} failed")
    return failed > 0


if __name__ == "__main__":
    sys.exit(main())
