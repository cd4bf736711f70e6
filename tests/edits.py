#!/usr/bin/env python3
"""That the planted bugs are what the gate and tools/planted_bugs.sh take them for, and that this tool passes none that is bad.

usage: tests/edits.py

Nothing is proved here. The tool is tried on a small repository, with a command `rt` that says what a check would say.
"""
from __future__ import annotations

import os
import pathlib
import shutil
import sys
from collections.abc import Sequence

import harness
from harness import TOP, Run, Tally, run

sys.path.insert(0, str(TOP / "tools"))
from edit_files import BadEdit, read_edit  # noqa: E402

# By the name of an edit its text, and what the tool has to say of it.
Edits = dict[str, tuple[str, str]]

KINDS = ("must-fail", "planted-bugs")
MOST_OF_A_CRATE, MOST = 6, 100

# A library whose `high` calls `low`.
SOURCE = """\
const STEP: u8 = 1;

/// The number itself; "fn lost() {" stands in a comment.
pub fn low(number: u8) -> u8
    ensures { result ≡ number }
{
    number
}

pub fn high(number: u8) -> u8
    ensures { result ≡ number }
{
    low(number)
}

impl<T: Copy> Held<T> {
    pub fn at(&self, place: usize) -> T
        requires place { place < length self.now }
    {
        self.items[place]
    }
}

impl fmt::Display for Held<u8> {
    fn fmt(&self, out: &mut Formatter) -> Done {
        write!(out; "{")
    }
}
"""

# Says of each function what the word in its body asks for: WRONG has a goal that is not proved, SAME none, BROKEN does not compile,
# KILLED ends the check. What calls a function with an open goal waits for it.
RT = """\
#!PYTHON -IS
import pathlib, sys
lines = pathlib.Path("src/lib.rt").read_text().split("\\n")
pathlib.Path("out/incremental").mkdir(exist_ok=True)
only = [sys.argv[it + 1] for it, word in enumerate(sys.argv) if word == "--only"]
BODIES = {"one::low": 7, "one::high": 13, "one::Held::at": 20, "one::HeldDisplay::fmt": 26}
if any("KILLED" in line for line in lines):
    sys.exit(137)
broken = [at for at, line in enumerate(lines, 1) if "BROKEN" in line]
for at in broken:
    print(f"src/lib.rt:{at}:5: error[unknown-name]: cannot find value `BROKEN` in this scope")
if broken:
    sys.exit(1)
is_open = {name: "WRONG" in lines[at - 1] for name, at in BODIES.items()}
names = [name for name in BODIES if not only or name in only]
for name in names:
    if name == "one::high" and is_open["one::low"]:
        print("fn one::high: not proved; it calls `one::low`, which is not proved")
    elif is_open[name]:
        print(f"note: src/lib.rt:{BODIES[name]}:5: it is not proved that what the function ensures holds when it returns (`returns`)")
        print(f"fn {name}: no proof: expected answers in ./proofs/Answers.antt; `search` did not prove `returns`")
    else:
        print(f"fn {name}: proved")
is_proved = not any(map(is_open.get, names)) and "WRONG" not in lines[0]
print(f"only={len(only)} proved=0" if only else "logic=proved functions=4" if is_proved else "logic=not-proved")
sys.exit(not is_proved)
"""

# Edits of the library, by name: the lines of each, and what the tool has to say of it.
EDITS = {
    "low-wrong": ("file: src/lib.rt\nold: number\nnew: WRONG\n", "BAD EDIT: an 'old:' text is in src/lib.rt 7 times"),
    "low-open": ("file: src/lib.rt\nold:     number\n}\nnew: WRONG\n", "BAD EDIT: a line begins with none of"),
    "low-is_wrong": ("file: src/lib.rt\nold:     low(number)\nnew:     low(WRONG)\n", "REFUSED: src/lib.rt:13:5: it is not proved"),
    "at-wrong": ("file: src/lib.rt\nold: self.items[place]\nnew: self.items[WRONG]\n", "REFUSED: src/lib.rt:20:5: it is not proved"),
    "at-same": ("file: src/lib.rt\nold: self.items[place]\nnew: self.items[SAME]\n", "NOT REFUSED: the crate is still proved"),
    "at-broken": ("file: src/lib.rt\nold: self.items[place]\nnew: self.items[BROKEN]\n", "BAD EDIT: it does not compile or read: src/"),
    "at-killed": ("file: src/lib.rt\nold: self.items[place]\nnew: self.items[KILLED]\n", "NOT TRIED: its check ended with status 137"),
    "fmt-wrong": ('file: src/lib.rt\nold: write!(out; "{")\nnew: WRONG\n', "REFUSED: src/lib.rt:26:5: it is not proved"),
    "step": ("file: src/lib.rt\nold: u8 = 1;\nnew: u8 = WRONG;\n", "REFUSED: "),
    "contract": ("file: src/lib.rt\nold: place < length\nnew: place ≤ length\n", "BAD EDIT: it changes a contract"),
    "spec": ("file: specs/Lib.antt\nold: a\nnew: b\n", "BAD EDIT: it edits specs/Lib.antt"),
    "lost": ("file: src/lost.rt\nold: a\nnew: b\n", "BAD EDIT: there is no file src/lost.rt"),
    "headless": ("old: number\nnew: WRONG\n", "BAD EDIT: a 'new:' line stands before any 'file:'"),
    "half": ("file: src/lib.rt\nold: low(number)\n", "BAD EDIT: an 'old:' line has no 'new:' line"),
    "nothing": ("file: src/lib.rt\nold: low(number)\nnew: low(number)\n", "BAD EDIT: it changes nothing"),
    "empty": ("", "BAD EDIT: it has no 'old:' and 'new:' pair"),
}
# Edits of two functions of which one calls the other: a batch with both says nothing of the caller.
CALLERS = {
    "low-wrong": ("file: src/lib.rt\nold:     number\nnew:     WRONG\n", "REFUSED: src/lib.rt:7:5: it is not proved"),
    "high-same": ("file: src/lib.rt\nold:     low(number)\nnew:     low(SAME)\n", "NOT REFUSED: the crate is still proved"),
}


def written(place: pathlib.Path, source: str, edits: Edits) -> pathlib.Path:
    """A repository with one crate, and the tool."""
    crate = place / "crates" / "one"
    (crate / "src").mkdir(parents=True)
    (crate / "planted-bugs").mkdir()
    (place / "tools").mkdir()
    (place / "bin").mkdir()
    (place / "scratch").mkdir()
    for name in ("crates_txt.py", "edit_files.py", "machine.py", "planted_bugs.py", "planted_bugs.sh"):
        shutil.copy(TOP / "tools" / name, place / "tools")
    (place / "crates.txt").write_text("# Crates.\none:\n")
    (crate / "src" / "lib.rt").write_text(source)
    (place / "bin" / "rt").write_text(RT.replace("PYTHON", sys.executable))
    (place / "bin" / "rt").chmod(0o755)
    for name, (text, _) in edits.items():
        (crate / "planted-bugs" / f"{name}.edit").write_text(text)
    return place


def tried(place: pathlib.Path, words: Sequence[str]) -> Run:
    path = f"{place / 'bin'}{os.pathsep}{os.environ['PATH']}"
    return run([place / "tools" / "planted_bugs.sh", *words], environment={"PATH": path, "TMPDIR": str(place / "scratch")})


def check_tool(tally: Tally, name: str, source: str, edits: Edits, words: Sequence[str] = ("one",)) -> None:
    """That the tool says of each edit what it has to, counts them, and leaves no file."""
    with harness.folder() as scratch:
        place = written(pathlib.Path(scratch), source, edits)
        seen = tried(place, ["--jobs", "2", *words])
        lines = seen.out.decode().split("\n")
        for edit, (_, wanted) in edits.items():
            reported = [line for line in lines if line.startswith(f"one/{edit}.edit: ")]
            tally.check(f"{name}: {edit}", len(reported) == 1 and reported[0].startswith(f"one/{edit}.edit: {wanted}"), reported or seen)
        refused = sum(wanted.startswith("REFUSED") for _, wanted in edits.values())
        failed = len(edits) - refused
        tally.check(f"{name}: counts", lines[-2:] == [f"{refused} refused, {failed} failed", ""], lines[-2:])
        tally.check(f"{name}: status", seen.status == (failed > 0), seen)
        tally.check(f"{name}: nothing is left", not list((place / "scratch").iterdir()), list((place / "scratch").iterdir()))


def check_since(tally: Tally) -> None:
    """That the tool takes the crates that changed since a commit, by default the one before the last."""
    with harness.folder() as scratch:
        place = written(pathlib.Path(scratch), SOURCE, {})
        edit = place / "crates" / "one" / "planted-bugs" / "at-wrong.edit"
        git = ["git", "-C", place, "-c", "user.name=a", "-c", "user.email=a"]
        run([*git, "init", "--quiet"])
        for text in (None, EDITS["at-wrong"][0]):
            edit.write_text(text) if text else None
            run([*git, "add", "crates", "crates.txt", "tools"])
            run([*git, "commit", "--quiet", "--message", "edits"])
        cases: tuple[tuple[list[str], int], ...] = (([], 1), (["--since", "HEAD"], 0), (["--all"], 1))
        for words, wanted in cases:
            seen = tried(place, words)
            tally.check(f"since: {words}", seen.out.endswith(b"%d refused, 0 failed\n" % wanted) and seen.status == 0, seen)
        seen = tried(place, ["--since", "no-such-commit"])
        tally.check("since: a commit that is not there", seen.status not in (0, None) and b"no-such-commit" in seen.err, seen)
        seen = tried(place, ["two"])
        tally.check("a crate that is not there", seen.status not in (0, None) and b"two" in seen.err, seen)


def check_only(tally: Tally) -> None:
    """That --only takes the edits whose names have a word, and passes no word that none has."""
    with harness.folder() as scratch:
        place = written(pathlib.Path(scratch), SOURCE, EDITS)
        for word, wanted in (("wrong", 4), ("at-wrong", 1), ("low-is_wrong.edit", 1)):
            seen = tried(place, ["--only", word, "one"])
            reported = [line.partition(".edit: ")[0] for line in seen.out.decode().split("\n") if ".edit: " in line]
            names = [f"one/{name}" for name in EDITS if word in f"{name}.edit"]
            tally.check(f"only: {word}", sorted(reported) == sorted(names) and len(names) == wanted, seen)
            tally.check(f"only: {word}: status", seen.status == (word == "wrong"), seen)
        for words in (["--only", "no-such-word", "one"], ["--only", "no-such-word", "--all"]):
            seen = tried(place, words)
            tally.check(f"only: no edit {words[2]}", seen.status not in (0, None) and b"no-such-word" in seen.err, seen)


def check_edits(tally: Tally) -> None:
    """The planted bugs of the repository."""
    crates = sorted(it.parent for it in (TOP / "crates").glob("*/src"))
    of_gate = {crate.name: len(list((crate / "must-fail").glob("*.edit"))) for crate in crates}
    for crate in crates:
        faults = []
        for path in sorted(it for kind in KINDS for it in (crate / kind).glob("*")):
            try:
                if path.suffix != ".edit":
                    raise BadEdit("its name does not end in .edit")
                read_edit(path, crate)
            except BadEdit as why:
                faults.append(f"{path.relative_to(TOP)}: {why}")
        tally.check(f"the planted bugs of {crate.name} apply", not faults, "; ".join(faults))
        both = [{it.name: it.read_text() for it in (crate / kind).glob("*.edit")} for kind in KINDS]
        twice = both[0].keys() & both[1].keys() or set(both[0].values()) & set(both[1].values())
        tally.check(f"no planted bug of {crate.name} stands in both folders", not twice, twice)
    many = {name: count for name, count in of_gate.items() if count > MOST_OF_A_CRATE}
    tally.check(f"the gate tries at most {MOST_OF_A_CRATE} planted bugs of a crate", not many, many)
    tally.check(f"the gate tries at most {MOST} planted bugs", 0 < sum(of_gate.values()) <= MOST, sum(of_gate.values()))
    tally.check("the gate tries none of the program", of_gate["bddcheck"] == 0, of_gate["bddcheck"])


def main() -> None:
    tally = Tally("edits")
    check_edits(tally)
    check_tool(tally, "each kind", SOURCE, EDITS)
    check_tool(tally, "a caller", SOURCE, CALLERS)
    check_tool(tally, "all refused", SOURCE, {name: EDITS[name] for name in ("at-wrong", "fmt-wrong")})
    unproved = {"at-wrong": (EDITS["at-wrong"][0], "NOT TRIED: the crate itself is not proved")}
    check_tool(tally, "a crate that is not proved", SOURCE.replace("u8 = 1", "u8 = WRONG"), unproved)
    check_since(tally)
    check_only(tally)
    tally.finish()


if __name__ == "__main__":
    harness.ended(main)
