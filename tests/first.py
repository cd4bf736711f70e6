#!/usr/bin/env python3
"""That a tree in which nothing is built answers as the built program does, and says that it is not proved.

usage: tests/first.py PROGRAM

tools/bddcheck.sh is called in a copy of the tree without out/, while the locks of a build are held: on two files, on standard input by a
slow writer, on a pipe and a refused file outside of the tree, and on an unknown option. Status, output and errors must be those of
PROGRAM, with two lines on standard error before them. Each of these calls compiles the program, so two run side by side. --help and
--version are answered from the texts of the sources, at once and without these lines. Then come calls that give no answer, and must end
with status 4 and one line that says why. The part is skipped if there is no `rt`.
"""
from __future__ import annotations

import contextlib
import fcntl
import os
import pathlib
import re
import resource
import shutil
import sys
from collections.abc import Iterator
from concurrent.futures import ThreadPoolExecutor

import harness
from harness import C17, C17B, TOP, Run, Tally, run, written

sys.path.append(str(TOP / "tools"))
import unproved  # noqa: E402

# A call compiles the program, beside other work perhaps.
SECONDS = 1200


def copied(place: pathlib.Path) -> pathlib.Path:
    """A copy of what the script needs, without what was built."""
    copy = place / "a tree"
    left = shutil.ignore_patterns("out", "__pycache__")
    for name in ("crates", "tools", "examples"):
        shutil.copytree(TOP / name, copy / name, ignore=left)
    for name in ("crates.txt", "HANDLES"):
        shutil.copy(TOP / name, copy)
    return copy


@contextlib.contextmanager
def locked(copy: pathlib.Path) -> Iterator[None]:
    """Holds the locks that tools/build.py and `rt` hold during a build."""
    held = [os.open(path, os.O_RDONLY) for path in [copy / "crates.txt", *(copy / "crates").iterdir()]]
    for number in held:
        fcntl.flock(number, fcntl.LOCK_EX)
    yield
    for number in held:
        os.close(number)


@contextlib.contextmanager
def piped(text: bytes) -> Iterator[int]:
    """The number of a pipe from which a text can be read, as a shell gives it for <(..)."""
    out, into = os.pipe()
    os.write(into, text)
    os.close(into)
    yield out
    os.close(out)


def by_files(program: str | pathlib.Path, copy: pathlib.Path) -> Run:
    return run([program, "examples/c17.bench", "examples/c17b.bench"], seconds=SECONDS, cwd=copy)


def by_input(program: str | pathlib.Path, copy: pathlib.Path) -> Run:
    """Both texts on standard input, the second of them some seconds later."""
    shell = 'cat examples/c17.bench; sleep 4; echo %%; cat "examples/c17_of_four.bench"'
    return run(["sh", "-c", f'({shell}) | "$0" --match name', program], seconds=SECONDS, cwd=copy)


def refused(program: str | pathlib.Path, copy: pathlib.Path) -> Run:
    with piped(C17) as number:
        words = ["--verbose", f"--given=/dev/fd/{number}", "examples/c17.bench", "../outside of it/refused.bench"]
        return run([program, *words], seconds=SECONDS, cwd=copy, pass_fds=[number])


def no_option(program: str | pathlib.Path, copy: pathlib.Path) -> Run:
    return run([program, "--ordr", "best", "examples/c17.bench", "examples/c17b.bench"], seconds=SECONDS, cwd=copy)


CASES = {
    "two files": (by_files, 1),
    "standard input": (by_input, 1),
    "a pipe, and a refused file outside of the tree": (refused, 2),
    "an option that there is not": (no_option, 2),
}
ANNOUNCED = re.compile(rb"bddcheck\.sh: .* before their proof, .*\nbddcheck\.sh: tools/build\.py proves and builds the program, .*\n")


def answers(tally: Tally, program: str | pathlib.Path, script: pathlib.Path, copy: pathlib.Path) -> None:
    """Compares what both say."""
    with ThreadPoolExecutor(2) as pool, locked(copy):
        asked = {name: pool.submit(case, script, copy) for name, (case, _) in CASES.items()}
        for name, (case, status) in CASES.items():
            wanted, seen = case(program, copy), asked[name].result()
            tally.check(f"{name}: the program's status", wanted.status == status, wanted)
            announced = ANNOUNCED.match(seen.err)
            said = seen.err[announced.end() :] if announced else seen.err
            tally.check(f"{name}: two lines say that it is not proved", announced, seen)
            tally.same(name, Run(seen.status, seen.out, said), wanted.status, wanted.out, wanted.err)


def texts(tally: Tally, program: str | pathlib.Path, script: pathlib.Path) -> None:
    """That --help and --version, whose texts are read in the sources, print what the program prints, without a run of the sources."""
    for word in unproved.ASKING:
        wanted = run([program, word])
        tally.check(f"{word}: the program prints it", wanted.status == 0 and wanted.out and not wanted.err, wanted)
        tally.same(word, run([script, word]), wanted.status, wanted.out, wanted.err)
        tally.check(f"{word}: its text is in the sources", unproved.text_asked_for([word]) == wanted.out)
        with open("/dev/full", "wb") as full:
            wanted = run([program, word], stdout=full)
            tally.same(f"{word} on a full device", run([script, word], stdout=full), wanted.status, wanted.out, wanted.err)


def no_answer(tally: Tally, name: str, seen: Run, has: str, lines: int | None = 1) -> None:
    """That there is no answer, and so many lines say why, the last of which has this."""
    said = seen.err.decode(errors="replace").splitlines()
    right = seen.status == 4 and not seen.out and (lines is None or len(said) == lines)
    tally.check(name, right and said and said[-1].startswith("bddcheck.sh: ") and has in seen.err.decode(errors="replace"), seen)


def without_answers(tally: Tally, script: pathlib.Path, copy: pathlib.Path, place: pathlib.Path) -> None:
    c17, c17b = copy / "examples" / "c17.bench", copy / "examples" / "c17b.bench"
    vcd = place / "made.vcd"
    no_answer(tally, "a file to write", run([script, "--vcd", vcd, c17, c17b]), "tools/build.py")
    no_answer(tally, "a file to write, and what makes it here", run([script, "--vcd", vcd, c17, c17b]), "tools/vcd.py")
    tally.check("no file is made", not vcd.exists())

    few = place / "few"
    few.mkdir()
    for name in ("sh", "dirname", "readlink", "find", "head", "python3"):
        (few / name).symlink_to(shutil.which(name) or name)
    no_answer(tally, "no rt", run([script, c17, c17b], environment={"PATH": str(few)}), "release archive")
    no_answer(tally, "an argument that is not UTF-8", run([script, b"\xff".decode(errors="surrogateescape"), c17]), "UTF-8")

    small = run([script], C17 + b"%%\n" + C17B, preexec_fn=lambda: resource.setrlimit(resource.RLIMIT_FSIZE, (100, 100)))
    no_answer(tally, "files that cannot be written", small, "temporary files")

    source = copy / "crates" / "bddcheck" / "src" / "main.rt"
    source.write_text(source.read_text() + "fn no_end( {\n")
    seen = run([script, c17, c17b], seconds=SECONDS)
    no_answer(tally, "a tree that does not compile", seen, "src/main.rt", lines=None)


def options(tally: Tally, program: str | pathlib.Path) -> None:
    """That the script knows the options that take a value, those of files among them."""
    helped = run([program, "--help"]).out.decode()
    valued = set(re.findall(r"^  (--[a-z-]+) [A-Z]", helped, re.M))
    tally.check("the options that take a value", valued == set(unproved.VALUED), valued ^ set(unproved.VALUED))
    files = set(re.findall(r"^  (--[a-z-]+) (?:F|FILE) ", helped, re.M)) - {"--vcd"}
    tally.check("the options that name a file to read", files == set(unproved.READ), files)


def main() -> None:
    tally = Tally("first")
    program = os.path.abspath(harness.program_of(__doc__))
    options(tally, program)
    if shutil.which("rt"):
        with harness.folder() as name:
            place = pathlib.Path(name)
            copy = copied(place)
            script = copy / "tools" / "bddcheck.sh"
            (place / "outside of it").mkdir()
            written(place / "outside of it", "refused.bench", C17 + b"x = INV(1)\n")
            answers(tally, program, script, copy)
            texts(tally, program, script)
            without_answers(tally, script, copy, place)
    else:
        tally.skip("there is no `rt`, so no answer of the unproved sources was tried")
    tally.finish()


if __name__ == "__main__":
    harness.ended(main)
