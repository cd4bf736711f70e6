#!/usr/bin/env python3
"""Installs into a temporary folder, by tools/install.sh of this tree and then by the script as it is in a release, and follows what the
installed texts name: each link and each path in a code span of a document, each document that the manual page, the help and the
remedies of the program name, and each command. Then each installed command is run.

usage: tests/shipped.py PROGRAM
"""
from __future__ import annotations

import filecmp
import pathlib
import re
import shutil
import subprocess

import pages
from harness import TOP, Tally, folder, program_of, run, written

# A path that a document of the installation names: of the folders that the repository has.
PATH = re.compile(r"(?:tools|tests|docs|bench|examples|crates)/[\w./-]+")
COMMAND = re.compile(r"\b(?:bddcheck(?:-\w+)?|rtl2bench|rtlcheck)\b")
# What a document says of the repository, and not of what is installed, begins so.
OF_A_CLONE = re.compile(r"In a clone\b.*?\.(?=[\s)]|$)", re.S)


def files_below(place: pathlib.Path) -> list[pathlib.Path]:
    return sorted(path.relative_to(place) for path in place.rglob("*") if not path.is_dir())


def check_installing(tally: Tally, program: str, place: pathlib.Path) -> pathlib.Path:
    """The two ways to install leave the same files. What the second leaves is followed."""
    first, second = place / "first", place / "second"
    seen = run([TOP / "tools" / "install.sh", first], environment={"BDDCHECK": program, "DESTDIR": ""})
    tally.check("install.sh", seen.status == 0 and not seen.err, seen)
    named = sorted(pathlib.Path(line).relative_to(first) for line in seen.out.decode().splitlines())
    tally.check("install.sh names each file that it installs", named == files_below(first), set(named) ^ set(files_below(first)))
    release = place / "release"
    shutil.copytree(first, release, symlinks=True)
    shutil.copy(TOP / "tools" / "install.sh", release)
    seen = run([release / "install.sh", "/second"], environment={"DESTDIR": str(place)})
    tally.check("install.sh of a release", seen.status == 0 and not seen.err, seen)
    same = files_below(first) == files_below(second) and all(filecmp.cmp(first / name, second / name, False) for name in files_below(first))
    tally.check("a release installs the same", same)
    refused: list[list[object]] = [[], ["--help"], [place / "one", place / "two"]]
    for words in refused:
        seen = run([release / "install.sh", *words])
        tally.check(f"install.sh with the words {words} installs nothing", seen.status == 2 and not (place / "one").exists(), seen)
    return second


def check_documents(tally: Tally, prefix: pathlib.Path) -> None:
    """What the installed documents name is installed."""
    top = prefix / "share" / "doc" / "bddcheck"
    commands = {path.name for path in (prefix / "bin").iterdir()}
    for page in sorted(top.rglob("*.md")):
        name, text = page.relative_to(top), OF_A_CLONE.sub("", page.read_text())
        for target in pages.links(text):
            path = (page.parent / target.partition("#")[0]).resolve()
            is_there = re.match(r"[a-z]+:", target) or path.is_relative_to(top) and path.exists()
            tally.check(f"{name}: the link {target}", is_there)
        for word in {word for span in pages.spans(text) for word in span.split() if PATH.fullmatch(word)}:
            tally.check(f"{name}: the path {word}", (top / word).exists())
        called = set(COMMAND.findall(text))
        tally.check(f"{name}: its commands", called <= commands, called - commands)


def check_texts(tally: Tally, prefix: pathlib.Path, program: str, place: pathlib.Path) -> None:
    """The documents that the manual page and the program name are installed, with the scripts' own words."""
    there = {path.name for path in (prefix / "share" / "doc" / "bddcheck").rglob("*") if path.is_file()}
    texts = {"the manual page": (prefix / "share" / "man" / "man1" / "bddcheck.1").read_text().replace("\\-", "-")}
    for command in ("bddcheck", "rtl2bench", "rtlcheck", "bddcheck-join", "bddcheck-vcd", "bddcheck-page"):
        words = [command, "--help"]
        seen = run([prefix / "bin" / words[0], *words[1:]])
        tally.check(f"{' '.join(words)}", seen.status == 0 and seen.out, seen)
        texts[" ".join(words)] = seen.out.decode()
    wrong = written(place, "wrong.bench", b"INPUT(a)\nOUTPUT(o)\no = LUT 0x8 (a)\n")
    refused = run([program, "--verbose", wrong, wrong])
    texts["a remedy"] = refused.err.decode()
    for name, text in texts.items():
        named = set(re.findall(r"\b[A-Z]+\.md\b|\breport\.\w+\.json\b", text))
        tally.check(f"{name}: the documents that it names are installed", named <= there, named - there)
        absent = set(re.findall(r"(?<![\w/.-])(?:tools|tests)/[\w./-]+", text))
        tally.check(f"{name} names no script of the repository", not absent, absent)


def check_commands(tally: Tally, prefix: pathlib.Path) -> None:
    """Each command does its work from its place in the installation, on the installed examples."""
    examples = prefix / "share" / "doc" / "bddcheck" / "examples"
    golden, revised = examples / "c17.bench", examples / "c17b.bench"
    whole = run([prefix / "bin" / "bddcheck", golden, revised])
    tally.check("bddcheck on installed examples", whole.status == 1 and whole.out.count(b"DIFFER") == 1, whole)
    with folder() as place:
        shares = []
        for number in (1, 2):
            share = run([prefix / "bin" / "bddcheck", "--share", f"{number}/2", golden, revised])
            shares.append(written(place, f"share.{number}", share.out))
        joined = run([prefix / "bin" / "bddcheck-join", golden, *shares])
        tally.check("bddcheck-join", joined.status == 1 and joined.out == whole.out, joined)
        made = run([prefix / "bin" / "bddcheck-vcd", golden, revised], whole.out)
        tally.check("bddcheck-vcd", made.status == 0 and made.out.startswith(b"$"), made)
        page = pathlib.Path(place) / "page.html"
        reported = run([prefix / "bin" / "bddcheck", "--format", "json", golden, revised])
        report = written(place, "report.json", reported.out)
        made = run([prefix / "bin" / "bddcheck-page", report, "-o", page, "--first", golden, "--second", revised, "--most", "0"])
        is_made = made.status == 0 and page.exists() and page.read_bytes().startswith(b"<!doctype html>")
        tally.check("bddcheck-page", is_made, made)
        if shutil.which("yosys"):
            out = pathlib.Path(place) / "adder.bench"
            seen = run([prefix / "bin" / "rtl2bench", examples / "verilog" / "adder.v", "-o", out])
            tally.check("rtl2bench", seen.status == 0 and out.exists(), seen)
            verilog = examples / "verilog"
            seen = run([prefix / "bin" / "rtlcheck", "-g", verilog / "adder.v", "-r", verilog / "adder_select.v"])
            tally.check("rtlcheck", seen.status == 0 and b"6 equal, 0 different" in seen.out, seen)
        else:
            tally.skip("yosys is not installed (Debian: yosys), so rtl2bench and rtlcheck were not run")
        if shutil.which("man"):
            manual = str(prefix / "share" / "man" / "man1" / "bddcheck.1")
            shown = subprocess.run(["man", "-l", manual], capture_output=True, env={"MANPAGER": "cat", "PATH": "/usr/bin:/bin"})
            tally.check("man", shown.returncode == 0 and b"EXIT STATUS" in shown.stdout, shown.stderr)
        else:
            tally.skip("man is not installed (Debian: man-db), so the manual page was not shown")


def main() -> None:
    tally, program = Tally("shipped"), str(pathlib.Path(program_of(__doc__)).resolve())
    with folder() as name:
        place = pathlib.Path(name).resolve()
        prefix = check_installing(tally, program, place)
        check_documents(tally, prefix)
        check_texts(tally, prefix, program, place)
        check_commands(tally, prefix)
    tally.finish()


if __name__ == "__main__":
    main()
