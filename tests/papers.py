#!/usr/bin/env python3
"""That the documents fit together and fit the code.

The program's own help fits 80 columns, has a line for each order, and names, like the manual page, the completions and the README, the
options and orders of the parser. docs/DEFINITIONS.md has the definitions that public contracts cite. Each link of each document leads to
a file and a heading that are there, and each path in a code span is there. Each picture is what its script draws. Each crate is in
docs/ARCHITECTURE.md, and a page about the code names nothing that the code does not have. Each term in italics is in docs/GLOSSARY.md.
Each run that the README shows prints the lines below it. The README names the logic of the kit that is here. No document has a word that
the project has given up, or a place that is still to be filled.

usage: tests/papers.py PROGRAM
"""
from __future__ import annotations

import pathlib
import re
import shlex
import shutil
import sys
from collections.abc import Iterator

import decisions
import pages
from harness import TOP, Tally, folder, program_of, run

sys.path.append(str(TOP / "tools"))
import crates_txt  # noqa: E402

# The logic of the kits in the README's line, as `Proved with kits 1a and 1b of the logic 0123abcd.`, and in the line of `rt version`, as
# `rattle-kit-1a logic 0123abcd`. Kits of one logic accept the same proofs, so their own names are not compared.
LOGIC_NAMED = re.compile(r"^`?Proved with kits? \w+(?:, \w+)*(?: and \w+)? of the logic `?(\w+)`?\.`?$", re.M)
LOGIC_HERE = re.compile(r"^\S+ logic (\w+)$", re.M)

# Where the parser has its options and orders.
ARGUMENTS = TOP / "crates" / "command_line" / "src" / "arguments.rt"

# A picture, and the words that print it on standard output.
DRAWN = {
    "docs/crates.svg": ["tools/picture.py"],
    "docs/lanes.svg": ["tools/lanes.py"],
    "docs/wave.svg": ["tools/wave.py"],
}
# Scripts that write all their pictures, which belong in docs/, into the folder that they are given.
DRAW_TOGETHER = ["bench/plots.py"]

# Words that this project no longer uses for what they are named after, and what to write instead. Only those that hardly mean anything
# else are here; they are looked for in prose, not in code.
GIVEN_UP = {
    r"(?:is|are|was|were|be|been) told(?! (?:apart|from)\b)|tells? (?!\w+ apart|apart)": "reports, prints, says, knows",
    r"wrong bod(?:y|ies)": "planted bug",
    r"behind": "after, below",
    r"to and fro": "in serpentine order",
    r"complement marks?": "complement bit, complement edge",
    r"stands(?! for\b| in (?:the|its|their) way\b)": "is",
    r"(?:doors?|stairs)": "the plain word",
}

# A path in a code span: of a folder of the repository, or of a crate.
PATH = re.compile(r"(?:\.ci|tools|tests|docs|bench|examples|crates)/[\w./-]+")
IN_A_CRATE = re.compile(r"(\w+)/(?:src|specs|proofs|planted-bugs|must-fail)\b[\w./-]*")
# What is there only after a build, and capitals in place of a name.
PASSED_OVER = re.compile(r"/out/|/out$|(?:^|/)[A-Z]+(?:/|$|\.(?!md))")

ABOUT_THE_CODE = ("docs/ARCHITECTURE.md", "docs/PROVED.md", "docs/DEFINITIONS.md", "docs/CALLING.md", "docs/GLOSSARY.md")
# Programs of others that such a page may name.
OF_OTHERS = {"perf"}
TERMS_ARE_IN = ("README.md", "docs/ARCHITECTURE.md", "docs/DEFINITIONS.md")


def options_in(text: str) -> set[str]:
    return set(re.findall(r"--[a-z][a-z-]*", text))


def check_options(tally: Tally, program: str, readme: str) -> None:
    helped = run([program, "--help"])
    wanted = options_in(helped.out.decode())
    tally.check("help names options", len(wanted) > 5, helped)
    wide = [line for line in helped.out.decode().splitlines() if len(line) > 80]
    tally.check("help fits 80 columns", not wide, wide)
    known = {"--" + name for name in re.findall(r'\.long\("([a-z-]+)"\)', ARGUMENTS.read_text())} | {"--help", "--version"}
    tally.check("help has the options of the parser", wanted == known, wanted ^ known)
    orders = re.findall(r'"([a-z-]+)"', ARGUMENTS.read_text().split("static ORDERS", 1)[1].split("];", 1)[0])
    has_lines = [order for order in orders if re.search(rf"^    {order} {{2,}}\S", helped.out.decode(), re.M)]
    tally.check("help has a line for each order", orders and has_lines == orders, set(orders) ^ set(has_lines))
    manual = (TOP / "docs" / "bddcheck.1").read_text().replace("\\-", "-")
    completions = TOP / "tools" / "completions"
    fish = (completions / "bddcheck.fish").read_text()
    papers = {
        "the manual page": options_in(manual),
        "bash": options_in((completions / "bddcheck.bash").read_text()),
        "zsh": options_in((completions / "_bddcheck").read_text()),
        "fish": {"--" + name for name in re.findall(r" -l ([a-z-]+)", fish)},
    }
    for name, options in papers.items():
        tally.check(f"{name} has the options of --help", options == wanted, options ^ wanted)
    missing = wanted - options_in(readme) - {"--help"}
    tally.check("the README has the options of --help", not missing, missing)


def check_orders(tally: Tally, program: str) -> None:
    """The values of --order are those of the parser, and the help has a line for each."""
    found = re.search(r"ORDERS: \[&str; \d+\] = \[(.*?)\]", ARGUMENTS.read_text(), re.S)
    orders = set(re.findall(r'"([\w-]+)"', found[1])) if found else set()
    tally.check("the parser has orders", len(orders) > 1)
    helped = run([program, "--help"]).out.decode()
    lined = {order for order in orders if re.search(rf"^    {order} {{2,}}\S", helped, re.M)}
    tally.check("help has a line for each order", lined == orders, orders - lined)
    files = ["README.md", "docs/ORDERS.md", "docs/bddcheck.1", "docs/report.schema.json"]
    for name in files + [f"tools/completions/{shell}" for shell in ("bddcheck.bash", "_bddcheck", "bddcheck.fish")]:
        missing = orders - set(re.findall(r"[\w-]+", (TOP / name).read_text().replace("\\-", "-")))
        tally.check(f"{name} has the orders of the parser", not missing, missing)


def completed(words: list[str]) -> list[bytes]:
    """What bash completes the last of these words to."""
    script = TOP / "tools" / "completions" / "bddcheck.bash"
    steps = [
        f"source {shlex.quote(str(script))}",
        f"COMP_WORDS=({shlex.join(['bddcheck', *words])})",
        f"COMP_CWORD={len(words)}",
        "_bddcheck",
        "printf '%s ' \"${COMPREPLY[@]}\"",
    ]
    return run(["bash", "-c", "; ".join(steps)]).out.split()


def check_completions(tally: Tally) -> None:
    """A value is completed after `--order ` as after `--order=`, of which bash makes two words and zsh one."""
    if shutil.which("bash"):
        orders = completed(["--order", ""])
        tally.check("bash completes the values of --order", b"auto" in orders and b"declared" in orders, orders)
        for words in (["--order", "="], ["--order", "=", ""]):
            found = completed(words)
            tally.check(f"bash completes {''.join(words)}", found == orders, found)
        found = completed(["--order", "=", "de"])
        tally.check("bash completes --order=de", found and all(order.startswith(b"de") for order in found), found)
    else:
        tally.skip("there is no `bash`, so its completion was not tried")
    text = (TOP / "tools" / "completions" / "_bddcheck").read_text()
    valued = re.findall(r"--[a-z-]+(=?)\[[^]]*\]:", text)
    tally.check("zsh completes values after =", valued and all(valued), text)


def check_kit(tally: Tally, readme: str) -> None:
    named = LOGIC_NAMED.findall(readme)
    tally.check("the README has one line that names kits and their logic", len(named) == 1, named)
    if shutil.which("rt"):
        kit = run(["rt", "version"])
        tally.check("the README names the logic that `rt version` prints", LOGIC_HERE.findall(kit.out.decode()) == named, kit)
    else:
        tally.skip("there is no `rt`, so the logic that the README names was not compared")


def drawn_pictures(tally: Tally) -> dict[str, bytes]:
    """What the scripts draw, by the path that it has in the repository."""
    drawn = {}
    for name, (script, *words) in DRAWN.items():
        seen = run([sys.executable, TOP / script, *words], seconds=600)
        tally.check(f"{script} draws", seen.status == 0, seen)
        drawn[name] = seen.out
    for script in DRAW_TOGETHER:
        with folder() as place:
            seen = run([sys.executable, TOP / script, place], seconds=600)
            pictures = sorted(pathlib.Path(place).iterdir())
            tally.check(f"{script} draws", seen.status == 0 and pictures, seen)
            drawn |= {f"docs/{path.name}": path.read_bytes() for path in pictures}
    return drawn


def check_pictures(tally: Tally) -> None:
    """Each picture is what its script draws, and none is missing."""
    drawn = drawn_pictures(tally)
    there = {str(path.relative_to(TOP)) for path in (TOP / "docs").rglob("*.svg")}
    for name in sorted(drawn.keys() | there):
        is_drawn = name in drawn and name in there and (TOP / name).read_bytes() == drawn[name]
        tally.check(f"{name} is there, and is what a script draws", is_drawn)


def broken_link(page: pathlib.Path, target: str) -> str | None:
    """Why a link of a page leads nowhere; None if it does not."""
    if re.match(r"[a-z]+:", target):
        return None
    path, _, heading = target.partition("#")
    goal = (page.parent / path).resolve() if path else page
    if not goal.is_relative_to(TOP) or not goal.exists():
        return f"{target}: no such file"
    if heading and goal.suffix == ".md" and heading not in pages.anchors(goal.read_text()):
        return f"{target}: no such heading"
    return None


def paths_in(text: str, names: set[str]) -> Iterator[tuple[str, pathlib.Path]]:
    """The paths of the repository that code spans name, as they are written there, with where they would be."""
    for word in (word for span in pages.spans(text) for word in span.split()):
        word = re.sub(r":\d+$|[.,;:]$", "", word)
        if PASSED_OVER.search(word):
            continue
        if PATH.fullmatch(word):
            yield word, TOP / word
        elif (found := IN_A_CRATE.fullmatch(word)) and found[1] in names:
            yield word, TOP / "crates" / word


def check_links(tally: Tally, texts: dict[pathlib.Path, str]) -> None:
    names = set(crates_txt.named())
    for page, text in texts.items():
        name = page.relative_to(TOP)
        broken = [why for target in pages.links(text) if (why := broken_link(page, target))]
        tally.check(f"{name}: each link leads somewhere", not broken, broken)
        absent = sorted(
            {word for word, path in paths_in(text, names) if not path.exists() and not path.with_name(path.name + ".antt").exists()}
        )
        tally.check(f"{name}: each path in a code span is there", not absent, absent)


def check_crates(tally: Tally, texts: dict[pathlib.Path, str]) -> None:
    names = set(crates_txt.named())
    told = set(pages.spans((TOP / "docs" / "ARCHITECTURE.md").read_text()))
    tally.check("docs/ARCHITECTURE.md names each crate", names <= told, names - told)
    for page, text in texts.items():
        for head, rows in pages.tables(text):
            if head[0].strip("` ").lower() in ("crate", "crates"):
                others = {span for row in rows for span in pages.spans(row[0])} - names
                tally.check(f"{page.relative_to(TOP)}: a table's crates are crates", not others, others)


def words_of_the_code() -> set[str]:
    """All identifiers of the sources, the definitions, the proofs, the planted bugs and the scripts."""
    files = [path for name in ("crates", "tools", "tests", "bench") for path in (TOP / name).rglob("*")]
    kinds = {".rt", ".antt", ".edit", ".py", ".sh", ".txt"}
    read = [path for path in files if path.suffix in kinds and "out" not in path.parts]
    return {word for path in [*read, TOP / "crates.txt"] for word in re.findall(r"\w+", path.read_text(errors="replace"))}


def check_names(tally: Tally, texts: dict[pathlib.Path, str]) -> None:
    """Each name of the code in a page about the code, as `build` or `net_bench::parse_bench`, is in the code."""
    known = words_of_the_code()
    for page, text in texts.items():
        name = str(page.relative_to(TOP))
        if name.startswith("docs/decisions/") or name in ABOUT_THE_CODE:
            spans = [span for span in pages.spans(text) if re.fullmatch(r"[A-Za-z_]\w*(?:::\w+)*", span)]
            unknown = {word for span in spans for word in span.split("::")} - known - OF_OTHERS
            tally.check(f"{name}: each name of the code is in the code", not unknown, unknown)


def check_terms(tally: Tally) -> None:
    glossary = TOP / "docs" / "GLOSSARY.md"
    if not tally.check("docs/GLOSSARY.md is there", glossary.exists()):
        return
    terms = [pages.root(term) for term in pages.terms_in_bold(glossary.read_text())]
    twice = {term for term in terms if terms.count(term) > 1}
    tally.check("docs/GLOSSARY.md has each term once", not twice, twice)
    for name in TERMS_ARE_IN:
        missing = {term for term in pages.terms_in_italics((TOP / name).read_text()) if pages.root(term) not in terms}
        tally.check(f"{name}: its terms in italics are in docs/GLOSSARY.md", not missing, missing)


def check_words(tally: Tally, texts: dict[pathlib.Path, str]) -> None:
    for page, text in texts.items():
        name, plain = page.relative_to(TOP), " ".join(pages.prose(text).split())
        for word, instead in GIVEN_UP.items():
            found = [plain[max(0, at.start() - 30) : at.end() + 30] for at in re.finditer(rf"\b{word}\b", plain, re.I)]
            tally.check(f"{name}: write {instead}", not found, found)
        open_places = re.findall(r"@@.{0,40}", text)
        tally.check(f"{name}: no place is still to be filled", not open_places, open_places)


def check_runs(tally: Tally, program: str, readme: str) -> None:
    for shown in pages.runs(readme, "tools/bddcheck.sh"):
        seen = run([program, *shlex.split(shown.words)], cwd=TOP)
        tally.check(f"the README's run of {shown.words} prints what it shows", shown.is_of(seen.out.decode()), seen)


def main() -> None:
    program, tally = program_of(__doc__), Tally("papers")
    readme = (TOP / "README.md").read_text()
    texts = {page: page.read_text() for page in pages.all_pages()}
    check_options(tally, program, readme)
    check_orders(tally, program)
    check_completions(tally)
    compared = run([sys.executable, TOP / "tools" / "definitions.py"], seconds=600)
    tally.check("docs/DEFINITIONS.md has what public contracts cite", compared.status == 0, compared)
    cited = run([sys.executable, TOP / "tools" / "proved.py"], seconds=600)
    tally.check("the contracts have each clause that docs/PROVED.md and docs/TESTING.md name", cited.status == 0, cited)
    check_pictures(tally)
    check_links(tally, texts)
    check_crates(tally, texts)
    check_names(tally, texts)
    check_terms(tally)
    decisions.check_decisions(tally)
    check_words(tally, texts)
    check_runs(tally, program, readme)
    check_kit(tally, readme)
    tally.finish()


if __name__ == "__main__":
    main()
