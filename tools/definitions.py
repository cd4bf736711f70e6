#!/usr/bin/env python3
"""Compares docs/DEFINITIONS.md with the definitions that public contracts cite.

A public contract is one of a function that users of a crate can call: a `pub fn` of a public module, one that `lib.rt` exports by
name, or a method of a type that it exports; each function of such a trait; and each `pub fn` of a program. A definition is a name
that a clause of it takes from the `specs/` of a crate of this repository.

The page has a section for each crate, in it a bold line for each file of `specs/`, and below that one item for each name:
"- `name`: what it is". The page has to have every definition that a public contract cites, that docs/PROVED.md names in parentheses, or
that docs/ARCHITECTURE.md or docs/CALLING.md names in a code span of its own, and no other, except those that a definition on the page is
made of.

Prints each mistake, and exits 1 if there is one: an item that does not explain exactly one name, a name that is explained twice, a
definition that is missing, one that its file does not have, and one that nothing asks for. With --uses it prints each cited definition
with the functions that cite it.
"""
from __future__ import annotations

import argparse
import re
import sys
from collections.abc import Iterator
from pathlib import Path
from typing import NamedTuple

import crates_txt
from crates_txt import TOP

CRATES = list(crates_txt.named())
PAGE = TOP / "docs" / "DEFINITIONS.md"
WORD = r"[A-Za-z_][A-Za-z_0-9']*"
# A name, and the file that defines it, below crates/.
Definition = tuple[str, str]
# By a module's path, with slashes, the names of it that public modules pass on.
Handed = dict[str, set[str]]


class Block(NamedTuple):
    """An `impl` of a type or a `pub trait`: its type, which the `impl` of a trait lacks, whether it is a trait, and its begin and end."""

    owner: str | None
    is_trait: bool
    begin: int
    end: int


def blank_comments(text: str) -> str:
    return re.sub(r"//[^\n]*", lambda m: " " * len(m.group()), text)


def closing(text: str, at: int) -> int:
    """The place after the brace that closes the one at `at`."""
    depth = 0
    for place in range(at, len(text)):
        depth += {"{": 1, "}": -1}.get(text[place], 0)
        if depth == 0:
            return place + 1
    sys.exit(f"definitions.py: a brace is not closed: {text[at:at + 60]!r}")


def names_in(group: str) -> Iterator[tuple[str, str]]:
    """`a, b as c` as pairs of a name and the name that it goes by."""
    for part in group.strip("{} \n").split(","):
        words = part.split(" as ")
        if part.strip():
            yield words[0].strip(), words[-1].strip()


def imports(text: str) -> dict[str, Definition]:
    """The definitions of this repository that a file brings in, by the names that they go by there."""
    found = {}
    for path, names in re.findall(r"ghost use Rattle\.([\w.]+?)\.(\{[^}]*\})", text):
        crate, *rest = path.split(".")
        if crate in CRATES and rest[:1] == ["specs"] and not {"declared", "contracts"} & set(rest):
            for name, alias in names_in(names):
                found[alias] = (name, f"{crate}/specs/{'/'.join(rest[1:])}.antt")
    return found


def used(text: str) -> Iterator[tuple[str, str]]:
    """The items that `pub use` lines make public: pairs of a module's path and a name."""
    for path, names in re.findall(r"pub use ((?:\w+::)*\w+)(?:::(\{[^}]*\}))?;", text):
        if names:
            yield from ((path, name) for name, _ in names_in(names))
        else:
            module, _, name = path.rpartition("::")
            yield module, name


class Module:
    """A module of a crate: its text, whether all its public items can be reached, and which others by name."""

    def __init__(self, crate: str, path: list[str], source: Path, is_public: bool, handed: Handed) -> None:
        self.crate, self.path, self.source = crate, path, source
        self.is_public, self.handed = is_public, handed
        self.text = blank_comments(source.read_text())


def modules(crate: str) -> list[Module]:
    root = TOP / "crates" / crate / "src" / "lib.rt"
    is_program = not root.exists()
    if is_program:
        root = root.with_name("main.rt")
    handed: Handed = {}
    found = []

    def visit(path: list[str], source: Path, is_public: bool) -> None:
        module = Module(crate, path, source, is_public, handed)
        found.append(module)
        for where, name in used(module.text):
            if is_public:
                parts = [p for p in where.split("::") if p not in ("crate", "self")]
                prefix = [] if where.startswith("crate") else path
                handed.setdefault("/".join(prefix + parts), set()).add(name)
        folder = source.parent if source.stem in ("lib", "main") else source.parent / source.stem
        for visible, name in re.findall(r"^(pub )?mod (\w+);", module.text, re.M):
            child = folder / f"{name}.rt"
            if child.exists() and name != "tests":
                visit(path + [name], child, is_public and (is_program or bool(visible)))

    visit([], root, True)
    return found


def clauses(text: str, at: int) -> Iterator[str]:
    """The clauses of the function that begins at `at`: everything between its name and its body."""
    while True:
        brace = text.find("{", at)
        end = text.find(";", at)
        word = re.search(r"(requires|ensures|ghost)\b[^{;]*$", text[at:brace])
        if 0 <= end < brace and not word:
            return
        if not word:
            return
        stop = closing(text, brace)
        yield text[brace:stop]
        at = stop


def word_in(text: str, pattern: str) -> str:
    """The group of a pattern that the text has."""
    found = re.search(pattern, text)
    if not found:
        sys.exit(f"definitions.py: there is no name in {text[:60]!r}")
    return found[1]


def blocks(text: str) -> Iterator[Block]:
    """Each `impl` of a type and each `pub trait`."""
    for match in re.finditer(r"^(impl\b[^{;]*|pub trait\b[^{;]*)\{", text, re.M):
        head = match.group(1)
        stop = closing(text, match.end() - 1)
        if head.startswith("pub trait"):
            yield Block(word_in(head, r"trait (\w+)"), True, match.end(), stop)
        else:
            target = re.sub(r"^impl\s*(<(?:[^<>]|<[^<>]*>)*>)?", "", head)
            is_trait = " for " in target
            name = word_in(target.split(" for ")[-1].strip().lstrip("&"), f"({WORD})")
            yield Block(None if is_trait else name, False, match.end(), stop)


def functions(module: Module) -> Iterator[tuple[str, list[str]]]:
    """The public functions of a module: their names and the texts of their clauses."""
    names = module.handed.get("/".join(module.path), set())
    types = set().union(*module.handed.values())
    spans = list(blocks(module.text))
    for match in re.finditer(r"^( *)(pub )?(?:const )?fn (\w+)", module.text, re.M):
        home = next((span for span in spans if span.begin <= match.start() < span.end), None)
        if home is None:
            reached = bool(match.group(2)) and (module.is_public or match.group(3) in names)
            owner = ""
        else:
            reached = home.owner is not None and (module.is_public or home.owner in types)
            reached = reached and (home.is_trait or bool(match.group(2)))
            owner = f"{home.owner}::"
        if reached:
            yield owner + match.group(3), list(clauses(module.text, match.end()))


def cited() -> dict[Definition, set[str]]:
    """The definitions that public contracts cite, with the functions that cite them."""
    found: dict[Definition, set[str]] = {}
    for crate in CRATES:
        for module in modules(crate):
            known = imports(module.text)
            for name, texts in functions(module):
                for word in set(re.findall(WORD, " ".join(texts))) & known.keys():
                    definition, file = origin(*known[word])
                    found.setdefault((home(file, definition), file), set()).add(f"{crate}::{name}")
    return found


def listed() -> tuple[list[Definition], list[str]]:
    """The names that the page explains, each with its file, and what is wrong with its items."""
    rows: list[Definition] = []
    wrong, crate, file = [], "", ""
    for number, line in enumerate(PAGE.read_text().splitlines(), 1):
        if line.startswith("## "):
            crate, file = word_in(line, r"^## (\w+)"), ""
        elif line.startswith("**") and crate in CRATES:
            file = f"{crate}/specs/{line.split('**')[1]}.antt"
        elif line.startswith("- ") and crate in CRATES:
            item = re.match(rf"- `({WORD})`: \S", line)
            if not item or not file:
                wrong.append(f"line {number}: not an item that explains one name of a file: {line}")
            elif (item.group(1), file) in rows:
                wrong.append(f"line {number}: {item.group(1)} is explained twice")
            else:
                rows.append((item.group(1), file))
    return rows, wrong


def named() -> set[str]:
    """The names in parentheses in the tables of docs/PROVED.md: definitions, and fields of definitions."""
    cells = re.findall(r"^\|.*\|", (TOP / "docs" / "PROVED.md").read_text(), re.M)
    groups = re.findall(r"\((`[^)]*`)\)", "\n".join(cells))
    return set(re.findall(rf"`({WORD})`", " ".join(groups)))


def mentioned() -> set[str]:
    """The names of definitions that the two pages about the code have in code spans, by themselves or before their arguments. A name in small
    letters without an underscore may as well be that of a clause, so it is not counted; nor is the name of a file of specs/."""
    found = set()
    for page in ("ARCHITECTURE.md", "CALLING.md"):
        text = re.sub(r"^```.*?^```", "", (TOP / "docs" / page).read_text(), flags=re.M | re.S)
        spans = re.findall(rf"`({WORD})(?:\s[^`]*)?`", text)
        found |= {name for name in spans if (name[0].isupper() or "_" in name) and is_defined(name)}
    return found - {path.stem for path in (TOP / "crates").glob("*/specs/*.antt")} - set(CRATES)


def is_defined(name: str) -> bool:
    """Whether some file of specs/ defines the name, not only a field of it."""
    return any(defines(str(path.relative_to(TOP / "crates")), name) for path in (TOP / "crates").glob("*/specs/*.antt"))


def block(file: str, name: str) -> str:
    """The lines of a definition."""
    match = defines(file, name)
    return re.split(r"\n\s*\n", text_of(file)[match.start() :], maxsplit=1)[0] if match else ""


def parts(name: str, file: str) -> Iterator[Definition]:
    """What the definition is made of: the names in it, each with its file."""
    text = text_of(file)
    known = {}
    for path, names in re.findall(r"^(?:pub )?use Rattle\.([\w.]+?)\.(\{[^}]*\})", text, re.M):
        crate, *rest = path.split(".")
        if crate in CRATES and rest[:1] == ["specs"] and "declared" not in rest:
            for there, alias in names_in(names):
                known[alias] = origin(there, f"{crate}/specs/{'/'.join(rest[1:])}.antt")
    for word in set(re.findall(WORD, block(file, name))) - {name}:
        if word in known:
            yield known[word]
        elif defines(file, word):
            yield word, file


def text_of(file: str) -> str:
    path = TOP / "crates" / file
    return path.read_text() if path.exists() else ""


def defines(file: str, name: str) -> re.Match[str] | None:
    return re.search(rf"^(\w+ )*pub (\w+ )*{re.escape(name)}(?![\w'-])", text_of(file), re.M)


def origin(name: str, file: str) -> Definition:
    """The name with the file that defines it, if `file` only has it by `pub use`."""
    for path, names in re.findall(r"^pub use Rattle\.([\w.]+?)\.(\{[^}]*\})", text_of(file), re.M):
        crate, *rest = path.split(".")
        for there, alias in names_in(names):
            if alias == name and rest[:1] == ["specs"] and "declared" not in rest and not defines(file, name):
                return origin(there, f"{crate}/specs/{'/'.join(rest[1:])}.antt")
    return name, file


def home(file: str, name: str) -> str:
    """The name itself, or that of the data type whose case it is."""
    if defines(file, name):
        return name
    for kind, body in re.findall(r"^pub data (\w+)[^\n]*\n((?:  [^\n]*\n)*)", text_of(file), re.M):
        if re.search(rf"^  {re.escape(name)} :", body, re.M):
            return str(kind)
    return name


def main() -> int:
    parser = argparse.ArgumentParser(description=__doc__, formatter_class=argparse.RawDescriptionHelpFormatter)
    parser.add_argument("--uses", action="store_true", help="Prints each cited definition with the functions that cite it.")
    settings = parser.parse_args()
    uses = cited()
    rows, wrong = listed()
    if settings.uses:
        for (name, file), names in sorted(uses.items(), key=lambda use: (use[0][1], use[0][0])):
            print(f"{file} {name}: {' '.join(sorted(names))}")
    asked = {name for name in named() if is_defined(name)}
    shown = mentioned()
    rests = {part for row in rows for part in parts(*row)}
    wrong += [f"cited by a public contract and not on the page: {name} of {file}" for name, file in sorted(uses.keys() - set(rows))]
    explained = {name for name, _ in rows}
    wrong += [f"named by docs/PROVED.md and not on the page: {name}" for name in sorted(asked - explained)]
    wrong += [f"named by docs/ARCHITECTURE.md or docs/CALLING.md and not on the page: {name}" for name in sorted(shown - asked - explained)]
    for name, file in rows:
        if not defines(file, name):
            wrong.append(f"on the page and not defined: {name} of {file}")
        elif (name, file) not in uses and name not in asked | shown and (name, file) not in rests:
            wrong.append(f"on the page, but nothing asks for it: {name} of {file}")
    for mistake in wrong:
        print(mistake)
    return 1 if wrong else 0


if __name__ == "__main__":
    sys.exit(main())
