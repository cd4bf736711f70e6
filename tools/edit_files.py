"""Planted bugs as files: reads an edit, applies it, and finds the function whose body it changes.

tools/planted_bugs.py tries them, and tests/edits.py looks at all of them.
"""
from __future__ import annotations

import functools
import pathlib
import re
from collections.abc import Callable, Iterator
from dataclasses import dataclass, field
from typing import NamedTuple

WORD = r"[A-Za-z_]\w*"
# Comments, strings and characters, in which no brace counts. A lifetime has no second quote.
TEXTS = re.compile(r"""//[^\n]*|b?r(#*)".*?"\1|b?"(?:[^"\\]|\\.)*"|b?'(?:\\[^\n]*?|[^'\\\n])'""", re.S)
HEAD = re.compile(rf"^([ \t]*)(?:pub(?:\([^)]*\))? )?(?:(?:const|unsafe) )*fn ({WORD})", re.M)
BLOCK = re.compile(r"^(?:unsafe )?(impl\b|(?:pub(?:\([^)]*\))? )?trait\b)([^{;]*)\{", re.M)
BRACKET = re.compile(r"[][(){}]")
CLAUSE = re.compile(r"\b(?:requires|ensures|ghost)\b[^{};]*$")
# What a check reads besides code: ghost items, and the attributes that steer a proof.
GHOST = re.compile(r"^[ \t]*(?:pub )?ghost\b|^[ \t]*#!?\[tactic", re.M)


class Block(NamedTuple):
    """An `impl` or a `trait`: where it begins and ends, its type and its trait."""

    begin: int
    end: int
    owner: str
    trait: str


class Change(NamedTuple):
    """A line that an edit changes: its number, its new text, and where in the old text of the file it begins and ends to differ."""

    number: int
    line: str
    begin: int
    end: int


class BadEdit(Exception):
    """Why an edit shows nothing of a contract."""


@dataclass
class Function:
    """A function of a source: where it is, by lines from 0 and by characters, and the type and the trait of its block."""

    file: str
    name: str
    owner: str
    trait: str
    first: int
    last: int
    begin: int
    body: tuple[int, int]
    contract: tuple[int, int]


@dataclass(eq=False)
class Edit:
    """An edit that applies: the lines that it changes, by file and number from 0, and the functions whose bodies these are in."""

    path: pathlib.Path
    lines: dict[str, dict[int, str]] = field(default_factory=dict)
    functions: list[Function] = field(default_factory=list)
    # Whether it also changes what is in no function, such as a constant.
    is_wide: bool = False


def blanked(text: str) -> str:
    """The text with blanks for comments, strings and characters, each line and place as before."""
    return TEXTS.sub(lambda found: re.sub(r"[^\n]", " ", found.group()), text)


def closing(text: str, at: int) -> int:
    """The place after the bracket that closes the one at `at`."""
    depth = 0
    for bracket in BRACKET.finditer(text, at):
        depth += 1 if bracket.group() in "{([" else -1
        if depth == 0:
            return bracket.end()
    return len(text)


def clauses_end(text: str, at: int) -> tuple[int, int]:
    """Of a function whose name ends at `at`: where its first clause begins, and where its body begins, or where its `;` is."""
    first = None
    while at < len(text):
        stop = re.compile(r"[{(\[;]").search(text, at)
        if not stop:
            break
        place = stop.start()
        if text[place] == ";":
            return first or place, place
        if text[place] == "{":
            clause = CLAUSE.search(text, at, place)
            if not clause:
                return first or place, place
            first = first or clause.start()
        at = closing(text, place)
    return first or len(text), len(text)


def without_parameters(head: str) -> str:
    """The head of a block after its list of type parameters."""
    head, depth = head.replace("->", "  "), 0
    if not head.lstrip().startswith("<"):
        return head
    for place, sign in enumerate(head):
        depth += (sign == "<") - (sign == ">")
        if sign == ">" and depth == 0:
            return head[place + 1 :]
    return head


def last_word(path: str) -> str:
    """The name that a path ends in: `fmt::Display` names Display."""
    found = re.match(rf"\s*&?\s*(?:{WORD}::)*({WORD})", path)
    return found.group(1) if found else ""


def blocks(text: str) -> Iterator[Block]:
    """Each `impl` and `trait`."""
    for match in BLOCK.finditer(text):
        head = without_parameters(match.group(2))
        trait, of, owner = head.partition(" for ")
        if "trait" in match.group(1):
            yield Block(match.start(), closing(text, match.end() - 1), "", last_word(head))
        else:
            names = last_word(owner if of else head), last_word(trait) if of else ""
            yield Block(match.start(), closing(text, match.end() - 1), *names)


@functools.lru_cache(maxsize=None)
def functions_of(file: str, text: str) -> list[Function]:
    """The functions with a body of a source."""
    text, found = blanked(text), []
    found_blocks = list(blocks(text))
    for match in HEAD.finditer(text):
        contract, begin = clauses_end(text, match.end())
        if begin >= len(text) or text[begin] != "{":
            continue
        end = closing(text, begin)
        owner, trait = next(((it.owner, it.trait) for it in found_blocks if it.begin <= match.start() < it.end), ("", ""))
        first, last = text.count("\n", 0, match.start()), text.count("\n", 0, end)
        found.append(Function(file, match.group(2), owner, trait, first, last, match.start(), (begin, end), (contract, begin)))
    return found


@functools.lru_cache(maxsize=None)
def ghosts_of(text: str) -> list[tuple[int, int]]:
    """Where the ghost items of a source are, and the attributes that steer proofs."""
    text, found = blanked(text), []
    for match in GHOST.finditer(text):
        at = match.end()
        while at < len(text) and text[at] not in ";]\n":
            at = closing(text, at) if text[at] in "{([" else at + 1
        found.append((match.start(), at))
    return found


def pairs_of(text: str) -> Iterator[tuple[str, str, str]]:
    """The file and the two texts of each pair of an edit."""
    file, old = "", None
    for line in text.split("\n"):
        if line.startswith("file: "):
            file = line[len("file: ") :].strip()
            if not re.fullmatch(r"src(?:/\w+)*/\w+\.rt", file):
                raise BadEdit(f"it edits {file}: only a body in src/ shows something of a contract")
        elif line.startswith("old: "):
            old = line[len("old: ") :]
        elif line.startswith("new:"):
            if not file or not old:
                raise BadEdit("a 'new:' line stands before any 'file:' or 'old:' line")
            yield file, old, re.sub("^ ", "", line[len("new:") :])
            old = None
        elif line.strip():
            raise BadEdit(f"a line begins with none of 'file:', 'old:' and 'new:': {line[:60]}")
    if old is not None:
        raise BadEdit("an 'old:' line has no 'new:' line")


def applied(text: str, sources: Callable[[str], str]) -> dict[str, str]:
    """The texts of the files that an edit changes. `sources` gives a file's own text."""
    texts: dict[str, str] = {}
    for file, old, new in pairs_of(text):
        now = texts.get(file) or sources(file)
        if now.count(old) != 1:
            raise BadEdit(f"an 'old:' text is in {file} {now.count(old)} times, and not once")
        texts[file] = now.replace(old, new)
    if not texts:
        raise BadEdit("it has no 'old:' and 'new:' pair")
    return texts


def changed_places(was: str, now: str) -> list[Change]:
    """The lines that differ, and where in the first text each begins and ends to differ."""
    at, found = 0, []
    for number, (one, other) in enumerate(zip(was.split("\n"), now.split("\n"))):
        if one != other:
            most = min(len(one), len(other))
            front = next((it for it in range(most) if one[it] != other[it]), most)
            back = next((it for it in range(most - front) if one[-1 - it] != other[-1 - it]), most - front)
            found.append(Change(number, other, at + front, at + max(front, len(one) - back)))
        at += len(one) + 1
    return found


def function_at(functions: list[Function], ghosts: list[tuple[int, int]], begin: int, end: int) -> Function | None:
    """The innermost function whose head or body this place is in, or None if it is in none."""
    if any(one <= begin < other for one, other in ghosts):
        raise BadEdit("it changes what is ghost, or steers a proof: only a body shows something of a contract")
    inside = [it for it in functions if it.begin <= begin and end <= it.body[1]]
    if any(it.contract[0] <= begin < it.contract[1] for it in inside):
        raise BadEdit("it changes a contract: only a body shows something of one")
    return max(inside, key=lambda it: it.begin) if inside else None


def read_edit(path: pathlib.Path, crate: pathlib.Path) -> Edit:
    """The edit that a file has, for the crate in this folder, or BadEdit."""

    def source(file: str) -> str:
        try:
            return (crate / file).read_text(encoding="utf-8")
        except OSError as error:
            raise BadEdit(f"there is no file {file}") from error

    try:
        text = path.read_text(encoding="utf-8")
    except ValueError as error:
        raise BadEdit("it is no text") from error
    edit = Edit(path)
    for file, now in applied(text, source).items():
        was = source(file)
        functions, ghosts = functions_of(file, was), ghosts_of(was)
        for change in changed_places(was, now):
            function = function_at(functions, ghosts, change.begin, change.end)
            edit.lines.setdefault(file, {})[change.number] = change.line
            edit.is_wide |= function is None
            edit.functions += [function] if function and function not in edit.functions else []
    if not edit.lines:
        raise BadEdit("it changes nothing")
    return edit
