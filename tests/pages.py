"""Reads Markdown as the tests of the documents need it: prose without code, links and the anchors that they lead to, code spans, terms
in italics and in bold, tables, and runs of the program that a page shows."""
from __future__ import annotations

import re
import subprocess
from dataclasses import dataclass
from pathlib import Path

from harness import TOP

SPAN = re.compile(r"(`+)(.+?)(?<!`)\1(?!`)", re.S)
BOLD = re.compile(r"\*\*(.+?)\*\*", re.S)
ITALIC = re.compile(r"(?<![\w*\\])\*(?![\s*])([^*]+?)(?<!\s)\*(?![\w*])")
LINK = re.compile(r"\[((?:[^\[\]]|\[[^\]]*\])*)\]\(\s*<?([^)\s>]+)>?(?:\s+\"[^\"]*\")?\s*\)")
HEADING = re.compile(r"^#{1,6}\s+(.*?)\s*#*$", re.M)
# A term has at most so many words; more of them in italics are a sentence.
WORDS_OF_A_TERM = 4


def all_pages() -> list[Path]:
    """The paths of all documents that are in the repository, or that will be with the next commit."""
    words = ["git", "ls-files", "--cached", "--others", "--exclude-standard", "*.md"]
    listed = subprocess.run(words, cwd=TOP, capture_output=True, text=True, check=True).stdout.split("\n")
    return sorted(TOP / name for name in set(listed) if name and (TOP / name).exists())


def without_blocks(text: str) -> str:
    """The text without blocks of code, be they fenced or set in by four blanks after an empty line."""
    kept, fence, is_code, before = [], None, False, ""
    for line in text.split("\n"):
        opened = re.match(r"\s*(```+|~~~+)", line)
        if fence:
            fence = None if opened and line.strip().startswith(fence) else fence
        elif opened:
            fence = opened[1]
        else:
            is_code = bool(line.strip()) and line.startswith("    ") and (is_code or not before.strip()) or is_code and not line.strip()
            if not is_code:
                kept.append(line)
            before = line
            continue
        is_code, before = False, ""
    return "\n".join(kept)


def spans(text: str) -> list[str]:
    """What is in code spans."""
    return [" ".join(found[1].split()) for found in SPAN.findall(without_blocks(text))]


def prose(text: str) -> str:
    """The text without code of any kind."""
    return SPAN.sub("` `", without_blocks(text))


def links(text: str) -> list[str]:
    """The targets of all links and pictures."""
    return [found[1] for found in LINK.findall(prose(text))]


def anchor(heading: str) -> str:
    """What a heading is called in a link."""
    shown = LINK.sub(r"\1", heading).replace("`", "").replace("*", "").lower()
    return re.sub(r"[^\w\- ]", "", shown).replace(" ", "-")


def anchors(text: str) -> set[str]:
    """The names of all headings; of two that are alike the second ends in -1."""
    names = [anchor(heading) for heading in HEADING.findall(without_blocks(text))]
    return {name + (f"-{names[:at].count(name)}" if name in names[:at] else "") for at, name in enumerate(names)}


def terms_in_italics(text: str) -> list[str]:
    """What is set in italics, but for whole sentences."""
    shown = [" ".join(found.split()) for found in ITALIC.findall(BOLD.sub(" ", prose(text)))]
    return [term for term in shown if len(term.split()) <= WORDS_OF_A_TERM]


def terms_in_bold(text: str) -> list[str]:
    return [" ".join(found.split()) for found in BOLD.findall(without_blocks(text))]


def root(term: str) -> str:
    """A term without capitals, punctuation and the ending of a plural."""
    term = re.sub(r"[^\w\- ]", "", term.replace("`", "").lower()).strip()
    if term.endswith("ies"):
        return term[:-3] + "y"
    if re.search(r"(ch|sh|x|ss)es$", term):
        return term[:-2]
    return term[:-1] if term.endswith("s") and not term.endswith("ss") else term


def tables(text: str) -> list[tuple[list[str], list[list[str]]]]:
    """The tables: the cells of the head, and of each row."""
    found, lines = [], without_blocks(text).split("\n")
    for at, line in enumerate(lines):
        if re.fullmatch(r"\|?(\s*:?-+:?\s*\|)+\s*(:?-+:?\s*)?", line.strip()) and at:
            rows = []
            for row in lines[at + 1 :]:
                if "|" not in row:
                    break
                rows.append(cells(row))
            found.append((cells(lines[at - 1]), rows))
    return found


def cells(line: str) -> list[str]:
    return [cell.strip() for cell in re.split(r"(?<!\\)\|", line.strip().strip("|"))]


@dataclass
class Shown:
    """A run that a page shows: its words, and the lines that follow."""

    words: str
    lines: list[str]

    def is_of(self, output: str) -> bool:
        """Whether the program's output has these lines; a line of three dots matches any number of lines."""
        parts = [r"(?:[^\n]*\n)*?" if line == "..." else re.escape(line) + r"\n" for line in self.lines]
        return bool(re.fullmatch("".join(parts), output))


def runs(text: str, command: str) -> list[Shown]:
    """The runs of a command that a page shows as `    $ COMMAND WORDS`."""
    found, current = [], None
    for line in text.split("\n"):
        if line.startswith(f"    $ {command} "):
            current = Shown(line.removeprefix(f"    $ {command} "), [])
            found.append(current)
        elif current and line.startswith("    ") and not line.startswith("    $ "):
            current.lines.append(line[4:])
        else:
            current = None
    return found
