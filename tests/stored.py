#!/usr/bin/env python3
"""Runs that tests/stored.txt has, each with what it must print.

usage: tests/stored.py PROGRAM

The file has sections, each begun by a line `== ..`. Lines before the first one, and lines that begin with `-- `, are remarks.

    == file NAME               a file; its lines follow. An empty line at the end of a section is no part of it
    == copy NAME OLD PYTHON    a file made of another by a Python expression over its bytes, `text`
    == run WORDS [< NAME]      a run on these words, with the file NAME on standard input; then come its lines:
                               those of standard output after `  `, or all of these as the bytes of a Python expression after `= `,
                               those of standard error after `! `, and last `status N`. A single `! ..` is any text, one line or more,
                               and a single `! .. WORD` any text that has WORD
    == ways WORDS NAME NAME    four such runs on two files, by 1 and 3 workers, and by 2 and 16 with both on standard input: then the second
                               line of a fault names standard input in place of the file, and shows no line of it
    == order WORDS             a run with --print-order, whose names follow on one line
    == best N N N WORDS        with --order best at each limit from 1 to 49 the answer is that of the first of msb-first, weights and
                               force-groups that is within the limit, and --verbose says which, and of those before it, each once if some
                               are the same, that they need more. They need N nodes each. With --order auto it is the answer of declared
                               order without a limit, by the same attempt or, if there is none, by the last attempt, in declared order;
                               or some pairs are undecided, and all others are as in that answer
    == texts                   lines `TEXT => SAID`: the text, written as in Python, is refused beside itself by the line SAID, and by a second
                               line with the name of the file and the number of the line; or if SAID is `netlist` it is equal to itself
"""
from __future__ import annotations

import re
import shlex
import sys
from collections.abc import Iterable, Iterator

import harness
from harness import TOP, Run, Tally, run


def sections(text: str) -> Iterator[tuple[str, list[str]]]:
    """The heads and the lines of the sections."""
    found: list[tuple[str, list[str]]] = []
    for line in text.split("\n"):
        if line.startswith("== "):
            found.append((line[3:], []))
        elif found and not line.startswith("-- "):
            found[-1][1].append(line)
    for head, body in found:
        while body and not body[-1]:
            body.pop()
        yield head, body


def joined(lines: Iterable[str]) -> bytes:
    return "".join(line + "\n" for line in lines).encode()


def expected(head: str, body: list[str]) -> tuple[int, bytes, bytes | str]:
    """The status, the output and the errors that a run must give; instead of the errors a word, if any that have it are right."""
    out = [line[2:] for line in body if line.startswith("  ")]
    made = [eval(line[2:]) for line in body if line.startswith("= ")]
    errors = [line[2:] for line in body if line.startswith("! ")]
    status = [line for line in body if line.startswith("status ")]
    if len(status) != 1 or len(out) + len(made) + len(errors) + 1 != len(body) or (made and out) or len(made) > 1:
        sys.exit(f"tests/stored.txt: a section that cannot be read: {head}")
    any_errors = len(errors) == 1 and errors[0].split(" ")[0] == ".."
    return int(status[0].split()[1]), made[0] if made else joined(out), errors[0][2:].strip() if any_errors else joined(errors)


def compared(tally: Tally, head: str, body: list[str], seen: Run) -> None:
    status, out, errors = expected(head, body)
    if isinstance(errors, str):
        has = seen.err and errors.encode() in seen.err
        tally.check(head, (seen.status, seen.out) == (status, out) and has, seen)
    else:
        tally.same(head, seen, status, out, errors)


def try_run(program: str, tally: Tally, place: str, files: dict[str, bytes], head: str, body: list[str]) -> None:
    words = shlex.split(head)[1:]
    given = b""
    if "<" in words:
        given = files[words[words.index("<") + 1]]
        words = words[: words.index("<")]
    compared(tally, head, body, run([program, *words], given, cwd=place))


def shown_of(line: bytes) -> str:
    """What is shown of a refused line: its first hundred bytes, with a question mark for what cannot be printed, and a note if there are
    more."""
    return "".join(chr(byte) if 32 <= byte < 127 else "?" for byte in line[:100]) + ("... (cut)" if len(line) > 100 else "")


def by_input(body: list[str], files: dict[str, bytes], name: str, which: str) -> list[str]:
    """The same lines if the text that they name comes from standard input: it goes by another name, and its line is not shown."""
    lines = []
    for line in body:
        place = re.match(rf"! bddcheck: {re.escape(name)}(?::(\d+))?: ", line)
        if place:
            line = f"! bddcheck: {which} text of standard input" + line[len(f"! bddcheck: {name}") :]
            shown = shown_of(files[name].split(b"\n")[int(place[1]) - 1].strip()) if place[1] else ""
            line = line.removesuffix(f": {shown}") if shown else line
        lines.append(line)
    return lines


def try_ways(program: str, tally: Tally, place: str, files: dict[str, bytes], head: str, body: list[str]) -> None:
    *words, first, second = shlex.split(head)[1:]
    both = files[first] + b"\n%%\r\n" + files[second]
    which = "second" if any(line.startswith("! bddcheck: second: ") for line in body) else "first"
    given_body = by_input(body, files, second if which == "second" else first, which)
    by_files, by_one_text = ([first, second], b"", body), (list[str](), both, given_body)
    for workers, (names, given, lines) in ((1, by_files), (2, by_one_text), (3, by_files), (16, by_one_text)):
        seen = run([program, "--workers", workers, *words, *names], given, cwd=place)
        compared(tally, f"{head}, by {workers} workers", lines, seen)


def try_order(program: str, tally: Tally, place: str, _files: dict[str, bytes], head: str, body: list[str]) -> None:
    words = shlex.split(head)[1:]
    names = "".join(body).split()
    tally.same(head, run([program, "--print-order", *words], cwd=place), 0, joined(names), b"")


CANDIDATES = ("msb-first", "weights", "force-groups")


# An order, the nodes that it needs, and whether it is tried.
Need = tuple[str, int, bool]


def is_tried(program: str, place: str, words: list[str]) -> list[bool]:
    """Whether each candidate is tried: not if its order is that of one before it."""
    orders = [run([program, "--print-order", "--order", order, *words], cwd=place).out for order in CANDIDATES]
    return [order not in orders[:number] for number, order in enumerate(orders)]


def best_of(
    program: str, place: str, tally: Tally, name: str, limit: int, needs: list[Need], words: list[str]
) -> tuple[int | None, bytes, bytes]:
    """The run that the best order is to give, of those in a single order, each of which is within the limit from its need on."""
    wanted: tuple[int | None, bytes, bytes] | None = None
    reported: list[str] = []
    for order, need, tried in needs:
        single = run([program, "--order", order, "--limit", limit, *words], cwd=place)
        tally.check(f"{name}: {order}", (single.status != 3) == (need <= limit), single)
        if wanted is None and single.status != 3:
            wanted = single.status, single.out, joined([*reported, f"bddcheck: order {order} decided within {limit} nodes"])
        if tried:
            reported.append(f"bddcheck: order {order} needs more than {limit} nodes")
    more = "msb-first, weights and force-groups were tried; a list by --order-file may need fewer nodes"
    return wanted or (3, b"", joined([*reported, "bddcheck: build: more nodes than the limit", f"bddcheck: {more}"]))


def is_shown(line: str, old: str, name: str) -> bool:
    """Whether a line has another difference of the pair, which may not be the least."""
    return old.startswith("DIFFER ") and line.startswith(f"DIFFER {name} at ") and line.endswith(" (may not be the least)")


def is_left(seen: Run, wanted: Run, limit: int) -> bool:
    """Whether a report is a wanted one except for pairs that are undecided or whose difference may not be the least, and its status and its
    lines on standard error are right for the undecided ones."""
    said, lines = wanted.out.decode().splitlines()[:-1], seen.out.decode().splitlines()
    names = [line.split(" at ")[0].split(" ", 1)[1] for line in said]
    kept = [line == old or line == f"UNDECIDED {name}" or is_shown(line, old, name) for line, old, name in zip(lines, said, names)]
    counts = [sum(line.startswith(word) for line in lines[:-1]) for word in ("EQUAL", "DIFFER", "ONLY", "UNDECIDED")]
    last = "{} equal, {} different, {} unmatched".format(*counts) + (f", {counts[3]} undecided" if counts[3] else "")
    status = 1 if counts[1] or counts[2] else 3 if counts[3] else 0
    others = re.compile("bddcheck: (order .* needs more than |patterns show that |merging, )")
    reported = [line.split(";")[0] for line in seen.err.decode().splitlines() if not others.match(line)]
    if not counts[3] and "bddcheck: each pair was judged by its cones" not in reported:
        # The last attempt has decided.
        return (seen.status, seen.out) == (wanted.status, wanted.out) and reported[1:] == [
            f"bddcheck: order declared decided within {limit} nodes"
        ]
    pairs = counts[0] + counts[1] + counts[3]
    left = counts[3] + sum(line.endswith(" (may not be the least)") for line in lines)
    of_cones = f"bddcheck: {left} of {pairs} pairs are undecided by cones within {max(1, limit // 4)} nodes"
    last_reported = [f"bddcheck: the number of undecided pairs is {counts[3]}"][: counts[3]]
    way = ["bddcheck: each pair was judged by its cones", *last_reported]
    # No round of cones is reported if merging has decided each pair.
    is_reported = reported == [of_cones, *way] or (left == 0 and reported == way)
    return len(lines) == len(said) + 1 and all(kept) and (lines[-1], seen.status) == (last, status) and is_reported


def try_best(program: str, tally: Tally, place: str, _files: dict[str, bytes], head: str, _body: list[str]) -> None:
    *numbers, rest = head.split(" ", 4)[1:]
    words = shlex.split(rest)
    plain = [word for word in words if word != "--sizes"]
    as_declared = run([program, "--order", "declared", *plain], cwd=place)
    needs = list(zip(CANDIDATES, map(int, numbers), is_tried(program, place, plain)))
    for limit in range(1, 50):
        name = f"{head}, limit {limit}"
        wanted = best_of(program, place, tally, name, limit, needs, words)
        tally.same(name, run([program, "--verbose", "--order", "best", "--limit", limit, *words], cwd=place), *wanted)
        seen = run([program, "--verbose", "--order", "auto", "--limit", limit, *plain], cwd=place)
        if wanted[0] == 3:
            tally.check(f"{name}, auto", is_left(seen, as_declared, limit), seen)
        else:
            tally.same(f"{name}, auto", seen, as_declared.status, as_declared.out, wanted[2])


def try_texts(program: str, tally: Tally, place: str, _files: dict[str, bytes], _head: str, body: list[str]) -> None:
    for line in body:
        written, _, said = line.rpartition(" => ")
        harness.written(place, "text", written.encode().decode("unicode_escape").encode("latin-1"))
        seen = run([program, "text", "text"], cwd=place)
        if said == "netlist":
            tally.check(line, seen.status == 0 and not seen.err, seen)
        else:
            tally.same(line, harness.unhelped(seen), 2, b"", joined(["bddcheck: first: " + said]))
            place_of = "bddcheck: text:" + said.removeprefix("line ").split(":")[0] + ": "
            tally.check(f"{line}, its place", seen.err.splitlines()[-1].startswith(place_of.encode()), seen)


TRIED = {"run": try_run, "ways": try_ways, "order": try_order, "best": try_best, "texts": try_texts}


def main() -> None:
    program, tally = harness.program_of(__doc__), Tally("stored")
    files: dict[str, bytes] = {}
    with harness.folder() as place:
        for head, body in sections((TOP / "tests" / "stored.txt").read_text()):
            kind, _, rest = head.partition(" ")
            if kind in TRIED:
                TRIED[kind](program, tally, place, files, head, body)
                continue
            name = rest.split()[0]
            if kind == "copy":
                _, old, expression = rest.split(" ", 2)
                files[name] = eval(expression, {"text": files[old]})
            else:
                files[name] = joined(body)
            harness.written(place, name, files[name])
    tally.finish()


if __name__ == "__main__":
    main()
