#!/usr/bin/env python3
"""Refuses growths of memory and starts of threads of the program, one by one and from one on.

usage: tests/refusals.py PROGRAM [--seconds S] [--seed N] [--jobs J]

The library refuse.c is compiled by cc and preloaded. Of each row below the N-th growth or start is refused for N = 1, 2, ..
until a run meets no refusal, or, if there are too many, some N are drawn, by the seed that is printed, in S seconds (180)
by J processes (2). Wide rows are run within little address space as well, so that the system itself refuses. A run must end
in time, with status 3, nothing written and one line on want of memory or of a worker, after which a second line may say
what helps; or with the very report that it gives without refusals. Of a row whose waves call their workers in, or whose
windows are judged by several, each of the first starts is refused in every run, and growths while its workers run, so that the
others have to stop. If a row names no order, a thread that cannot be started costs no report: only the very report is right then.
"""
from __future__ import annotations

import os
import random
import resource
import subprocess
import sys
import time
from collections.abc import Callable, Collection, Iterable, Iterator, Sequence
from concurrent.futures import Executor, Future
from dataclasses import dataclass, field

import harness
from harness import C17, C17B, TOP, Run, Tally, lines, netlist, run, say, written

sys.path.append(str(TOP / "bench"))
import circuits  # noqa: E402

# The lines that report want of memory, by what they may name, and a worker that could not be started.
OUT_OF_MEMORY = {
    lines(f"bddcheck: {place}out of memory") for place in ("", "first: ", "second: ", "given: ", "pairs: ", "order: ", "build: ")
}
NO_WORKER = {lines("bddcheck: build: a worker could not be started")}
# A run without refusals takes a small part of a second; a run that takes so long hangs.
HANGS = 60


def parity(join: str, count: int) -> bytes:
    """Parity as one chain, or as a tree."""
    signals = [f"x{i}" for i in range(count)]
    gates: list[str] = []
    while len(signals) > 1:
        made = f"g{len(gates)}"
        gates.append(f"{made} = XOR({signals[0]}, {signals[1]})")
        signals = [made, *signals[2:]] if join == "chain" else [*signals[2:], made]
    return netlist(";".join([f"INPUT(x{i})" for i in range(count)] + ["OUTPUT(p)", *gates, f"p = BUFF({signals[0]})"]))


def products(count: int, join: str = "one") -> bytes:
    """The sum of products of two inputs, all first factors before all second ones: a level of 2^count requests."""
    ports = [f"INPUT({letter}{i})" for letter in "xy" for i in range(count)] + ["OUTPUT(o)"]
    gates = [f"a{i} = AND(x{i}, y{i})" for i in range(count)]
    if join == "one":
        gates.append(f"o = OR({', '.join(f'a{i}' for i in range(count))})")
    else:
        gates += [f"b{i} = OR({f'b{i - 1}' if i > 1 else 'a0'}, a{i})" for i in range(1, count)]
        gates.append(f"o = BUFF(b{count - 1})")
    return netlist(";".join(ports + gates))


def adders(count: int, of_nands: bool) -> bytes:
    """So many adders of one bit, each of two XORs and a majority, or of nine NANDs."""
    statements: list[str] = []
    for i in range(count):
        statements += [f"INPUT({letter}{i})" for letter in "xyz"] + [f"OUTPUT(s{i})", f"OUTPUT(c{i})"]
        if of_nands:
            statements += [f"a{i} = NAND(x{i}, y{i})", f"b{i} = NAND(x{i}, a{i})", f"d{i} = NAND(y{i}, a{i})", f"e{i} = NAND(b{i}, d{i})"]
            statements += [f"f{i} = NAND(e{i}, z{i})", f"g{i} = NAND(e{i}, f{i})", f"h{i} = NAND(z{i}, f{i})"]
            statements += [f"s{i} = NAND(g{i}, h{i})", f"c{i} = NAND(a{i}, f{i})"]
        else:
            statements += [f"e{i} = XOR(x{i}, y{i})", f"s{i} = XOR(e{i}, z{i})", f"p{i} = AND(x{i}, y{i})", f"q{i} = OR(x{i}, y{i})"]
            statements += [f"r{i} = AND(q{i}, z{i})", f"c{i} = OR(p{i}, r{i})"]
    return netlist(";".join(statements))


def multiplier(multiply: circuits.Multiply, size: int) -> bytes:
    net = circuits.Netlist()
    circuits.multiplier(net, size, multiply)
    return net.text().encode()


# The ways: what counts, and whether one is refused or all from one on.
EACH, EACH_START, STARTS_FROM, GROWTHS_FROM = ("gs", "at"), ("s", "at"), ("s", "since"), ("gs", "since")
WAYS = [EACH, GROWTHS_FROM, EACH_START, STARTS_FROM]


# Wide enough that a wave calls its workers in, so that a run takes seconds: of products, and of the bits of a multiplier.
CALLED_IN = 21
MULTIPLIED = 10


@dataclass
class Row:
    """Words that are tried under refusals. Each N is tried in the ways that `whole` has; in all others N is drawn."""

    name: str
    words: Sequence[object]
    whole: tuple[tuple[str, str], ...] = ()
    given: bytes = b""
    draws: int = 10
    # By how many runs its growths are counted.
    counts: int = 3

    def faults(self, what: str) -> set[bytes]:
        """What a run may say that was refused a growth or a start, or a start only."""
        named = NO_WORKER if self.names_order() else set[bytes]()
        return named if what == "s" else OUT_OF_MEMORY | named

    def names_order(self) -> bool:
        """Whether the words name an order, or imply the declared one."""
        words = [str(word) for word in self.words]
        if "--order" in words:
            return words[words.index("--order") + 1] not in ("auto", "best", "cones", "merge")
        return any(word in words for word in ("--order-file", "--sizes", "--limit"))


def rows(place: str) -> Iterator[Row]:
    """The rows, whose files are written."""
    c17, c17b = written(place, "c17", C17), written(place, "c17b", C17B)
    order = written(place, "order", lines("7 6 3", "2 1"))
    chain, tree = written(place, "chain", parity("chain", 24)), written(place, "tree", parity("tree", 24))
    one, folded = written(place, "one", products(13)), written(place, "folded", products(13, "chain"))
    machines = [TOP / "examples" / f"{name}.bench" for name in ("s27", "s27_renamed")]
    declared = ["--order", "declared"]
    for workers in (1, 2, 4):
        yield Row(f"c17 by {workers}", [*declared, "--workers", workers, c17, c17b], (EACH, EACH_START, STARTS_FROM))
    # Attempts, the first of which is given up: by msb-first the pair needs 20 nodes, by weights 19.
    yield Row("auto", [c17, c17b], (EACH,))
    yield Row("auto in a second attempt", ["--order", "auto", "--limit", 19, c17, c17b], (EACH,))
    # By cones: after attempts of the whole, at once by one pair at a time and by two, undecided, picked by name and by share.
    yield Row("auto, then cones", ["--order", "auto", "--limit", 12, c17, c17b], (EACH,))
    yield Row("cones by 1", ["--order", "cones", "--workers", 1, c17, c17b], (EACH,))
    yield Row("cones by 2", ["--order", "cones", "--workers", 2, c17, c17b], (EACH, EACH_START, STARTS_FROM))
    yield Row("cones undecided", ["--order", "cones", "--limit", 8, c17, c17b], (EACH,))
    yield Row("cones, products", ["--order", "cones", "--workers", 2, one, folded])
    # Some pairs are left by the first round, and have another turn in the second: threads are started in both.
    array, wallace = written(place, "array", multiplier(circuits.array, 7)), written(place, "wallace", multiplier(circuits.wallace, 7))
    yield Row(
        "cones in two rounds by 4", ["--order", "cones", "--workers", 4, array, wallace], (EACH_START, STARTS_FROM), draws=4, counts=1
    )
    yield Row("cones of registers by a condition", ["--order", "cones", "--given", TOP / "examples" / "s27.bench", *machines])
    # By merging: pairs that are equal inside, and pairs that are left; and differences that patterns show.
    yield Row("merge", ["--order", "merge", "--workers", 1, c17, c17b], (EACH,))
    yield Row("merge, equal inside", ["--order", "merge", "--workers", 2, "--limit", 1, chain, tree], (EACH, EACH_START, STARTS_FROM))
    yield Row("merge, multipliers", ["--order", "merge", "--workers", 2, array, wallace], draws=2, counts=1)
    # Windows are judged side by side: a thread that is not started changes nothing, and a growth that is refused in a round ends the run.
    # By auto the rounds come after attempts of the whole, which are given up.
    right, wrong = written(place, "right", adders(8, False)), written(place, "wrong", adders(8, True).replace(b"s3 = NAND", b"s3 = AND"))
    for workers in (1, 2, 4):
        yield (merged := merged_row(place, workers))
        yield Row(f"auto, merging by {workers}", ["--order", "auto", "--limit", 1, *merged.words[2:]], (EACH_START,))
        # A pattern shows that the pair of the wrong gate differs. The others are merged.
        words = ["--order", "merge", "--limit", 1, "--workers", workers, right, wrong]
        yield Row(f"merge, one gate wrong, by {workers}", words, (EACH_START, STARTS_FROM))
    yield Row("auto, merging", ["--order", "auto", "--limit", 1, "--workers", 1, chain, tree], (EACH,))
    yield Row("any difference", ["--difference", "any", "--workers", 1, c17, c17b], (EACH,))
    yield Row("any difference by a condition", ["--difference", "any", "--given", TOP / "examples" / "s27.bench", *machines])
    yield Row("not the least", ["--order", "cones", "--limit", 1, "--explain", 23, c17, c17b], (EACH,))
    yield Row("only", ["--only", 23, "--only", 22, "--workers", 1, c17, c17b], (EACH,))
    yield Row("only by a pattern", ["--only", "2*", "--workers", 1, c17, c17b], (EACH,))
    yield Row("share", ["--share", "2/2", c17, c17b], (EACH,))
    # The second text has the first netlist's names for what is paired; and a name that is none is shown from its file.
    named = written(place, "named", lines("# two names a line", "G7 R7"))
    yield Row("pairs of names", ["--workers", 1, "--pairs", named, *machines], (EACH,))
    yield Row("pairs of names by a condition", ["--workers", 2, "--pairs", named, "--given", machines[0], *machines])
    yield Row("refused pairs of names", ["--pairs", written(place, "misnamed", lines("G7 none")), *machines], (EACH,))
    yield Row("seconds", ["--seconds", 600, "--workers", 2, c17, c17b])
    yield Row("auto, products", [one, folded])
    yield Row("c17 on standard input", ["--workers", 2, "--sizes"], (), C17 + b"%%\n" + C17B)
    yield Row("first on standard input", ["--workers", 2, "-", c17b], (), C17)
    yield Row("second on standard input", ["--workers", 2, "--sizes", c17, "-"], (), C17B)
    yield Row("JSON", ["--workers", 2, "--format", "json", "--sizes", c17, c17b])
    yield Row("order file", ["--workers", 2, "--match", "position", "--order-file", order, c17, c17b])
    yield Row("extended order file", ["--workers", 2, "--order-file", order, "--extend", c17, c17b])
    yield Row("registers", ["--workers", 2, "--sizes", *machines])
    condition = written(place, "condition", netlist("INPUT(1); INPUT(x); OUTPUT(c); c = NAND(1, x)"))
    yield Row("condition", ["--workers", 2, "--sizes", "--given", condition, c17, c17b], (EACH, EACH_START))
    yield Row("auto by a condition", ["--given", condition, c17, c17b], (EACH, EACH_START))
    yield Row("refused netlist", [c17, written(place, "bad", C17 + b"x")])
    yield Row("refused words", ["--workers", "none"])
    yield Row("help", ["--help"])
    yield Row("version", ["--version"])
    for workers in (1, 2, 4):
        yield Row(f"parity by {workers}", [*declared, "--workers", workers, chain, tree])
        yield Row(f"products by {workers}", ["--workers", workers, "--sizes", one, folded])
    yield wide_row(place, 2)
    yield searched_row(place, 2)
    yield coned_row(place, 16)


def merged_row(place: str, workers: int) -> Row:
    """Adders whose inner signals are merged by so many workers."""
    xors, nands = (written(place, f"{name}{workers}", adders(8, name == "nands")) for name in ("xors", "nands"))
    return Row(f"merge by {workers}", ["--order", "merge", "--workers", workers, xors, nands], (EACH_START, STARTS_FROM), draws=20)


def wide_row(place: str, workers: int) -> Row:
    """Products whose first waves stay on the caller's thread, and whose later ones call so many workers in."""
    wider = written(place, f"wider{workers}", products(CALLED_IN))
    return Row(f"wider products by {workers}", ["--order", "declared", "--workers", workers, wider, wider], draws=2, counts=1)


def searched_row(place: str, workers: int) -> Row:
    """Multipliers by the bare command, some of whose attempts call so many workers in, though their waves are bounded."""
    array = written(place, f"array{workers}", multiplier(circuits.array, MULTIPLIED))
    wallace = written(place, f"wallace{workers}", multiplier(circuits.wallace, MULTIPLIED))
    return Row(f"auto, multipliers by {workers}", ["--workers", workers, array, wallace], draws=1, counts=1)


def coned_row(place: str, workers: int) -> Row:
    """The same by cones: fewer pairs are left in the last rounds than there are workers, so these share the workers for their waves."""
    row = searched_row(place, workers)
    return Row(f"cones, multipliers by {workers}", ["--order", "cones", *row.words], draws=1, counts=1)


@dataclass
class Refuser:
    """Runs a row of the program under the library."""

    program: str
    library: str
    place: str

    def run(self, row: Row, what: str, at: int = 0, since: int = 0, after: int = 0) -> tuple[Run, int | None, int | None]:
        """The run, how many growths or starts were counted in it, and how many of these were refused; None for both numbers if it did
        not end by itself. Only what comes after so many starts is counted."""
        note = os.path.join(self.place, f"note.{os.getpid()}")
        environment = {"LD_PRELOAD": self.library, "REFUSE": what, "NOTE": note, "AFTER": str(after)}
        environment |= {"AT": str(at)} if at else {"FROM": str(since)}
        seen = run([self.program, *row.words], row.given, HANGS, environment)
        try:
            with open(note) as told:
                counted, refused = map(int, told.read().split())
            os.unlink(note)
        except FileNotFoundError:
            return seen, None, None
        return seen, counted, refused


@dataclass
class Figures:
    """How many runs there were, how many met a refusal, how many of these gave the right report all the same."""

    tried: int = 0
    refused: int = 0
    reported: int = 0
    wrong: list[str] = field(default_factory=list)

    def add(self, other: Figures) -> None:
        self.tried += other.tried
        self.refused += other.refused
        self.reported += other.reported
        self.wrong += other.wrong


# What is tried, and the figures that come of it.
Task = tuple[str, "Future[Figures]"]


def is_refusal(said: bytes, faults: Collection[bytes]) -> bool:
    """Whether this is one of these lines of a refusal, and after it nothing, if there was no memory for it, or one line of what helps."""
    first, *rest = said.splitlines(keepends=True)
    has_help = len(rest) == 1 and rest[0].startswith(b"bddcheck: ") and rest[0].endswith(b"\n")
    return first in faults and (not rest or has_help)


def lacks_help(seen: Run, right: Run) -> bool:
    """Whether a run ended as the right one does, with its fault, but without the line of what helps, or without what that line quotes, for
    want of memory."""
    if right.status is None or right.status < 2 or (seen.status, seen.out) != (right.status, right.out):
        return False
    said, wanted = seen.err.splitlines(), right.err.splitlines()
    return said == wanted[:1] or (len(said) == len(wanted) == 2 and said[0] == wanted[0] and wanted[1].startswith(said[1] + b": "))


def fault_of(right: Run, seen: Run, refused: int | None, faults: Collection[bytes]) -> str | None:
    """What is wrong with a run that may say one of these faults, or None."""
    if refused is None:
        return f"ended by force: {seen}"
    if seen == right:
        return None
    if refused == 0:
        return f"nothing was refused: {seen}"
    if lacks_help(seen, right):
        return None
    if seen.status != 3 or seen.out or not seen.err or not is_refusal(seen.err, faults):
        return str(seen)
    return None


def try_places(refuser: Refuser, row: Row, what: str, mode: str, places: Iterable[int], whole: bool, after: int = 0) -> Figures:
    """Tries these places of a row. If it is to be tried whole, the last run is the first one without a refusal: its place is after the
    last growth or start. A run that hangs is the last one too."""
    right = refuser.run(row, "")[0]
    figures = Figures()
    for place in places:
        seen, _, refused = refuser.run(row, what, **{mode: place}, after=after)
        fault = fault_of(right, seen, refused, row.faults(what))
        if fault:
            figures.wrong.append(f"{what} {mode} {place}: {fault}")
        figures.tried += 1
        figures.refused += bool(refused)
        figures.reported += bool(refused) and seen == right
        if len(figures.wrong) > 5 or seen.status is None or (whole and refused == 0):
            return figures
    if whole:
        figures.wrong.append("each run met a refusal")
    return figures


def most_counted(refuser: Refuser, row: Row, what: str) -> int:
    """How many growths or starts a run asks for, at most; schedules differ."""
    return max(refuser.run(row, what)[1] or 0 for _ in range(row.counts))


def every_place(most: int) -> range:
    """The places up to one that no run comes to."""
    return range(1, 2 * most + 100)


def compiled(place: str) -> str:
    library = os.path.join(place, "refuse.so")
    source = TOP / "tests" / "refuse.c"
    subprocess.run(["cc", "-O2", "-shared", "-fPIC", "-o", library, str(source), "-ldl"], check=True)
    return library


def whole_tasks(refuser: Refuser, pool: Executor) -> Iterator[Task]:
    """Each N of the rows that are tried whole."""
    for row in rows(refuser.place):
        for what, mode in row.whole:
            places = every_place(most_counted(refuser, row, what))
            name = f"{row.name}: each of the {named(what, mode)}"
            yield name, pool.submit(try_places, refuser, row, what, mode, places, True)


def drawn_tasks(refuser: Refuser, pool: Executor, rng: random.Random, most: dict[tuple[str, str], int]) -> Iterator[Task]:
    """Some N of each row."""
    for row in rows(refuser.place):
        for what, mode in WAYS:
            key = row.name, what
            if key not in most:
                most[key] = most_counted(refuser, row, what)
            if most[key] and (what, mode) not in row.whole:
                places = rng.sample(range(1, most[key] + 1), min(row.draws, most[key]))
                name = f"{row.name}: some of the {named(what, mode)}"
                yield name, pool.submit(try_places, refuser, row, what, mode, places, False)


def bounded_tasks(refuser: Refuser, pool: Executor) -> Iterator[Task]:
    """Rows within so little address space that the system itself refuses growths and threads."""
    for row in rows(refuser.place):
        if row.name.startswith(("products", "merge by", "auto, merging by")):
            yield f"{row.name}: address space from 6 MB to 1 GB", pool.submit(try_bounds, refuser, row)


def try_workers(refuser: Refuser, row: Row, workers: int, places: Iterable[int]) -> Figures:
    """Refuses each start of the first workers who are called in, by itself and with all after it, and these growths after the last of them.
    Each of these runs has to meet its refusal."""
    figures, starts = Figures(), range(1, workers + 1)
    for mode in ("at", "since"):
        figures.add(try_places(refuser, row, "s", mode, starts, False))
    figures.add(try_places(refuser, row, "g", "at", places, False, after=workers))
    if figures.refused < figures.tried and not figures.wrong:
        figures.wrong.append(f"{figures.tried - figures.refused} runs met no refusal")
    return figures


def worker_tasks(refuser: Refuser, pool: Executor, rng: random.Random) -> Iterator[Task]:
    """What is refused to the workers whom a wave calls in, or who judge windows: a start, or a growth while the others run."""
    for made in (wide_row, searched_row, merged_row):
        for workers in (2, 4):
            row = made(refuser.place, workers)
            most = refuser.run(row, "g", after=workers)[1] or 0
            places = [1, 2, 3] + [rng.randrange(1, max(2, most // 2)) for _ in range(7)]
            name = f"{row.name}: each of the first starts, and growths of the workers"
            yield name, pool.submit(try_workers, refuser, row, workers, places)


def try_bounds(refuser: Refuser, row: Row) -> Figures:
    right, figures = refuser.run(row, "")[0], Figures()
    bounds = [int(6000 * 1.25**i) for i in range(24)]
    for kib in bounds:
        seen = run([refuser.program, *row.words], row.given, HANGS, preexec_fn=lambda: bound(kib))
        # Only the answer shows whether something was refused.
        fault = fault_of(right, seen, 1, row.faults("gs"))
        if fault:
            figures.wrong.append(f"{kib} KiB: {fault}")
        figures.tried += 1
        figures.refused += seen != right
    return figures


def starts_of(refuser: Refuser, made: Callable[[str, int], Row], workers: int) -> int | None:
    """How many threads the run of such a row starts with so many workers."""
    return refuser.run(made(refuser.place, workers), "s")[1]


def bound(kib: int) -> None:
    resource.setrlimit(resource.RLIMIT_AS, (kib << 10, kib << 10))


def named(what: str, mode: str) -> str:
    """A way in words."""
    return {"gs": "growths and starts", "s": "starts"}[what] + {"at": "", "since": " and all behind it"}[mode]


def gather(results: dict[str, Figures], tasks: Iterable[Task]) -> None:
    for name, task in list(tasks):
        results.setdefault(name, Figures()).add(task.result())


def main() -> None:
    parser = harness.parser_with_program(__doc__)
    parser.add_argument("--seconds", type=float, default=180, help="Runs are tried for at least so long; the default is 180.")
    seed = "What is refused is drawn by this text; without it a number is chosen, which is printed."
    parser.add_argument("--seed", default=str(random.SystemRandom().randrange(1 << 32)), help=seed)
    parser.add_argument("--jobs", type=int, default=2, help="So many runs are tried at the same time; the default is 2.")
    settings = parser.parse_args()
    say(f"refusals: seed {settings.seed}")
    tally, rng = Tally("refusals"), random.Random(settings.seed)
    begun = time.monotonic()
    with harness.folder() as place, harness.pool(settings.jobs) as pool:
        refuser = Refuser(settings.program, compiled(place), place)
        results: dict[str, Figures] = {}
        most: dict[tuple[str, str], int] = {}
        gather(results, whole_tasks(refuser, pool))
        gather(results, bounded_tasks(refuser, pool))
        gather(results, worker_tasks(refuser, pool, rng))
        while True:
            gather(results, drawn_tasks(refuser, pool, rng, most))
            is_wrong = any(figures.wrong for figures in results.values())
            if is_wrong or time.monotonic() - begun >= settings.seconds:
                break
        for name, made in (("products", wide_row), ("multipliers by the bare command", searched_row), ("merging", merged_row)):
            starts = [starts_of(refuser, made, workers) for workers in (1, 2, 4, 16)]
            known = [count for count in starts if count is not None]
            tally.check(
                f"{name}: one worker starts no thread, more workers start more",
                starts == known == sorted(set(known)) and known[0] == 0,
                starts,
            )
            tally.figures(f"{name}: 1, 2, 4 and 16 workers start {', '.join(map(str, starts))} threads")
    total = Figures()
    for name, figures in results.items():
        tally.check(f"{name}: {figures.tried} runs", not figures.wrong, "; ".join(figures.wrong[:3]))
        total.add(figures)
    tally.figures(
        f"{total.tried} runs with seed {settings.seed}, {total.refused} met a refusal, " f"{total.reported} of these gave the right report"
    )
    tally.finish()


if __name__ == "__main__":
    harness.ended(main)
