"""What the program must answer: the order that is found, the pairs that are picked, the report, the fault and the status.

The verdicts are those of judging.py. No code is shared with the product.
"""
from __future__ import annotations

import itertools
import re
from dataclasses import dataclass

from judging import Judged, Pair, Paired, Refusal, Unpaired, judge, levels
from harness import Run
from reading import Fault, Netlist, below, read, read_names, split

# The orders that `best` and `auto` try, each within budgets; the cases here need far less than the first budget, so only the limit
# counts. `best` reports by the first order that fits. `auto` builds by the same one and reports as by declared order; if each was given
# up, it judges each pair by its cones, as `cones` and `merge` do at once. If it then leaves a pair of which another attempt could say
# more, it tries declared order last.
CANDIDATES = ["msb-first", "weights", "force-groups"]
# A wave of an attempt may have so many requests for each node of its budget.
REQUESTS_PER_NODE = 2
BY_CONES = ("auto", "cones", "merge")
# The words of --order by which signals are merged, so that an equal pair may be decided however many nodes its diagrams need.
MERGING = ("auto", "merge")
# The end of a line of a difference that may not be the least.
NOT_LEAST = b" (may not be the least)"
TRIED = ("best", *BY_CONES)
FULL = "build: more nodes than the limit"
GIVEN_UP = "build: given up in each order; more memory, or a good order by --order-file, may help"
UNKNOWN = "only: no such output or register"


@dataclass
class Case:
    """What a run is given. `order` is the word of --order, or the bytes of an order file."""

    first: bytes
    second: bytes
    match: str = "name"
    order: str | bytes = "declared"
    # The order is the file's names that are variables, then the other variables as declared.
    extend: bool = False
    sizes: bool = False
    limit: int | None = None
    workers: int = 4
    given: bytes | None = None
    # The order is printed, and nothing compared.
    print_order: bool = False
    # Both texts on standard input, with this line between them.
    divider: bytes | None = None
    # Which variables of an assignment are reported: the word of --assignment, if there is one.
    assignment: str | None = None
    # What is picked: names, or the number of a share and how many there are.
    only: list[str] | None = None
    share: tuple[int, int] | None = None
    # The bytes of an order file in whose order each picked pair is tried first.
    by_hand: bytes | None = None
    # Any difference is enough.
    is_any: bool = False
    # Names of the first netlist, each with the name that the second text has instead.
    pairs: dict[str, str] | None = None


def read_text(place: str, text: bytes) -> Netlist:
    try:
        return read(text)
    except Fault as fault:
        raise Refusal(f"{place}: {fault}") from None


def parts_of(case: Case) -> tuple[bytes, bytes]:
    """The texts as the program gets them: on standard input the first line `%%` divides them, even one of the first text."""
    if case.divider is None:
        return case.first, case.second
    parts = split(case.first + case.divider + case.second)
    if parts is None:
        raise Refusal("standard input: no line %%")
    return parts


def listed_in(text: bytes) -> list[str]:
    """The names of an order file. Raises a Refusal if the program must refuse it."""
    try:
        return read_names(text)
    except Fault as fault:
        raise Refusal(f"order: {fault}") from None


def paired_of(case: Case) -> tuple[Paired, str | list[str]]:
    """The paired netlists of the case, and its order: a word or names. Raises a Refusal if the program must refuse the case."""
    first, second = parts_of(case)
    order: str | list[str] = listed_in(case.order) if isinstance(case.order, bytes) else case.order
    if case.by_hand is not None:
        listed_in(case.by_hand)
    nets = read_text("first", first), read_text("second", second)
    given: Netlist | None = None
    if case.given is not None:
        given = read_text("given", case.given)
        if len(given.outputs) != 1:
            raise Refusal("given: not exactly one output")
    paired = Paired(*nets, case.match, given)
    if case.extend:
        return paired, paired.extended(order)
    return paired, order


# Attempts.


def fits(judged: Judged, budget: int | None) -> bool:
    return budget is None or judged.nodes <= budget


def must_fit(judged: Judged, budget: int | None) -> bool:
    """Whether an attempt must succeed: its nodes fit, and no wave can be given up for its requests."""
    return budget is None or (judged.nodes <= budget and judged.requests() <= REQUESTS_PER_NODE * budget)


# Pairs by their cones.


def cone(paired: Paired, net: Netlist, root: str) -> Netlist:
    """The cone of a signal as a netlist, whose variables have their paired names."""
    met = below(net.gates, root)
    inputs = {s: "v" + paired.name(net, s) for s in [*net.inputs, *net.registers] if s in met}
    called = inputs | {s: "g" + s for s in net.gates if s in met}
    gates = {called[s]: (word, [called[o] for o in operands]) for s, (word, operands) in net.gates.items() if s in met}
    return Netlist(list(inputs.values()), ["o"], gates | {"o": ("BUFF", [called[root]])}, {})


def cones(paired: Paired, pair: Pair) -> Paired:
    given = paired.given and cone(paired, paired.given, paired.given.outputs[0])
    parts = cone(paired, paired.first, pair.first), cone(paired, paired.second, pair.second)
    return Paired(*parts, "name", given)


def orders_of(alone: Paired, by_hand: bytes | None) -> list[str | list[str]]:
    """The orders in which the cones of a pair are tried: that of an order file first, if there is one."""
    listed: list[str | list[str]] = [] if by_hand is None else [alone.extended(["v" + name for name in listed_in(by_hand)])]
    return [*listed, *CANDIDATES]


def may_be_reported(paired: Paired, pair: Pair, case: Case) -> tuple[bool, bool]:
    """Whether the pair may be decided within the limit, and whether it may not be."""
    if case.limit is None:
        return True, False
    budget, alone, may_be_decided = max(1, case.limit // 4), cones(paired, pair), False
    for order in orders_of(alone, case.by_hand):
        result = judge(alone, order, False)
        if must_fit(result, budget):
            return True, False
        may_be_decided |= fits(result, budget)
    return may_be_decided, True


def gates_below(net: Netlist, root: str) -> int:
    return sum(signal in net.gates for signal in below(net.gates, root))


def shares(paired: Paired, pairs: list[Pair], of: int) -> list[int]:
    """By place, the share of each pair: pairs are dealt in serpentine order by falling number of gates, equal ones by their places."""
    weights = [gates_below(paired.first, pair.first) + gates_below(paired.second, pair.second) for pair in pairs]
    order = sorted(range(len(pairs)), key=lambda place: -weights[place])
    serpentine = itertools.cycle([*range(1, of + 1), *range(of, 0, -1)])
    dealt = dict(zip(order, serpentine))
    return [dealt[place] for place in range(len(pairs))]


def picks(word: str, label: str, name: str) -> bool:
    """Whether a word of --only picks the pair of this label and name: each star is any run of bytes, and after NEXT only registers count."""
    pattern = word.removeprefix("NEXT ")
    return (pattern == word or label == "NEXT ") and bool(re.fullmatch(".*".join(map(re.escape, pattern.split("*"))), name, re.S))


def picked(paired: Paired, case: Case, result: Judged) -> tuple[list[Pair], list[Unpaired]]:
    """The pairs that are judged, and what is reported to have no partner."""
    if case.only is not None:
        known = [("", name) for name in paired.first.outputs] + [("NEXT ", name) for name in paired.first.registers]
        if not all(any(picks(word, *one) for one in known) for word in case.only):
            raise Refusal(UNKNOWN)
        of_first = [unmatched for unmatched in result.unmatched if unmatched.side == "FIRST"]
        pairs = [one for one in result.pairs if any(picks(word, one.label, one.name) for word in case.only)]
        return pairs, [one for one in of_first if any(picks(word, one.label, one.name) for word in case.only)]
    if case.share is not None:
        number, of = case.share
        dealt = shares(paired, result.pairs, of)
        pairs = [pair for pair, share in zip(result.pairs, dealt) if share == number]
        return pairs, result.unmatched if number == 1 else []
    return result.pairs, result.unmatched


def shown_line(pair: Pair) -> str:
    """What replaces each line of a difference of the pair that may not be the least, since its assignment is not predicted."""
    return f"DIFFER {pair.label}{pair.name}{NOT_LEAST.decode()}"


def by_cones(paired: Paired, case: Case) -> list[Run]:
    """The reports that are right for a case by cones. A pair has several lines to choose from if an attempt may be given up for its
    requests."""
    result = judge(paired, "declared", False)
    pairs, unmatched = picked(paired, case, result)
    choices = []
    for pair in pairs:
        is_decided, is_left = may_be_reported(paired, pair, case)
        is_equal = pair.line.startswith("EQUAL ")
        is_shown = not is_equal and (is_left or case.is_any)
        lines = [pair.line] * (is_decided or (is_equal and case.order in MERGING))
        choices.append(lines + [shown_line(pair)] * is_shown + [f"UNDECIDED {pair.label}{pair.name}"] * is_left)
    return [report(list(lines), unmatched, case.share) for lines in itertools.product(*choices)]


# Reports.


def report(reported: list[str], unmatched: list[Unpaired], share: tuple[int, int] | None = None) -> Run:
    """The run that reports these lines of pairs, and what has no partner."""
    equal, different, undecided = (sum(line.startswith(word) for line in reported) for word in ("EQUAL ", "DIFFER ", "UNDECIDED "))
    last = f"{equal} equal, {different} different, {len(unmatched)} unmatched"
    last += f", {undecided} undecided" if undecided else ""
    last += f", share {share[0]} of {share[1]}" if share else ""
    status = 1 if different or unmatched else 3 if undecided else 0
    lines = [*reported, *(f"ONLY {one.side} {one.label}{one.name}" for one in unmatched), last]
    return Run(status, "".join(line + "\n" for line in lines).encode(), b"")


def report_of(result: Judged) -> Run:
    return report([pair.line for pair in result.pairs], result.unmatched)


def run_of(refusal: Refusal) -> Run:
    return Run(refusal.status, b"", f"bddcheck: {refusal}\n".encode())


def order_of(paired: Paired, order: str | list[str]) -> Run:
    return Run(0, "".join(name + "\n" for name in levels(paired, order)).encode(), b"")


# The whole run.


def attempts(paired: Paired, case: Case) -> tuple[list[tuple[str, Judged]], bool, bool]:
    """What attempts of the whole may come to: the orders whose attempt may decide it, whether all may be given up, and whether each
    needs more nodes than the limit."""
    found, over = [], True
    for order in CANDIDATES:
        result = judge(paired, order, case.sizes)
        if case.limit is None or fits(result, case.limit):
            found.append((order, result))
            over = False
        if case.limit is None or must_fit(result, case.limit):
            return found, False, False
    return found, True, over


def best(paired: Paired, case: Case) -> list[Run]:
    found, may_be_none, over = attempts(paired, case)
    runs = [order_of(paired, order) if case.print_order else report_of(result) for order, result in found]
    runs += [run_of(Refusal(FULL, 3))] if over else []
    return runs + ([run_of(Refusal(GIVEN_UP, 3))] if may_be_none else [])


def auto(paired: Paired, case: Case) -> list[Run]:
    found, may_be_none, _ = attempts(paired, case)
    declared = judge(paired, "declared", False)
    runs = [report_of(declared)] if found else []
    for seen in by_cones(paired, case) if may_be_none or case.is_any else []:
        is_left = b"UNDECIDED " in seen.out or (NOT_LEAST in seen.out and not case.is_any)
        if is_left and fits(declared, case.limit):
            runs.append(report_of(declared))
        if not is_left or (may_be_none and not must_fit(declared, case.limit)):
            runs.append(seen)
    return runs


def judged(case: Case) -> Judged:
    """What the case must give in one order. Raises a Refusal if the program must refuse the case."""
    paired, order = paired_of(case)
    result = judge(paired, order, case.sizes)
    if case.limit is not None and not fits(result, case.limit):
        raise Refusal(FULL, 3)
    return result


DIFFER = re.compile(rb"DIFFER ((?:NEXT )?\S+) at((?: [^\s=]+=[01])*)( first=[01] second=[01].*)")


def reported(case: Case, paired: Paired, seen: Run) -> Run:
    """The run with only those variables in its assignments that the case's --assignment asks for."""
    if case.assignment not in ("ones", "support"):
        return seen
    supports = judge(paired, "declared", False).supports if case.assignment == "support" else {}

    def line(found: re.Match[bytes]) -> bytes:
        label, bits, values = found.groups()
        among = supports.get(label.decode(), ())
        kept = [bit for bit in bits.split() if (bit[:-2].decode() in among if case.assignment == "support" else bit.endswith(b"=1"))]
        return b"DIFFER " + label + b" at" + b"".join(b" " + bit for bit in kept) + values

    return Run(seen.status, DIFFER.sub(line, seen.out), seen.err)


def is_difference(pair: Pair, names: list[str], bits: list[bytes], values: bytes) -> bool:
    """Whether the condition holds at an assignment, and the two functions have these values there, which differ."""
    ones = {bit[:-2].decode() for bit in bits if bit.endswith(b"=1")}
    place = sum((name in ones) << (len(names) - 1 - level) for level, name in enumerate(names))
    first, second, holds = (table >> place & 1 for table in pair.tables)
    return bool(holds) and first != second and values == f" first={first} second={second}".encode()


def checked(case: Case, seen: Run) -> Run:
    """The run with one line for each difference that may not be the least, if it is a difference; its assignment is not predicted."""
    if NOT_LEAST not in seen.out:
        return seen
    paired, _ = paired_of(case)
    names = levels(paired, "declared")
    pairs = {f"{pair.label}{pair.name}".encode(): pair for pair in judge(paired, "declared", False).pairs}
    lines = []
    for line in seen.out.split(b"\n"):
        found = DIFFER.fullmatch(line.removesuffix(NOT_LEAST)) if line.endswith(NOT_LEAST) else None
        if found and is_difference(pairs[found[1]], names, found[2].split(), found[3]):
            line = shown_line(pairs[found[1]]).encode()
        lines.append(line)
    return Run(seen.status, b"\n".join(lines), seen.err)


def answers(case: Case) -> list[Run]:
    """The runs that are right for the case: one, or several if orders are tried within a limit."""
    try:
        paired, order = paired_of(case)
        if isinstance(order, str) and order in TRIED:
            return [
                reported(case, paired, seen)
                for seen in {"best": best, "auto": auto, "cones": by_cones, "merge": by_cones}[order](paired, case)
            ]
        return [order_of(paired, order) if case.print_order else reported(case, paired, report_of(judged(case)))]
    except Refusal as refusal:
        return [run_of(refusal)]
