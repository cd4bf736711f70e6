#!/usr/bin/env python3
"""Random pairs of netlists, whole and damaged: the program must give the bytes and the status that answering.py gives.

usage: tests/fuzz.py PROGRAM [--seconds S] [--seed N] [--case KIND:I] [--jobs J]

It takes S seconds (120) by J processes (2). The seed is printed; with it each case is made again, and --case makes only
one. The files of a case that fails are kept, and reported.
"""
from __future__ import annotations

import itertools
import random
import re
import string
import sys
import time
from collections.abc import Callable, Iterator, Mapping, Sequence
from dataclasses import replace
from typing import NamedTuple

import harness
from answering import BY_CONES, CANDIDATES, MERGING, TRIED, Case, answers, checked, cones, judged, paired_of
from judging import ORDERS, Refusal, judge
from harness import Run, Tally, run, say

WORDS = ["AND", "NAND", "OR", "NOR", "XOR", "XNOR", "NOT", "BUFF", "BUF"]
WIDE = WORDS[:6]
OPPOSITE = {"AND": "NAND", "NAND": "AND", "OR": "NOR", "NOR": "OR", "XOR": "XNOR", "XNOR": "XOR"}
OPPOSITE |= {"NOT": "BUFF", "BUFF": "NOT", "BUF": "NOT"}
ODD_NAMES = ["INPUT", "OUTPUT", "and", "NOT", "DFF", "x[0]", "x[1]", "%%", "a.b", "~", "0", "_", "!", "NEXT", "-", "\\q"]
# Numbers past what 64 bits hold, and equal ones.
ODD_NAMES += ["n18446744073709551616", "m18446744073709551615", "k99999999999999999999", "k7", "j7", "j007"]


class Statement(NamedTuple):
    """A statement of a netlist: INPUT or OUTPUT with a name, or a gate's word with its name and operands."""

    word: str
    name: str
    operands: Sequence[str] = ()

    def is_port(self) -> bool:
        return not self.operands


def names(rng: random.Random, count: int, odd: bool) -> list[str]:
    pool = list(ODD_NAMES) if odd else []
    pool += [letter + str(i) for letter in "abxy" for i in range(10)]
    if odd and rng.random() < 0.05:
        pool.append("".join(rng.choices(string.ascii_letters, k=255)))
    chosen = rng.sample(pool, min(count, len(pool)))
    return chosen + [f"s{i}" for i in range(count - len(chosen))]


def random_netlist(rng: random.Random, inputs: list[str], gate_count: int, output_count: int) -> list[Statement]:
    signals, statements = list(inputs), [Statement("INPUT", name) for name in inputs]
    odd = rng.random() < 0.3
    new = [name for name in names(rng, gate_count + len(inputs), odd) if name not in inputs][:gate_count]
    registers = new[: rng.randrange(3)] if rng.random() < 0.5 else []
    signals += registers
    for name in new[len(registers) :]:
        if not signals:
            break
        word = rng.choice(WORDS)
        recent = signals[-rng.choice([4, 8, 100]) :]
        operands = rng.choices(recent, k=rng.choice([1, 2, 2, 2, 3, 5]) if word in WIDE else 1)
        statements.append(Statement(word, name, operands))
        signals.append(name)
    statements += [Statement("DFF", name, [rng.choice(signals)]) for name in registers]
    for _ in range(output_count if signals else 0):
        # Late signals are the interesting ones; inputs and repeated outputs come as well.
        statements.append(Statement("OUTPUT", rng.choice(signals[-6:] if rng.random() < 0.8 else signals)))
    return statements


# Local rules: each gives the statements that compute a gate's function in another way, or none if it does not suit the gate. New signals
# have names that begin with `inner`; `gates` has the gates by name.

Gates = Mapping[str, Statement]
Rule = Callable[[random.Random, Statement, str, Gates], list[Statement]]


def by_opposite(_rng: random.Random, gate: Statement, inner: str, _gates: Gates) -> list[Statement]:
    return [Statement(OPPOSITE[gate.word], inner, gate.operands), Statement("NOT", gate.name, [inner])]


def by_other_order(rng: random.Random, gate: Statement, _inner: str, _gates: Gates) -> list[Statement]:
    return [gate._replace(operands=rng.sample(gate.operands, len(gate.operands)))]


def by_de_morgan(_rng: random.Random, gate: Statement, inner: str, _gates: Gates) -> list[Statement]:
    turned = {"AND": "NOR", "NAND": "OR", "OR": "NAND", "NOR": "AND"}
    if gate.word not in turned:
        return []
    made = [Statement("NOT", f"{inner}.{i}", [operand]) for i, operand in enumerate(gate.operands)]
    return [*made, Statement(turned[gate.word], gate.name, [one.name for one in made])]


def by_parts(_rng: random.Random, gate: Statement, inner: str, _gates: Gates) -> list[Statement]:
    """The first two operands by themselves."""
    if len(gate.operands) < 3:
        return []
    plain = gate.word if gate.word in ("AND", "OR", "XOR") else OPPOSITE[gate.word]
    return [Statement(plain, inner, gate.operands[:2]), gate._replace(operands=[inner, *gate.operands[2:]])]


def by_four_nands(_rng: random.Random, gate: Statement, inner: str, _gates: Gates) -> list[Statement]:
    if gate.word not in ("XOR", "XNOR") or len(gate.operands) != 2:
        return []
    made = [Statement("NAND", inner, gate.operands)]
    made += [Statement("NAND", f"{inner}.{i}", [operand, inner]) for i, operand in enumerate(gate.operands)]
    return [*made, Statement("NAND" if gate.word == "XOR" else "AND", gate.name, [one.name for one in made[1:]])]


def with_operand(gate: Statement, place: int, name: str) -> Statement:
    """The gate with another operand at a place."""
    return gate._replace(operands=[*gate.operands[:place], name, *gate.operands[place + 1 :]])


def by_double_negation(rng: random.Random, gate: Statement, inner: str, _gates: Gates) -> list[Statement]:
    place = rng.randrange(len(gate.operands))
    once, twice = f"{inner}.0", f"{inner}.1"
    return [Statement("NOT", once, [gate.operands[place]]), Statement("NOT", twice, [once]), with_operand(gate, place, twice)]


def by_distribution(rng: random.Random, gate: Statement, inner: str, gates: Gates) -> list[Statement]:
    """AND over OR or XOR, and OR over AND."""
    plain = {"NAND": "AND", "NOR": "OR"}.get(gate.word, gate.word)
    over = {"AND": ("OR", "XOR"), "OR": ("AND",)}.get(plain, ())
    places = [place for place, operand in enumerate(gate.operands) if operand in gates and gates[operand].word in over]
    if len(gate.operands) != 2 or not places:
        return []
    place = rng.choice(places)
    word, _, operands = gates[gate.operands[place]]
    made = [Statement(plain, f"{inner}.{i}", [gate.operands[1 - place], operand]) for i, operand in enumerate(operands)]
    return [*made, Statement(word if gate.word == plain else OPPOSITE[word], gate.name, [one.name for one in made])]


def by_doubling(rng: random.Random, gate: Statement, inner: str, gates: Gates) -> list[Statement]:
    """An operand that other gates may use as well is made once more."""
    place = rng.randrange(len(gate.operands))
    if gate.operands[place] not in gates:
        return []
    return [gates[gate.operands[place]]._replace(name=inner), with_operand(gate, place, inner)]


RULES: list[Rule] = [
    by_opposite,
    by_other_order,
    by_de_morgan,
    by_parts,
    by_four_nands,
    by_double_negation,
    by_distribution,
    by_doubling,
]


def rewritten(rng: random.Random, statements: list[Statement], begin: str = "r") -> list[Statement]:
    """The same functions by other gates, whose new names begin with a letter and a number that no other name has."""
    gates = {statement.name: statement for statement in statements if not statement.is_port() and statement.word != "DFF"}
    made: list[Statement] = []
    for number, statement in enumerate(statements):
        if statement.is_port() or statement.word == "DFF" or rng.random() < 0.4:
            made.append(statement)
            continue
        made += rng.choice(RULES)(rng, statement, f"{begin}.{number}", gates) or [statement]
    return made


def changed(rng: random.Random, statements: list[Statement]) -> list[Statement]:
    """Some gate is another one, or some register has another next state."""
    places = [i for i, statement in enumerate(statements) if statement.word in [*WIDE, "DFF"]]
    if not places:
        return statements
    place = rng.choice(places)
    word, name, operands = statements[place]
    if word != "DFF" and rng.random() < 0.5:
        word = rng.choice(WIDE)
    else:
        inputs = [statement.name for statement in statements if statement.word == "INPUT"]
        operands = [*operands[:-1], rng.choice(inputs or operands)]
    return [*statements[:place], Statement(word, name, operands), *statements[place + 1 :]]


def renamed(rng: random.Random, statements: list[Statement], match: str) -> list[Statement]:
    """Other names, and ports in another order if names pair them; at times a port too many or too few."""
    if rng.random() < 0.3:
        statements = rng.sample(statements, len(statements)) if match == "name" else statements
    if match == "position" and rng.random() < 0.7:
        known = {statement.name for statement in statements}
        called = {name: f"q{i}" if rng.random() < 0.7 else name for i, name in enumerate(sorted(known))}
        if len(set(called.values())) == len(called) and not known & {f"q{i}" for i in range(len(known))}:
            statements = [Statement(s.word, called[s.name], [called.get(o, o) for o in s.operands]) for s in statements]
    if rng.random() < 0.1:
        ports = [i for i, statement in enumerate(statements) if statement.word == "OUTPUT"]
        if ports:
            place = rng.choice(ports)
            statements = statements[:place] + statements[place + 1 :]
    if rng.random() < 0.1:
        # A register is forgotten: its signal is an input.
        forgotten = rng.choice([None, *(statement.name for statement in statements if statement.word == "DFF")])
        statements = [Statement("INPUT", s.name) if s.word == "DFF" and s.name == forgotten else s for s in statements]
    if rng.random() < 0.1:
        statements = [Statement("INPUT", "more"), *statements, Statement("OUTPUT", "more")]
    return statements


# Layout.


def blank(rng: random.Random, needed: bool = False) -> str:
    if rng.random() < 0.8:
        return " " if needed else ""
    return rng.choice([" ", "\t", "  ", "\n", "\r\n", " # a comment, with ( and \xff\n", "#\n"])


def cased(rng: random.Random, word: str) -> str:
    return rng.choice([word, word, word.lower(), word.capitalize()])


def laid_out(rng: random.Random, statements: list[Statement], plain: bool) -> bytes:
    """The text of a netlist: as tools write it if it is to be `plain`, else with all freedom of the format."""
    end = "\r\n" if rng.random() < 0.15 else "\n"
    text = []
    for statement in statements:
        if statement.is_port():
            words = [cased(rng, statement.word), "(", statement.name, ")"]
        else:
            words = [statement.name, "=", cased(rng, statement.word), "("]
            words += [part for operand in statement.operands for part in (operand, ",")][:-1] + [")"]
        if plain:
            text.append("".join(words).replace("=", " = ").replace(",", ", ") + end)
        else:
            text.append("".join(word + blank(rng) for word in words) + rng.choice([end, end, " ", ""]))
    if rng.random() < 0.1:
        text.insert(0, "# a netlist" + end)
    return "".join(text).encode("latin-1")


DAMAGE = b"(),=#% \n\r\tA1x\x00\x7f\x80\xff"


def damaged(rng: random.Random, text: bytes) -> bytes:
    """A text with a few bytes or lines changed, dropped, doubled or exchanged."""
    for _ in range(rng.choice([1, 1, 1, 2, 3])):
        way = rng.randrange(8)
        at = rng.randrange(len(text)) if text else 0
        if way == 0:
            text = text[:at] + bytes([rng.choice(DAMAGE)]) + text[at + 1 :]
        elif way == 1:
            text = text[:at] + text[at + 1 :]
        elif way == 2:
            text = text[:at] + text[at : at + 1] + text[at:]
        elif way == 3:
            text = text[:at] + bytes([rng.choice(DAMAGE)]) + text[at:]
        elif way == 4:
            text = text[:at]
        else:
            text = damaged_lines(rng, text, way)
    return text


def damaged_lines(rng: random.Random, text: bytes, way: int) -> bytes:
    parts = text.split(b"\n")
    i, j = rng.randrange(len(parts)), rng.randrange(len(parts))
    if way == 5:
        parts[i], parts[j] = parts[j], parts[i]
    elif way == 6:
        parts.insert(i, parts[j])
    else:
        del parts[i]
    return b"\n".join(parts)


WRONG = [
    b"x = FOO(a)", b"q = DFF(a)", b"x = NOT(a, b)", b"OUTPUT(nowhere)", b"x = AND()", b"f(a)", b"INPUT a", b"x == y", b"INPUT()",
    b"x = lut 0x8 (a, b)", b"x = vdd", b"c1 = AND(c2)\nc2 = OR(c1, c1)", b"INPUT(" + b"n" * 256 + b")", b"x = INPUT(a)",
    b"OUTPUT(" + b"n" * 255 + b")", b"x = BUFF(x)", b"=", b"x", b"x =", b"x = AND", b"x = AND(", b"x = AND(y", b"x = AND(y,", b")",
]  # fmt: skip


# Cases by kind.


def sources_of(statements: list[Statement]) -> list[str]:
    return [s.name for s in statements if s.word in ("INPUT", "DFF")]


def ends_of(statements: list[Statement]) -> list[str]:
    return [s.name for s in statements if s.word in ("OUTPUT", "DFF")]


def pair_of_netlists(rng: random.Random, match: str, most_inputs: int) -> tuple[list[Statement], list[Statement]]:
    inputs = names(rng, rng.randrange(most_inputs + 1), rng.random() < 0.2)
    first = random_netlist(rng, inputs, rng.randrange(1, 25), rng.randrange(6))
    way = rng.random()
    if way < 0.6:
        second = rewritten(rng, first)
    elif way < 0.85:
        second = changed(rng, rewritten(rng, first))
    else:
        others = names(rng, rng.randrange(most_inputs + 1), rng.random() < 0.2)
        second = random_netlist(rng, others[:most_inputs], rng.randrange(1, 15), rng.randrange(6))
    return first, renamed(rng, second, match)


def rewritten_pair(rng: random.Random) -> tuple[list[Statement], list[Statement]]:
    """A netlist, and what one or two rounds of local rules make of it; at times one gate is then another one."""
    first = random_netlist(rng, names(rng, rng.randrange(2, 8), False), rng.randrange(5, 30), rng.randrange(1, 5))
    second = first
    for begin in rng.choice(["r", "rs"]):
        second = rewritten(rng, second, begin)
    return first, changed(rng, second) if rng.random() < 0.4 else second


def listed(rng: random.Random, first: list[Statement], second: list[Statement], match: str) -> bytes:
    """An order file: mostly right, at times with a name too many, too few, or damaged."""
    wanted = list(dict.fromkeys(sources_of(first) + (sources_of(second) if match == "name" else [])))
    rng.shuffle(wanted)
    way = rng.random()
    if way < 0.1 and wanted:
        wanted.pop(rng.randrange(len(wanted)))
    elif way < 0.2 and wanted:
        wanted.insert(rng.randrange(len(wanted) + 1), rng.choice(wanted))
    elif way < 0.25:
        wanted.insert(rng.randrange(len(wanted) + 1), "nobody")
    text = "".join(name + rng.choice(["\n", " ", "\t", "\r\n", " # then\n"]) for name in wanted).encode("latin-1")
    return damaged(rng, text) if way > 0.9 else text


def make_case(kind: str, rng: random.Random) -> Case:
    match = "position" if kind == "position" else rng.choice(["name", "name", "name", "position"])
    if kind == "rewritten":
        first, second = rewritten_pair(rng)
    else:
        first, second = pair_of_netlists(rng, match, 10 if rng.random() < 0.1 else 6)
    plain = rng.random() < 0.4
    case = Case(laid_out(rng, first, plain), laid_out(rng, second, plain), match, workers=rng.choice([1, 2, 3, 4, 16]))
    case.is_any = kind == "any" or (kind in BY_CONES and rng.random() < 0.2)
    case.order = (
        rng.choice(BY_CONES)
        if kind in ("coned", "any")
        else rng.choice(list(ORDERS))
        if kind in ("position", "damaged", "input", "limit", "print", "pairs", "rewritten")
        else kind
    )
    if kind == "list" or (kind in ("position", "limit", "print") and rng.random() < 0.3):
        case.order = listed(rng, first, second, match)
        case.extend = rng.random() < 0.4
    if kind in ("sizes", "given"):
        case.order = rng.choice(list(ORDERS))
    if case.order in BY_CONES and kind in ("sizes", "print"):
        case.order = "declared"
    if kind in ("only", "share"):
        pick(rng, case, kind, first, second)
    if kind == "rewritten":
        case.order, case.limit = "merge", rng.randrange(2, 100)
    case.sizes = kind == "sizes" or (rng.random() < 0.3 and case.order not in BY_CONES)
    case.print_order = kind == "print"
    if kind == "damaged":
        damage(rng, case)
    if kind == "input":
        case.divider = rng.choice([b"%%\n", b"%%\n", b"%%\r\n", b"%% \n", b"%%"])
        if rng.random() < 0.8:
            case.first += b"\n"
        if rng.random() < 0.1:
            case.first = damaged(rng, case.first)
    if kind == "given" or (kind in (*BY_CONES, "coned", "any", "only", "share", "rewritten") and rng.random() < 0.3):
        condition = random_netlist(rng, sources_of(first)[:4] or ["g"], rng.randrange(1, 6), 1)
        case.given = laid_out(rng, condition, plain)
        if rng.random() < 0.1:
            case.given = damaged(rng, case.given)
    if kind == "pairs":
        case.match = "name"
        rename(rng, case, first, second)
    if rng.random() < 0.3:
        case.assignment = rng.choice(["all", "support", "ones"])
    return case


def ports_of(statements: list[Statement]) -> set[str]:
    return {s.name for s in statements if s.word in ("INPUT", "OUTPUT", "DFF")}


def rename(rng: random.Random, case: Case, first: list[Statement], second: list[Statement]) -> None:
    """Other names in the second text for some inputs, outputs and registers that both netlists have, and the pairs that give the names back.
    At times two of those that are left exchange their names."""
    known = {s.name for s in (*first, *second)}
    both = sorted(ports_of(first) & ports_of(second))
    others = {name: f"{name}_{number}" for number, name in enumerate(rng.sample(both, rng.randrange(len(both) + 1)))}
    case.pairs = {name: other for name, other in others.items() if other not in known and len(name) < 250}
    rest = [name for name in both if name not in case.pairs]
    if len(rest) > 1 and rng.random() < 0.5:
        one, two = rng.sample(rest, 2)
        case.pairs |= {one: two, two: one}


def with_pairs(text: bytes, pairs: dict[str, str]) -> bytes:
    """The text with the second names of the pairs. A name that a parenthesis follows is a keyword, and comments are kept."""
    new = {name.encode(): other.encode() for name, other in pairs.items()}
    # A comment is taken up to its end, also if a parenthesis is in it.
    is_called = re.compile(rb"(?:\s|#[^\n]*\n)*\(")

    def word(found: re.Match[bytes]) -> bytes:
        return found[0] if is_called.match(text, found.end()) else new.get(found[0], found[0])

    return re.sub(rb"#[^\n]*|[^\s(),=#]+", word, text)


def patterned(rng: random.Random, name: str) -> str:
    """The name, or a pattern that matches it; at times of registers only."""
    if name and rng.random() < 0.4:
        begin, end = sorted(rng.choices(range(len(name) + 1), k=2))
        name = name[:begin] + "*" * rng.choice([1, 1, 2]) + name[end:]
    return f"NEXT {name}" if rng.random() < 0.2 else name


def pick(rng: random.Random, case: Case, kind: str, first: list[Statement], second: list[Statement]) -> None:
    """Names of outputs and registers, mostly the first netlist's, or one of some shares; at times within a limit."""
    case.order = "cones"
    if kind == "only":
        known = ends_of(first) or ["nobody"]
        others = [*known, *ends_of(second), *sources_of(first), "nobody"]
        chosen = rng.choices(known if rng.random() < 0.8 else others, k=rng.choice([1, 1, 2, 3]))
        case.only = [patterned(rng, name) for name in chosen]
        both = [s.name for s in first if s.word == "DFF" and s.name in sources_of(second)]
        if both and rng.random() < 0.3:
            # Only the second netlist has an output of this name.
            case.only = both[:1]
            case.second += f"\nOUTPUT({both[0]})\n".encode()
    else:
        of = rng.choice([1, 2, 2, 3, 4, 9])
        case.share = rng.randrange(1, of + 1), of
    if rng.random() < 0.5:
        case.limit = rng.choice([rng.randrange(1, 9), rng.randrange(1, 200), 4 * rng.randrange(1, 60)])
    if rng.random() < 0.4:
        case.by_hand = listed(rng, first, second, case.match)


def damage(rng: random.Random, case: Case) -> None:
    for place in ("first", "second"):
        if rng.random() < 0.6:
            text = getattr(case, place)
            if rng.random() < 0.3:
                parts = text.split(b"\n")
                parts.insert(rng.randrange(len(parts) + 1), rng.choice(WRONG))
                text = b"\n".join(parts)
            else:
                text = damaged(rng, text)
            setattr(case, place, text)


KINDS = [*ORDERS, "list", "position", "sizes", "limit", "coned", "any", "only", "share", "print", "input", "damaged", "given", "pairs"]
KINDS += ["rewritten"]
# Those that take the limits of each case.
LIMITED = ("limit", "coned", "any")
# A pair that is rewritten is compared by so many workers, which have to give the same bytes.
WORKERS = (1, 2, 4)


# Running.


def is_picking(case: Case) -> bool:
    return case.only is not None or case.share is not None


def default_of(case: Case) -> str:
    """The order if no word and no file names one."""
    if is_picking(case):
        return "cones"
    return "declared" if case.sizes or case.print_order or case.limit is not None else "auto"


def words_of(program: str, case: Case, place: str) -> list[object]:
    """The words of the case, whose files are written."""
    words: list[object] = [program, "--workers", str(case.workers)]
    if case.match != "name":
        words += ["--match", case.match]
    if isinstance(case.order, bytes):
        words += ["--order-file", harness.written(place, "order", case.order), *(["--extend"] if case.extend else [])]
    elif case.by_hand is not None:
        words += ["--order-file", harness.written(place, "order", case.by_hand), "--extend"]
    elif case.order != default_of(case):
        words += ["--order", case.order]
    elif case.workers == 1:
        # The default by its name.
        words += ["--order", case.order]
    elif case.workers == 2 and is_picking(case):
        # Another name of it.
        words += ["--order", "auto"]
    words += [f"--only={name}" for name in case.only or []]
    if case.share is not None:
        words += ["--share", "{}/{}".format(*case.share)]
    if case.assignment is not None:
        words += ["--assignment", case.assignment]
    if case.sizes:
        words.append("--sizes")
    if case.print_order:
        words.append("--print-order")
    if case.limit is not None:
        words += ["--limit", str(case.limit)]
    if case.given is not None:
        words += ["--given", harness.written(place, "given.bench", case.given)]
    if case.is_any:
        words += ["--difference", "any"]
    if case.workers == 3:
        # A run that ends before its time is over is as without the option.
        words += ["--seconds", "600"]
    second = case.second
    if case.pairs is not None:
        listed = "".join(f"{name} {other}\n" for name, other in case.pairs.items())
        words += ["--pairs", harness.written(place, "pairs", listed.encode())]
        second = with_pairs(case.second, case.pairs)
    if case.divider is None:
        words += [harness.written(place, "first.bench", case.first), harness.written(place, "second.bench", second)]
    return words


def needs_of(case: Case) -> set[int]:
    """The nodes that are needed in the orders of the case, and four times those of a few pairs by their cones."""
    if case.order not in TRIED:
        return {judged(case).nodes}
    paired, _ = paired_of(case)
    whole = [judge(paired, order, False) for order in [*CANDIDATES, "declared"]]
    needs = set[int]() if case.order == "cones" else {result.nodes for result in whole}
    if case.order in BY_CONES:
        for pair in whole[0].pairs[:3]:
            alone = cones(paired, pair)
            needs.add(4 * min(judge(alone, order, False).nodes for order in CANDIDATES))
    return needs


def limits_of(case: Case) -> list[int | None]:
    """A kind of its own: the nodes that are needed are enough, and one less is not."""
    try:
        needs = sorted(needs_of(case))
    except Refusal:
        return [None]
    return [limit for need in needs for limit in (need, need - 1) if limit >= 1] or [1]


def taken_again(program: str, case: Case, order: bytes, place: str) -> tuple[Run, Run]:
    """What the case gives if it is compared, and what it gives if it is compared by the printed order as its order file."""
    plain = replace(case, print_order=False)
    listed_again = replace(plain, order=order)
    return run(words_of(program, plain, place), input_of(case)), run(words_of(program, listed_again, place), input_of(case))


def variants(kind: str, case: Case) -> Iterator[Case]:
    """The case, or what some kinds make of it: one for each of its limits, or for each order by which signals are merged, within limits at
    which diagrams of the whole, of the pairs or of neither fit."""
    if kind in LIMITED:
        yield from (replace(case, limit=limit) for limit in limits_of(case))
    elif kind == "rewritten":
        yield from (replace(case, order=order, limit=limit) for order in MERGING for limit in (1, case.limit, None))
    else:
        yield case


def input_of(case: Case) -> bytes:
    """What the case gives on standard input."""
    return b"" if case.divider is None else case.first + case.divider + case.second


def disagreement(program: str, case: Case, place: str) -> str | None:
    """None if the answers agree, else what is reported."""
    wanted = answers(case)
    words = words_of(program, case, place)
    seen = run(words, input_of(case))
    seen = harness.without_cause(seen) if seen.out else seen
    seen = harness.unhelped(seen) if seen.err else checked(case, seen)
    if case.print_order and seen in wanted and seen.status == 0:
        again, seen = taken_again(program, case, seen.out, place)
        wanted = [again]
    if seen in wanted:
        return None
    files = {"first.bench": case.first, "second.bench": case.second, "input": input_of(case)}
    if isinstance(case.order, bytes):
        files["order"] = case.order
    where = harness.kept("fuzz", files)
    return f"{' '.join(map(str, words[1:]))}; files in {where}: {seen}; wanted {wanted}"


def disagreement_of_workers(program: str, case: Case, place: str) -> str | None:
    """None if the case gives the same bytes by each of some numbers of workers, else what is reported."""
    runs = [run(words_of(program, replace(case, workers=workers), place), input_of(case)) for workers in WORKERS]
    if all(seen == runs[0] for seen in runs):
        return None
    where = harness.kept("fuzz", {"first.bench": case.first, "second.bench": case.second})
    return f"--order {case.order!r} --limit {case.limit}; files in {where}; by {WORKERS} workers: {', '.join(map(str, runs))}"


def try_case(program: str, seed: str, kind: str, index: int, place: str) -> str | None:
    """None if the answers agree, else what is reported."""
    for case in variants(kind, make_case(kind, random.Random(f"{seed}:{kind}:{index}"))):
        reported = disagreement(program, case, place)
        if reported is None and kind == "rewritten":
            reported = disagreement_of_workers(program, case, place)
        if reported is not None:
            return f"--seed {seed} --case {kind}:{index}: {reported}"
    return None


def try_many(
    program: str, seed: str, kinds: list[str], begin: int, step: int, until: float
) -> tuple[dict[str, int], list[tuple[str, str]]]:
    """Tries cases of all kinds in turn, until the time is over: how many of each kind, and the failed ones with their kinds."""
    tried = {kind: 0 for kind in kinds}
    failed: list[tuple[str, str]] = []
    with harness.folder() as place:
        for index in itertools.count(begin, step):
            for kind in kinds:
                if time.monotonic() >= until:
                    return tried, failed
                reported = try_case(program, seed, kind, index, place)
                tried[kind] += 1
                if reported:
                    failed.append((kind, reported))
                    if len(failed) > 20:
                        return tried, failed
    return tried, failed


def fuzz(program: str, tally: Tally, seed: str, seconds: float, jobs: int) -> None:
    tried = {kind: 0 for kind in KINDS}
    failed: list[tuple[str, str]] = []
    until = time.monotonic() + seconds
    with harness.pool(jobs) as pool:
        parts = [pool.submit(try_many, program, seed, KINDS, job, jobs, until) for job in range(jobs)]
        for part in parts:
            counts, reported = part.result()
            failed += reported
            for kind in KINDS:
                tried[kind] += counts[kind]
    for kind in KINDS:
        wrong = [reported for which, reported in failed if which == kind]
        tally.check(f"{kind}: {tried[kind]} cases", tried[kind] and not wrong, "; ".join(wrong[:3]))
    counted = ", ".join(f"{count} {kind}" for kind, count in tried.items())
    tally.figures(f"{sum(tried.values())} cases with seed {seed}: {counted}")


def main() -> None:
    parser = harness.parser_with_program(__doc__)
    parser.add_argument("--seconds", type=float, default=120, help="Cases are tried for so long; the default is 120.")
    seed = "The cases are drawn by this text; without it a number is chosen, which is printed."
    parser.add_argument("--seed", default=str(random.SystemRandom().randrange(1 << 32)), help=seed)
    parser.add_argument("--case", metavar="KIND:I", help="Only this case is tried.")
    parser.add_argument("--jobs", type=int, default=2, help="So many processes try cases at the same time; the default is 2.")
    settings = parser.parse_args()
    if settings.case:
        kind, index = settings.case.split(":")
        with harness.folder() as place:
            reported = try_case(settings.program, settings.seed, kind, int(index), place)
        sys.exit(reported or "agrees")
    tally = Tally("fuzz")
    say(f"fuzz: seed {settings.seed}")
    fuzz(settings.program, tally, settings.seed, settings.seconds, settings.jobs)
    tally.finish()


if __name__ == "__main__":
    harness.ended(main)
