#!/usr/bin/env python3
"""Makes pages of reports by tools/page.py. The data of each page is compared with the report, with what --explain says of the same pair, and
with values that are computed here. Then the pages are opened in a headless Chromium: what they show, filters, sorting, choosing by mouse
and by keyboard, how long this takes with 4,000 pairs, contrast, narrow windows, and that a page asks for nothing but itself.

usage: tests/page.py PROGRAM [--seed N] [--pictures FOLDER]

FOLDER gets a picture of each kind of page, to look at.
"""
from __future__ import annotations

import json
import pathlib
import random
import re
import shutil
import sys
from collections.abc import Callable, Sequence
from typing import Any

import browser
import harness
from browser import Browser
from explained import Net, changed, random_net
from harness import C17, C17B, TOP, Tally
from objects import BUSES

PAGE = TOP / "tools" / "page.py"
S27 = TOP / "examples" / "s27.bench"
RENAMED = TOP / "examples" / "s27_renamed.bench"
# Names that HTML, JSON and Graphviz have to escape.
ODD = {b"10": b"</script><b>", b"11": b'"\\N&lt;', b"19": b"<!--", b"23": b"\\"}
MANY = 4000
# A report, or a part of one or of a page's data.
JsonObject = dict[str, Any]


def data_of(path: pathlib.Path) -> JsonObject:
    """What a page has of its report."""
    return dict(json.loads(path.read_text().split('<script type="application/json" id="report">')[1].split("</script>")[0]))


class Maker:
    """Makes reports by the program, and pages of them."""

    def __init__(self, tally: Tally, program: str, place: str) -> None:
        self.tally, self.program, self.place = tally, program, pathlib.Path(place)

    def report(self, name: str, files: Sequence[object], *words: str) -> pathlib.Path:
        seen = harness.run([self.program, "--format", "json", *words, *files])
        self.tally.check(f"{name}: there is a report", seen.status in (0, 1, 3), seen)
        return harness.written(self.place, f"{name}.json", seen.out)

    def page(self, name: str, report: pathlib.Path, *words: object) -> pathlib.Path:
        """The page of a report."""
        out = self.place / f"{name}.html"
        seen = harness.run([sys.executable, PAGE, report, "-o", out, *words], seconds=300)
        self.tally.same(f"{name}: there is a page", seen, 0, b"", b"")
        return out

    def both(self, name: str, files: Sequence[pathlib.Path], *words: str) -> pathlib.Path:
        """The page of two netlists, with causes."""
        first, second = files
        report = self.report(name, files, "--causes", *words)
        return self.page(name, report, "--first", first, "--second", second)


# ---- without a browser


def check_refusals(tally: Tally, place: pathlib.Path, report: pathlib.Path, first: pathlib.Path, second: pathlib.Path) -> None:
    """What is no report, or not of these netlists, is refused with its status, and there is no page."""
    lines = harness.written(place, "lines", harness.C17_DIFFERS)
    bare = harness.written(place, "bare", b'{"match": "name", "order": "auto", "variables": [], "verdicts": [], "equal": 0}')
    never = harness.written(place, "never.bench", b"INPUT(7)\nOUTPUT(o)\no = NOT(7)\n")
    wide = harness.written(place, "wide.bench", b"INPUT(7)\nOUTPUT(o)\nOUTPUT(7)\no = NOT(7)\n")
    loop = harness.written(place, "loop.bench", C17.replace(b"NAND(1, 3)", b"NAND(1, 22)"))
    both = ["--first", first, "--second", second]
    other = "page: the netlists are not those of the report: "
    cases: tuple[tuple[str, int, str, list[object]], ...] = (
        ("a report by lines", 2, f"page: {lines}: no report of bddcheck --format json", [lines]),
        ("a report that lacks a member", 2, f"page: {bare}: no report of bddcheck --format json: it lacks different\n", [bare]),
        ("no file", 2, "page: [Errno 2]", [place / "none"]),
        ("one netlist", 2, "usage", [report, "--first", first]),
        ("a condition without netlists", 2, "usage", [report, "--given", first]),
        ("other netlists", 1, f"{other}23 has other values\n", [report, "--first", first, "--second", first]),
        ("netlists of other names", 1, other, [report, "--first", S27, "--second", S27]),
        ("a cycle", 1, f"{other}a cycle", [report, "--first", first, "--second", loop]),
        ("a condition that is 0", 1, f"{other}the condition does not hold for 23\n", [report, *both, "--given", never]),
        ("a condition of two outputs", 2, f"page: {wide}: a condition has one output\n", [report, *both, "--given", wide]),
        ("a pair that is equal", 2, "page: no such pair differs: 22\n", [report, *both, "--draw", "22"]),
    )
    for name, status, said, words in cases:
        out = place / "refused.html"
        seen = harness.run([sys.executable, PAGE, "-o", out, *words])
        is_right = (seen.status, seen.out) == (status, b"") and seen.err.decode().startswith(said)
        tally.check(f"refused: {name}", is_right and not out.exists(), seen)


def explained_rows(program: str, words: Sequence[object], label: str) -> list[list[str | int]]:
    """The inner signals that --explain lists, as a page has them."""
    seen = harness.run([program, f"--explain={label}", *words])
    found = re.findall(r"^  (\S+) first=([01]) second=([01]) line (\d+) line (\d+)$", seen.out.decode(), re.M)
    return [[name, *map(int, numbers)] for name, *numbers in found]


def check_gates(tally: Tally, name: str, drawings: list[JsonObject], nets: Sequence[Net], pair: JsonObject) -> None:
    """The gates of small cones are all drawn, with the values that they have here."""
    for drawing, net, root in zip(drawings, nets, pair["details"]["roots"]):
        at = {variable: int(bit == "1") for variable, bit in zip(pair["variables"], pair["bits"])}
        values, below = net.values({**dict.fromkeys([*net.inputs, *net.registers], 0), **at}), net.below(root)
        cone = {gate for gate in net.gates if gate in below}
        lines = (re.match(r"(\S+) = .*  # ([01]), line", line) for line in drawing["text"])
        shown = {line[1]: int(line[2]) for line in lines if line}
        is_right = shown == {gate: values[gate] for gate in cone} and (drawing["gates"], drawing["total"]) == (len(cone), len(cone))
        tally.check(f"{name}: the gates of {root}", is_right, (drawing, cone))


# Which variables assignments have.
ASSIGNMENTS: list[list[str]] = [[], ["--assignment", "ones"], ["--assignment", "support"]]


def check_random(tally: Tally, maker: Maker, rng: random.Random) -> None:
    """The inner signals of random pairs are those of --explain, and the gates have the values that they have here."""
    several = 0
    for turn in range(30):
        first = random_net(rng)
        second = changed(rng, first)
        files = [harness.written(maker.place, name, net.text().encode()) for name, net in (("first", first), ("second", second))]
        data = data_of(maker.both(f"random {turn}", files, *rng.choice(ASSIGNMENTS)))
        for pair in (pair for pair in data["pairs"] if pair["verdict"] == "DIFFER"):
            label = pair["name"] if pair["of"] == "output" else f"NEXT {pair['name']}"
            wanted = explained_rows(maker.program, files, label)
            several += len(wanted) > 1
            details = pair["details"]
            low = data["causes"][pair["cause"]]["signal"] if "cause" in pair else None
            is_right = details["inner"] == wanted and details["count"] == len(wanted) and details["low"] == low
            tally.check(f"random {turn}: the inner signals of {label}", is_right, (details, wanted))
            check_gates(tally, f"random {turn}", details["drawings"], (first, second), {**pair, "variables": data["variables"]})
    tally.check("some pairs have several inner signals", several > 3, several)


def chain(gates: int, word: bytes) -> bytes:
    """A chain of gates, of which one in the middle has a word of its own."""
    lines = [b"INPUT(a)", b"INPUT(b)", b"OUTPUT(g%d)" % (gates - 1), b"g0 = AND(a, b)"]
    lines += [b"g%d = %s(g%d, b)" % (number, word if number == gates // 2 else b"XOR", number - 1) for number in range(1, gates)]
    return harness.lines(*(line.decode() for line in lines))


def check_folded(tally: Tally, maker: Maker) -> None:
    """Of a large cone the gates next to the first that differs are drawn."""
    files = [harness.written(maker.place, name, chain(900, word)) for name, word in (("long1", b"XOR"), ("long2", b"XNOR"))]
    (pair,) = data_of(maker.both("folded", files))["pairs"]
    for drawing in pair["details"]["drawings"]:
        names = {line.split(" ")[0] for line in drawing["text"]}
        wanted = {f"g{number}" for number in range(450 - 74, 450 + 26)}
        is_right = names == wanted and (drawing["gates"], drawing["total"]) == (100, 900) and "folded" in (drawing["svg"] or "")
        tally.check("folded: 75 gates up to the first signal that differs, and 25 after it", is_right, names ^ wanted)
    tally.check(
        "folded: the inner signals", (pair["details"]["count"], len(pair["details"]["inner"])) == (449, 200), pair["details"]["count"]
    )


def check_wide(tally: Tally, maker: Maker) -> None:
    """Of a wide gate some operands are drawn, and the others are counted."""
    names = [f"a{number}" for number in range(15)]
    texts = ["".join(f"INPUT({name})\n" for name in names) + f"OUTPUT(o)\no = {word}({', '.join(names)})\n" for word in ("AND", "XOR")]
    files = [harness.written(maker.place, f"wide{number}", text.encode()) for number, text in enumerate(texts)]
    (pair,) = data_of(maker.both("wide", files))["pairs"]
    for drawing, word in zip(pair["details"]["drawings"], ("AND", "XOR")):
        is_right = drawing["text"][0].startswith(f"o = {word}({', '.join(names[:12])}, and 3 more)") and "3 more operands" in (
            drawing["svg"] or ""
        )
        tally.check(f"wide: {word}", is_right and drawing["svg"].count('class="edge') == 13, drawing)


def check_most(tally: Tally, maker: Maker, report: pathlib.Path, files: list[pathlib.Path]) -> None:
    """The pairs that have a drawing, if not all have one."""
    both = ["--first", files[0], "--second", files[1]]
    cases: list[tuple[list[str], list[str]]] = [
        (["--most", "0"], []),
        (["--most", "1"], ["G17"]),
        (["--most", "1", "--draw", "NEXT G6"], ["NEXT G6"]),
        (["--most", "2", "--draw", "NEXT G6"], ["G17", "NEXT G6"]),
    ]
    for words, wanted in cases:
        data = data_of(maker.page("most", report, *both, *words))
        drawn = [("NEXT " if pair["of"] != "output" else "") + pair["name"] for pair in data["pairs"] if "details" in pair]
        tally.check(f"drawn by {' '.join(words)}", drawn == wanted, drawn)


def check_without_dot(tally: Tally, maker: Maker, report: pathlib.Path, files: list[pathlib.Path]) -> pathlib.Path:
    """Without Graphviz a page has the gates as text, and standard error says so."""
    out = maker.place / "no_dot.html"
    words = [sys.executable, PAGE, report, "-o", out, "--first", files[0], "--second", files[1]]
    seen = harness.run(words, environment={"PATH": str(maker.place / "nothing")})
    said = b"page: there is no command dot (Debian: graphviz), so the page has gates as text, and no drawings\n"
    tally.same("a page without Graphviz", seen, 0, b"", said)
    drawings = [drawing for pair in data_of(out)["pairs"] if "details" in pair for drawing in pair["details"]["drawings"]]
    tally.check("a page without Graphviz has text", drawings and all(it["svg"] is None and it["text"] for it in drawings))
    return out


# ---- in a browser


def heading(page: Browser) -> str:
    return str(page.value("document.getElementById('chosen-title').textContent"))


def labels(page: Browser) -> list[str]:
    """The pairs in the table."""
    return list(page.value("[...document.querySelectorAll('#rows tbody th')].map((cell) => cell.textContent)"))


def all_labels(page: Browser) -> list[str]:
    """The pairs in the table, with those that it has after its button."""
    page.value("while (!document.getElementById('more').hidden) document.getElementById('more').click()")
    return labels(page)


def typed(page: Browser, name: str, value: str) -> None:
    """Changes a field as a user does."""
    script = f"{{ const field = document.getElementById('{name}'); field.value = {json.dumps(value)};"
    page.value(script + " field.dispatchEvent(new Event('input', { bubbles: true })); }")


def ticked(page: Browser, verdict: str) -> None:
    page.value(f"document.querySelector('#verdicts input[value={verdict}]').click()")


def click(page: Browser, selector: str) -> None:
    page.value(f"document.querySelector({json.dumps(selector)}).click()")


def table_of(page: Browser, label: str) -> list[list[str]]:
    """The cells of a table of the chosen pair."""
    rows = f"document.querySelectorAll('#chosen table[aria-label=\"{label}\"] tbody tr')"
    cell = "[...cell.querySelectorAll('.wave span')].map((one) => one.textContent).join('>') || cell.textContent"
    return list(page.value(f"[...{rows}].map((row) => [...row.cells].map((cell) => {cell}))"))


CONTRAST = """(() => {
    const numbers = (colour) => colour.match(/[\\d.]+/g).map(Number);
    const linear = (part) => (part <= 0.03928 ? part / 12.92 : ((part + 0.055) / 1.055) ** 2.4);
    const light = (colour) => numbers(colour).slice(0, 3).map((part) => linear(part / 255))
        .reduce((sum, part, place) => sum + part * [0.2126, 0.7152, 0.0722][place], 0);
    const ground = (one) => {
        while (one && (numbers(getComputedStyle(one).backgroundColor)[3] ?? 1) === 0) one = one.parentElement;
        return light(one ? getComputedStyle(one).backgroundColor : "rgb(255, 255, 255)");
    };
    const found = [];
    for (const one of document.querySelectorAll("body *")) {
        const hasText = [...one.childNodes].some((child) => child.nodeType === 3 && child.textContent.trim());
        if (!hasText || !one.checkVisibility() || one.closest("svg, script, .hidden, option")) continue;
        const pair = [light(getComputedStyle(one).color), ground(one)].sort((a, b) => b - a);
        const ratio = (pair[0] + 0.05) / (pair[1] + 0.05);
        if (ratio < 4.5) found.push([one.textContent.slice(0, 30), ratio]);
    }
    return found;
})()"""
# Texts of a drawing are on the ground of their frames.
DRAWN_CONTRAST = (
    CONTRAST.replace("body *", "#chosen .node text")
    .replace('one.closest("svg, script, .hidden, option")', "false")
    .replace("getComputedStyle(one).color", "getComputedStyle(one).fill")
    .replace("ground(one)", "light(getComputedStyle(one.parentElement.querySelector('polygon, path')).fill)")
)


# Heads of tables have a scope; fields, tables, regions, buttons and drawings have a name.
NAMELESS = """[
    ...document.querySelectorAll("th:not([scope])"),
    ...[...document.querySelectorAll("input, select")].filter((one) => one.labels.length === 0),
    ...[...document.querySelectorAll("table, [role=region], section, svg")].filter((one) => !one.ariaLabel && !one.getAttribute("aria-labelledby")),
    ...[...document.querySelectorAll("button, a, summary")].filter((one) => !one.textContent.trim() && !one.hidden),
].map((one) => one.outerHTML.slice(0, 80))"""


class Viewer:
    """Opens pages in a browser, each in several looks, and keeps pictures if that is wanted."""

    def __init__(self, tally: Tally, page: Browser, pictures: pathlib.Path | None) -> None:
        self.tally, self.page, self.pictures = tally, page, pictures

    def open(self, path: pathlib.Path) -> None:
        self.page.look(1300, 900)
        address = path.as_uri()
        self.page.open(address)
        self.tally.check(f"{path.stem}: it asks for nothing but itself", self.page.requests() == [address], self.page.requests())

    def done(self, path: pathlib.Path) -> None:
        """Contrast and width, by light and dark, wide and narrow."""
        page, name = self.page, path.stem
        for is_dark in (False, True):
            for width in (1300, 360):
                page.look(width, 900, is_dark)
                look = f"{name}, {'dark' if is_dark else 'light'}, {width} pixels"
                poor = page.value(CONTRAST) + page.value(DRAWN_CONTRAST)
                self.tally.check(f"{look}: texts have contrast", poor == [], poor)
                wide = page.value("document.documentElement.scrollWidth - document.documentElement.clientWidth")
                self.tally.check(f"{look}: the page is not wider than the window", wide <= 0, wide)
                if self.pictures:
                    page.picture(self.pictures / f"{name}-{width}{'-dark' if is_dark else ''}.png")
        nameless = page.value(NAMELESS)
        self.tally.check(f"{name}: what a screen reader needs", nameless == [], nameless)
        self.tally.check(f"{name}: the browser has no complaint", page.faults() == [], page.faults())
        ids = page.value("[...document.querySelectorAll('[id]')].map((one) => one.id)")
        self.tally.check(f"{name}: each id is there once", len(set(ids)) == len(ids), ids)


def try_c17(viewer: Viewer, path: pathlib.Path) -> None:
    tally, page = viewer.tally, viewer.page
    viewer.open(path)
    totals = page.value("[...document.querySelectorAll('#totals li')].map((one) => one.innerText.replace('\\n', ' '))")
    tally.check("c17: totals", totals == ["1 differ", "0 have no partner", "0 are undecided", "1 are equal"], totals)
    tally.check("c17: what differs is chosen, and the first", (heading(page), labels(page)) == ("DIFFER 23", ["23", "22"]), labels(page))
    inputs = [[name, "1" if name == "7" else "0"] for name in "12367"]
    rows = table_of(page, "Assignment")
    tally.check("c17: the assignment", rows == inputs, rows)
    rows = table_of(page, "Waves")
    wanted = [*([name, bit, bit, ""] for name, bit in inputs), ["19", "0", "1", "11, 11"], ["output 23", "1", "0", ""]]
    tally.check("c17: waves", rows == wanted, rows)
    for number, gate in enumerate(("11, 7", "11, 6")):
        drawn = f"document.querySelectorAll('.drawing')[{number}]"
        titles = page.value(f"[...{drawn}.querySelectorAll('.differs.node title')].map((one) => one.textContent).sort()")
        low = page.value(f"[...{drawn}.querySelectorAll('.low title')].map((one) => one.textContent)")
        text = page.value(f"document.querySelectorAll('pre')[{number}].textContent")
        is_right = (titles, low) == (["19", "23"], ["19"]) and f"19 = NAND({gate})  # {number}, line 11, differs" in text
        tally.check(f"c17: drawing {number + 1}", is_right, (titles, low, text))
    click(page, "#rows tbody tr:nth-child(2) button")
    tally.check("c17: a pair that is equal", heading(page) == "EQUAL 22" and page.value("location.hash") == "#pair=22", heading(page))
    click(page, "#causes tbody button")
    tally.check("c17: a pair of a cause", heading(page) == "DIFFER 23", heading(page))
    viewer.done(path)
    for address, title in (("#pair=22", "EQUAL 22"), ("#pair=%", "DIFFER 23"), ("#pair=none", "DIFFER 23")):
        page.open(path.as_uri() + address)
        tally.check(f"c17: a pair by the address {address}", heading(page) == title, heading(page))


def try_keys(viewer: Viewer, path: pathlib.Path) -> None:
    """Everything can be done without a mouse."""
    tally, page = viewer.tally, viewer.page
    viewer.open(path)
    for _ in range(60):
        page.press("Tab")
        if page.value("document.activeElement.closest('#rows tbody') !== null"):
            break
    focused = "document.activeElement.textContent"
    seen = []
    for key in ("", "ArrowDown", "End", "ArrowUp", "Home"):
        if key:
            page.press(key)
        seen.append(page.value(focused))
    tally.check("keys: from row to row", seen == ["G17", "NEXT G5", "NEXT R7", "NEXT G7", "G17"], seen)
    page.press("ArrowDown")
    page.press("Enter")
    current = page.value("[...document.querySelectorAll('tr[aria-current=true]')].map((row) => row.cells[0].textContent)")
    said = page.value("document.getElementById('said').textContent")
    is_right = (heading(page), current, said) == ("DIFFER NEXT G5", ["NEXT G5"], "DIFFER NEXT G5 is shown below the table.")
    tally.check("keys: Enter chooses", is_right, (heading(page), current, said))
    waves = {row[0]: row[1:3] for row in table_of(page, "Waves")}
    tally.check("keys: registers have two values", waves["G5"] == ["0>0", "0>1"] and waves["G7"][1] == "not there", waves)
    page.value("document.querySelector('#rows thead button').focus()")
    page.press("Enter")
    tally.check("keys: Enter sorts", page.value("document.querySelector('#rows thead th').getAttribute('aria-sort')") == "ascending")
    click(page, "#rows tbody tr:last-child button")
    tally.check("keys: what has no partner", heading(page) == "ONLY SECOND NEXT R7", heading(page))
    viewer.done(path)


def many_report() -> JsonObject:
    """A report of 4,000 pairs of all kinds."""
    rng = random.Random(1)
    variables = [f"{bus}[{bit}]" for bus in ("address", "data") for bit in range(32)] + [f"enable{number}" for number in range(20)]
    verdicts: list[JsonObject] = []
    causes: list[JsonObject] = [{"signal": f"n{number}", "lines": [number, number + 1], "pairs": []} for number in range(1, 41)]
    for number in range(MANY):
        of = "next state" if number % 5 == 0 else "output"
        name = f"bus{number % 50}[{number // 50}]"
        kind = "DIFFER" if number % 4 == 1 else "UNDECIDED" if number % 40 == 2 else "ONLY" if number % 40 == 3 else "EQUAL"
        verdict: JsonObject = {"verdict": kind, "of": of, "name": name}
        if kind == "ONLY":
            verdict = {"verdict": kind, "side": "second", "of": of, "name": name}
        if kind == "DIFFER":
            first = rng.randrange(2)
            verdict |= {"at": {variable: rng.randrange(2) for variable in variables}, "first": first, "second": 1 - first}
            causes[rng.randrange(len(causes))]["pairs"].append({"of": of, "name": name})
            if number % 8 == 1:
                verdict["least"] = False
        verdicts.append(verdict)
    counts = {kind: sum(verdict["verdict"] == kind for verdict in verdicts) for kind in ("EQUAL", "DIFFER", "ONLY", "UNDECIDED")}
    return {
        "match": "name",
        "order": "auto",
        "variables": variables,
        "verdicts": verdicts,
        "equal": counts["EQUAL"],
        "different": counts["DIFFER"],
        "unmatched": counts["ONLY"],
        "undecided": counts["UNDECIDED"],
        "stopped": True,
        "causes": causes,
    }


def natural(label: str) -> tuple[int | str, ...]:
    """By which names are sorted: numbers by their value."""
    return tuple(int(part) if part.isdigit() else part for part in re.split(r"(\d+)", label.lower()))


def label_of(verdict: JsonObject) -> str:
    """What the page calls a pair."""
    return ("" if verdict["of"] == "output" else "NEXT ") + str(verdict["name"])


def try_many(viewer: Viewer, path: pathlib.Path, report: JsonObject) -> None:
    """4,000 pairs are filtered and sorted at once."""
    tally, page = viewer.tally, viewer.page
    viewer.open(path)
    in_order = [label_of(verdict) for verdict in report["verdicts"]]

    def of_kind(kind: str) -> list[str]:
        return [label_of(verdict) for verdict in report["verdicts"] if verdict["verdict"] == kind]

    tally.check("many: a part of the table at first", labels(page) == of_kind("DIFFER")[:250], len(labels(page)))
    page.value("document.getElementById('rows').scrollTop = 1e6")
    page.wait_for("document.querySelectorAll('#rows tbody tr').length === 500")
    ranked = [name for kind in ("DIFFER", "ONLY", "UNDECIDED", "EQUAL") for name in of_kind(kind)]
    tally.check("many: all of it", all_labels(page) == ranked, len(labels(page)))
    head = "#rows thead th:nth-child({}) button"
    click(page, head.format(2))
    click(page, head.format(2))
    tally.check("many: in the order of the report", all_labels(page) == in_order)
    times = page.value(
        f"""(() => {{
        const took = (...acts) => Math.min(...[0, 1, 2].flatMap(() => acts.map((act) => {{
            const begun = performance.now();
            act();
            document.body.offsetHeight;
            return performance.now() - begun;
        }})));
        const name = document.getElementById("name");
        const type = (text) => {{ name.value = text; name.dispatchEvent(new Event("input", {{ bubbles: true }})); }};
        const sort = () => document.querySelector({json.dumps(head.format(1))}).click();
        const times = [took(sort), took(() => type("bus1"), () => type("bus2")), took(() => type(""))];
        sort();
        sort();
        return times;
    }})()"""
    )
    tally.figures(f"{MANY} pairs are sorted or filtered in {max(times):.0f} ms at most")
    tally.check("many: each takes less than a second", max(times) < 1000, times)
    tally.check("many: sorted by name, downwards", all_labels(page) == sorted(in_order, key=natural, reverse=True), labels(page)[:5])
    filters(viewer, report)
    click(page, "#rows tbody tr button")
    viewer.done(path)


def filters(viewer: Viewer, report: JsonObject) -> None:
    """Each filter by itself, and some together."""
    tally, page = viewer.tally, viewer.page
    verdicts = sorted(report["verdicts"], key=lambda verdict: natural(label_of(verdict)), reverse=True)
    cause = {(pair["of"], pair["name"]) for pair in report["causes"][4]["pairs"]}

    def same(name: str, is_wanted: Callable[[JsonObject], object]) -> None:
        wanted, shown = [label_of(verdict) for verdict in verdicts if is_wanted(verdict)], all_labels(page)
        counted = page.value("document.getElementById('shown').textContent")
        tally.check(f"many: {name}", shown == wanted and counted == f"{len(wanted):,} of 4,000 pairs", (len(shown), len(wanted), counted))

    typed(page, "name", "us17[")
    same("a part of a name", lambda verdict: "us17[" in label_of(verdict))
    typed(page, "name", "BUS1*[7*]")
    same("a pattern", lambda verdict: re.fullmatch(r"bus1.*\[7.*\]", verdict["name"]))
    typed(page, "name", "next *")
    same("a pattern of next states", lambda verdict: verdict["of"] == "next state")
    typed(page, "name", "")
    typed(page, "kind", "output")
    same("outputs", lambda verdict: verdict["of"] == "output")
    ticked(page, "EQUAL")
    ticked(page, "UNDECIDED")
    same("outputs of two verdicts", lambda verdict: verdict["of"] == "output" and verdict["verdict"] in ("DIFFER", "ONLY"))
    typed(page, "kind", "")
    typed(page, "cause", "4")
    same("a cause", lambda verdict: (verdict["of"], verdict["name"]) in cause)
    typed(page, "cause", "")
    ticked(page, "DIFFER")
    ticked(page, "ONLY")
    same("no verdict", lambda verdict: False)
    for kind in ("EQUAL", "UNDECIDED", "DIFFER", "ONLY"):
        ticked(page, kind)
    same("all again", lambda verdict: True)
    for place, number in ((1, 0), (5, 1)):
        verdict = report["verdicts"][place]
        page.value(f"document.querySelector('tr[data-place=\"{place}\"] button').click()")
        notes = page.value("document.querySelectorAll('#chosen .note').length")
        word = "".join(str(verdict["at"][f"data[{bit}]"]) for bit in range(31, -1, -1))
        row = next(row for row in table_of(page, "Assignment") if row[0] == "data[31:0]")
        wanted = [f"0x{int(word, 2):08x}", " ".join(word[at : at + 4] for at in range(0, 32, 4))]
        is_right = row[1:] == wanted and notes == (verdict.get("least") is False)
        tally.check(f"many: pair {place}, its buses, and whether it is the least", is_right, (row, wanted, notes))


def try_buses(viewer: Viewer, path: pathlib.Path, report: pathlib.Path) -> None:
    """The numbers of buses are those of the report, also if it does not have them."""
    page = viewer.page
    viewer.open(path)
    wanted = json.loads(report.read_text())["verdicts"][0]["buses"]
    shown = {row[0].rpartition("[")[0]: row[1] for row in table_of(page, "Assignment") if ":0]" in row[0]}
    several = {name: number for name, number in wanted.items() if name in shown}
    viewer.tally.check("buses: their numbers", shown == several and {"a", "m[1]"} == set(shown), (shown, wanted))
    viewer.done(path)


def try_odd(viewer: Viewer, path: pathlib.Path) -> None:
    """Names that have to be escaped are shown as they are."""
    tally, page = viewer.tally, viewer.page
    viewer.open(path)
    tally.check("odd: the chosen pair", heading(page) == "DIFFER \\", heading(page))
    titles = page.value("[...document.querySelectorAll('.drawing .gate title')].map((one) => one.textContent)")
    texts = page.value("[...document.querySelectorAll('.drawing .gate text:first-of-type')].map((one) => one.textContent)")
    wanted = {name.decode() for name in ODD.values()} - {"</script><b>"} | {"16"}
    tally.check("odd: the names in the drawings", set(titles) == wanted and set(texts) == wanted, (titles, texts))
    viewer.done(path)


def try_plain(viewer: Viewer, path: pathlib.Path, title: str, said: list[str]) -> None:
    """A page of which the heading and some texts are known."""
    viewer.open(path)
    text = viewer.page.value("document.body.innerText")
    missing = [it for it in said if it not in text]
    viewer.tally.check(f"{path.stem}: what it says", heading(viewer.page) == title and not missing, (heading(viewer.page), missing))
    viewer.done(path)


def pages(maker: Maker) -> dict[str, pathlib.Path]:
    """A page of each kind, by its name."""
    place = maker.place
    c17, c17b = harness.written(place, "c17.bench", C17), harness.written(place, "c17b.bench", C17B)

    def odd(text: bytes) -> bytes:
        return re.sub(rb"\d+", lambda found: ODD.get(found[0], found[0]), text)

    odd1, odd2 = harness.written(place, "odd1.bench", odd(C17)), harness.written(place, "odd2.bench", odd(C17B))
    buses, wider = harness.written(place, "buses1", BUSES), harness.written(place, "buses2", BUSES.replace(b"NOR", b"XOR"))
    empty = harness.written(place, "empty.bench", b"")
    cared = harness.written(place, "cared.bench", b"INPUT(7)\nOUTPUT(o)\no = BUFF(7)\n")
    given = maker.report("given", [c17, c17b], "--given", str(cared))
    maker.report("buses", [buses, wider], "--assignment", "ones")
    plain = maker.report("plain", [buses, wider])
    many = harness.written(place, "many.json", json.dumps(many_report()).encode())
    undecided = {
        "match": "position",
        "order": "cones",
        "variables": [],
        "verdicts": [{"verdict": "UNDECIDED", "of": "output", "name": "p"}],
        "equal": 0,
        "different": 0,
        "unmatched": 0,
        "undecided": 1,
    }
    return {
        "c17": maker.both("c17", [c17, c17b]),
        "s27": maker.both("s27", [S27, RENAMED]),
        "odd": maker.both("odd", [odd1, odd2]),
        "position": maker.both("position", [S27, TOP / "examples" / "s27_wrong.bench"], "--match", "position"),
        "equal": maker.both("equal", [c17, c17]),
        "empty": maker.both("empty", [empty, empty]),
        "given": maker.page("given", given, "--first", c17, "--second", c17b, "--given", cared),
        "buses": maker.page("buses", plain),
        "many": maker.page("many", many),
        "undecided": maker.page("undecided", harness.written(place, "undecided.json", json.dumps(undecided).encode())),
    }


def try_pages(viewer: Viewer, made: dict[str, pathlib.Path]) -> None:
    try_c17(viewer, made["c17"])
    try_keys(viewer, made["s27"])
    try_odd(viewer, made["odd"])
    try_many(viewer, made["many"], many_report())
    try_buses(viewer, made["buses"], made["buses"].with_suffix(".json"))
    try_plain(viewer, made["position"], "DIFFER NEXT G7", ["paired by position", "next state G7"])
    try_plain(viewer, made["equal"], "EQUAL 22", ["All pairs are equal.", "Both netlists compute the same function."])
    try_plain(viewer, made["empty"], "No pair is chosen", ["The report has no pairs: nothing was compared.", "0 of 0 pairs"])
    try_plain(viewer, made["given"], "DIFFER 23", ["only where the condition of cared.bench holds", "the condition"])
    try_plain(viewer, made["undecided"], "UNDECIDED p", ["No difference was found, but some pairs are undecided.", "did not fit"])
    try_plain(viewer, made["no_dot"], "DIFFER G17", ["These gates as text", "G12 = NOR(G1, R7)  # 0, line 21, differs"])


def main() -> None:
    parser = harness.parser_with_program(__doc__)
    parser.add_argument("--seed", default="1", help="The netlists are drawn by this text; the default is 1.")
    parser.add_argument("--pictures", metavar="FOLDER", type=pathlib.Path, help="A picture of each page is written into this folder.")
    words = parser.parse_args()
    tally = Tally("page")
    with harness.folder() as place:
        if shutil.which("dot") is None:
            tally.skip("Graphviz is not installed (Debian: graphviz), so no page was made")
            tally.end()
            return
        maker = Maker(tally, words.program, place)
        made = pages(maker)
        report = made["c17"].with_suffix(".json")
        check_refusals(tally, maker.place, report, maker.place / "c17.bench", maker.place / "c17b.bench")
        check_random(tally, maker, random.Random(words.seed))
        check_folded(tally, maker)
        check_wide(tally, maker)
        check_most(tally, maker, made["s27"].with_suffix(".json"), [S27, RENAMED])
        made["no_dot"] = check_without_dot(tally, maker, made["s27"].with_suffix(".json"), [S27, RENAMED])
        if browser.command() is None:
            tally.skip("Chromium is not installed (Debian: chromium), so no page was opened")
        else:
            if words.pictures:
                words.pictures.mkdir(parents=True, exist_ok=True)
            with Browser(place) as page:
                try_pages(Viewer(tally, page, words.pictures), made)
    tally.finish()


if __name__ == "__main__":
    harness.ended(main)
