"""A reading of the bench format of its own, from the format's description: a netlist, or the fault that must be reported.

No code is shared with the product. It is written for plainness and takes small texts.
"""
from __future__ import annotations

from collections.abc import Iterator, Mapping
from dataclasses import dataclass, field


MOST_BYTES = 67_108_864
MOST_SIGNALS = 1_000_000
MOST_OPERANDS = 4_000_000
MOST_NAME = 255
BLANKS = b" \t\r\n"
SIGNS = b"(),="
GATES = {"AND", "NAND", "OR", "NOR", "XOR", "XNOR", "NOT", "BUFF", "BUF", "DFF"}
OF_ONE = {"NOT", "BUFF", "BUF", "DFF"}

TOO_LONG = "longer than 67108864 bytes"
BAD_BYTE = "a byte that no statement has"
BROKEN = "broken statement"
UNKNOWN = "unknown gate"
OPERANDS = "wrong number of operands"
TWICE = "signal defined twice"
TOO_MANY = "too many signals or operands, or a name too long"
UNDEFINED = "signal without definition"
CYCLE = "gate that depends on a cycle"
NOT_A_NAME = "not a signal name"


class Fault(Exception):
    """Why a text is refused, as the program reports it."""

    def __init__(self, text: str, line: int | None = None) -> None:
        super().__init__(text if line is None else f"line {line}: {text}")


@dataclass
class Token:
    """A sign of the format, a name, or the end, which is an empty text. A faulty place has its fault, which is raised when the reader comes to it."""

    text: str
    line: int
    fault: str | None = None


@dataclass
class Netlist:
    inputs: list[str] = field(default_factory=list)
    outputs: list[str] = field(default_factory=list)
    # Of each signal with a gate: the gate's word and its operands, in the order of the text. Registers are not among them.
    gates: dict[str, tuple[str, list[str]]] = field(default_factory=dict)
    registers: dict[str, str] = field(default_factory=dict)


def tokens(text: bytes) -> Iterator[Token]:
    """The tokens of a text, with a fault in its place and the end at last."""
    at, line = 0, 1
    while at < len(text):
        byte = text[at]
        if byte == 0x0A:
            line += 1
        if byte in BLANKS:
            at += 1
        elif byte == ord("#"):
            while at < len(text) and text[at] != 0x0A:
                at += 1
        elif byte in SIGNS:
            yield Token(chr(byte), line)
            at += 1
        elif 0x21 <= byte <= 0x7E:
            end = at
            while end < len(text) and 0x21 <= text[end] <= 0x7E and text[end] not in b"(),=#":
                end += 1
            name = text[at:end].decode("ascii")
            yield Token(name, line, TOO_MANY if len(name) > MOST_NAME else None)
            at = end
        else:
            yield Token("", line, BAD_BYTE)
            return
    yield Token("", 1 + text.count(b"\n"))


class Reader:
    """Reads statements one after the other, and stops at the first faulty place."""

    def __init__(self, text: bytes) -> None:
        self.rest = tokens(text)
        self.net = Netlist()
        self.signals: set[str] = set()
        self.operands = 0
        self.uses: list[Token] = []
        self.lines: dict[str, int] = {}

    def next(self) -> Token:
        token = next(self.rest)
        if token.fault:
            raise Fault(token.fault, token.line)
        return token

    def name(self) -> Token:
        token = self.next()
        if token.text == "" or token.text in "(),=":
            raise Fault(BROKEN, token.line)
        return token

    def sign(self, allowed: str) -> Token:
        token = self.next()
        if token.text == "" or token.text not in allowed:
            raise Fault(BROKEN, token.line)
        return token

    def count(self, name: str, line: int) -> None:
        if name not in self.signals and len(self.signals) == MOST_SIGNALS:
            raise Fault(TOO_MANY, line)
        self.signals.add(name)

    def statements(self) -> None:
        while True:
            first = self.next()
            if first.text == "":
                return
            if first.text in "(),=":
                raise Fault(BROKEN, first.line)
            sign = self.next()
            if sign.text == "=":
                self.count(first.text, sign.line)
                self.gate(first)
            elif sign.text == "(" and first.text.upper() in ("INPUT", "OUTPUT"):
                self.port(first)
            else:
                raise Fault(BROKEN, sign.line)

    def port(self, first: Token) -> None:
        name = self.name()
        self.count(name.text, name.line)
        self.sign(")")
        if first.text.upper() == "OUTPUT":
            self.uses.append(name)
            if name.text not in self.net.outputs:
                self.net.outputs.append(name.text)
            return
        if name.text in self.net.gates or name.text in self.net.registers:
            raise Fault(TWICE, first.line)
        if name.text not in self.net.inputs:
            self.net.inputs.append(name.text)

    def gate(self, first: Token) -> None:
        word = self.name().text.upper()
        if word not in GATES:
            raise Fault(UNKNOWN, first.line)
        self.sign("(")
        operands = []
        while True:
            operand = self.name()
            self.operands += 1
            if self.operands > MOST_OPERANDS:
                raise Fault(TOO_MANY, operand.line)
            self.count(operand.text, operand.line)
            self.uses.append(operand)
            operands.append(operand.text)
            if self.sign(",)").text == ")":
                break
        self.define(first, word, operands)

    def define(self, first: Token, word: str, operands: list[str]) -> None:
        if word in OF_ONE and len(operands) > 1:
            raise Fault(OPERANDS, first.line)
        if first.text in self.net.inputs or first.text in self.net.gates or first.text in self.net.registers:
            raise Fault(TWICE, first.line)
        if word == "DFF":
            self.net.registers[first.text] = operands[0]
        else:
            self.net.gates[first.text] = (word, operands)
            self.lines[first.text] = first.line

    def whole(self) -> None:
        """The faults of the whole text: uses without a definition, then gates that depend on a cycle."""
        net = self.net
        for use in self.uses:
            if use.text not in net.gates and use.text not in net.registers and use.text not in net.inputs:
                raise Fault(UNDEFINED, use.line)
        sound = set(net.inputs) | set(net.registers)
        grown = True
        while grown:
            more = [s for s, (_, operands) in net.gates.items() if s not in sound and sound.issuperset(operands)]
            sound.update(more)
            grown = bool(more)
        for signal in net.gates:
            if signal not in sound:
                raise Fault(CYCLE, self.lines[signal])


def read(text: bytes) -> Netlist:
    """The netlist of a text, or its fault."""
    if len(text) > MOST_BYTES:
        raise Fault(TOO_LONG)
    reader = Reader(text)
    reader.statements()
    reader.whole()
    return reader.net


def below(gates: Mapping[str, tuple[str, list[str]]], root: str) -> set[str]:
    """The signals below the root, itself among them."""
    met: set[str] = set()
    waiting = [root]
    while waiting:
        signal = waiting.pop()
        if signal not in met:
            met.add(signal)
            waiting += gates[signal][1] if signal in gates else []
    return met


def read_names(text: bytes) -> list[str]:
    """The names of an order file, or its fault."""
    if len(text) > MOST_BYTES:
        raise Fault(TOO_LONG)
    names = []
    for token in tokens(text):
        if token.fault or (token.text and token.text in "(),="):
            raise Fault(NOT_A_NAME, token.line)
        if token.text:
            names.append(token.text)
    return names


def split(text: bytes) -> tuple[bytes, bytes] | None:
    """The texts before and after the first line `%%`, or None."""
    before: list[bytes] = []
    rest = text.split(b"\n")
    for i, line in enumerate(rest):
        if line in (b"%%", b"%%\r"):
            return b"".join(before), b"\n".join(rest[i + 1 :])
        before.append(line + b"\n")
    return None
