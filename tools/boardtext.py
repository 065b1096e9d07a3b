"""Boards and orders as text: read with every fault by its line, and written again. docs/GUIDE.md describes the format."""
import re
from dataclasses import dataclass, field

import limits
from faults import Fault, InputFaults, shown
from lines import lines_of
from model import Board, Curve, Order

CURVE = "fastest TICKS power MICROWATTS [runs LENGTH@SAVING ..]"
BOARD_FORMS = {"deadline": "deadline TICKS", "part": f"part NAME {CURVE}", "link": "link FROM TO"}
ORDER_FORMS = {"deadline": "deadline TICKS", "add": "add FROM TO", "remove": "remove FROM TO", "curve": f"curve NAME {CURVE}"}
BY_NUMBER = re.compile(r"@[0-9]{1,2}$")  # a part by its number, where it has no name


def forms():
    """The lines that a board and an order may have: those of today's program."""
    board, orders = dict(BOARD_FORMS), dict(ORDER_FORMS)
    if limits.RULES_KNOWN:
        board["rule"] = "rule A|B"
    if limits.LINK_DELAYS_KNOWN:
        board["link"] = "link FROM TO [TICKS]"
        orders["delay"] = "delay FROM TO TICKS"
    return board, orders


class Broken(Exception):
    """The rest of a line means nothing; the fault is noted."""


class Words:
    """The words of one line, taken one after the other; faults are noted as they are met."""

    def __init__(self, line, form, faults):
        self.where, self.words, self.form, self.faults = line.where, line.words, form, faults
        self.at = 1

    def fault(self, words):
        self.faults.append(Fault(self.where, words))

    def broken(self, words):
        self.fault(f"{words}; write: {self.form}")
        raise Broken

    def left(self):
        return self.at < len(self.words)

    def take(self, what):
        if not self.left():
            self.broken(f"{what} is missing")
        self.at += 1
        return self.words[self.at - 1]

    def keyword(self, word):
        found = shown(self.words[self.at]) if self.left() else "the line's end"
        if not self.left() or self.words[self.at] != word:
            self.broken(f"expected {word!r}, found {found}")
        self.at += 1

    def number(self, what):
        if self.left() and self.words[self.at] in ("fastest", "power", "runs"):
            self.broken(f"{what} is missing before {self.words[self.at]!r}")
        return self.in_range(self.take(what), what)

    def in_range(self, word, what):
        """A number in its range, or None."""
        low, high = limits.RANGES[what]
        if not (word.isascii() and word.isdigit()):
            self.fault(f"{what} is not a whole number: {shown(word)}; write one from {low} to {high}")
            return None
        value = int(word) if len(word) <= 20 else high + 1
        if not low <= value <= high:
            self.fault(f"{what} {word if len(word) <= 20 else shown(word)} is not from {low} to {high}")
            return None
        return value

    def name(self, what="a part's name"):
        """A label that a name sheet can hold, or None."""
        word = self.take(what)
        if not good_label(word):
            self.fault(f"{shown(word)} is no name: a name sheet holds 1 to {limits.LONGEST_LABEL} ASCII characters without a blank")
            return None
        return word

    def run(self):
        """LENGTH@SAVING"""
        word = self.take("a run")
        length, sign, saving = word.partition("@")
        if not sign:
            self.fault(f"a run is LENGTH@SAVING, not {shown(word)}")
            return None
        return self.in_range(length, "length"), self.in_range(saving, "saving")

    def curve(self):
        """fastest TICKS power MICROWATTS [runs LENGTH@SAVING ..], or None."""
        self.keyword("fastest")
        fastest = self.number("fastest")
        self.keyword("power")
        power = self.number("power")
        runs = []
        if self.left():
            self.keyword("runs")
            runs.append(self.run())
        while self.left():
            runs.append(self.run())
        if self.runs_hold(runs, power) and fastest is not None and power is not None:
            return Curve(fastest, power, tuple(runs))
        return None

    def runs_hold(self, runs, power):
        before = len(self.faults)
        if len(runs) > limits.MOST_RUNS:
            self.fault(f"{len(runs)} runs, at most {limits.MOST_RUNS}")
        if any(run is None or None in run for run in runs):
            return False
        for (_, one), (_, next_one) in zip(runs, runs[1:]):
            if next_one >= one:
                self.fault(f"saving {next_one} is not below the {one} of the run before; savings fall from run to run")
        savings = sum(length * saving for length, saving in runs)
        if power is not None and power < savings:
            self.fault(f"power {power} is below all savings together, {savings}; raise it or shorten a run")
        return len(self.faults) == before

    def end(self):
        if self.left():
            self.broken(f"{shown(self.words[self.at])} is one word too many")


def good_label(name):
    return 1 <= len(name) <= limits.LONGEST_LABEL and all(33 <= ord(c) <= 126 for c in name)


@dataclass
class BoardText:
    """What a board text says, and where it says it."""

    board: Board = field(default_factory=Board)
    names: list = field(default_factory=list)
    lines: dict = field(default_factory=dict)  # "deadline", "rule", ("part", p), ("link", from, to): FILE:LINE


@dataclass(frozen=True)
class OrderLine:
    order: Order
    where: str


class BoardReader:
    """Two looks at a text: first the parts, so that they may be named before they are described, then the rest."""

    def __init__(self, data, name):
        self.name, self.faults, self.said = name, [], BoardText()
        self.forms = forms()[0]
        lines = lines_of(data, name, self.faults)
        for line in lines:
            if line.words[0] == "part":
                self.read(line, self.part)
        self.numbers = {label: p for p, label in enumerate(self.said.names)}
        for line in lines:
            if line.words[0] not in self.forms:
                self.faults.append(Fault(line.where, f"{shown(line.words[0])} is none of {', '.join(self.forms)}"))
            elif line.words[0] != "part":
                self.read(line, getattr(self, line.words[0]))
        self.whole()

    def read(self, line, method):
        try:
            method(Words(line, self.forms[line.words[0]], self.faults))
        except Broken:
            pass

    def once(self, words, what):
        if what in self.said.lines:
            words.fault(f"a second {what}; the first stands at {self.said.lines[what]}")
        else:
            self.said.lines[what] = words.where

    def part(self, words):
        said, label = self.said, words.name()
        if label in said.names:
            words.fault(f"a second part {label!r}; the first stands at {said.lines['part', said.names.index(label)]}")
        elif len(said.names) == limits.MOST_PARTS:
            words.fault(f"more than {limits.MOST_PARTS} parts")
        elif label is not None:
            said.lines["part", len(said.names)] = words.where
            said.names.append(label)
            said.board.curves.append(None)
            said.board.curves[-1] = words.curve()
            return
        words.curve()

    def deadline(self, words):
        self.once(words, "deadline")
        self.said.board.deadline = words.number("deadline") or 0
        words.end()

    def rule(self, words):
        self.once(words, "rule")
        word = words.take("the rule")
        if word not in ("A", "B"):
            words.fault(f"rule {shown(word)} is neither A nor B")
        self.said.board.rule = word
        words.end()

    def link(self, words):
        ends = part_of(words, self.numbers), part_of(words, self.numbers)
        ticks = words.number("delay") if limits.LINK_DELAYS_KNOWN and words.left() else 0
        words.end()
        key, links = ("link", *ends), self.said.board.links
        if None in ends:
            return
        if ends[0] == ends[1]:
            words.fault("a link from a part to itself; remove it")
        elif ends in links:
            words.fault(f"this link stands at {self.said.lines[key]} already; remove one")
        elif len(links) == limits.MOST_LINKS:
            words.fault(f"more than {limits.MOST_LINKS} links")
        else:
            links[ends], self.said.lines[key] = ticks, words.where

    def whole(self):
        if "deadline" not in self.said.lines:
            self.faults.append(Fault(self.name, "the deadline is missing; write: deadline TICKS"))
        if not self.said.names:
            self.faults.append(Fault(self.name, f"a board has at least one part; write: {self.forms['part']}"))


def part_of(words, numbers):
    """The part that a word names, by its name or as @NUMBER; None where there is none."""
    word = words.take("a part's name")
    if word in numbers:
        return numbers[word]
    if BY_NUMBER.match(word) and int(word[1:]) < limits.MOST_PARTS:
        return int(word[1:])
    words.fault(f"no part is called {shown(word)}")
    return None


def read_board(data, name):
    """What a board text says, and its faults."""
    reader = BoardReader(data, name)
    beyond = [key for key in reader.said.board.links if max(key) >= len(reader.said.names)]
    for key in beyond:
        reader.faults.append(Fault(reader.said.lines[("link",) + key], f"the board has no part @{max(key)}"))
    return reader.said, sorted_faults(reader.faults)


def read_orders(data, names, name):
    """The orders of an order text, and its faults. A part that the board lacks may stand as @NUMBER: the planner refuses it."""
    faults, orders, known = [], [], forms()[1]
    numbers = {label: p for p, label in enumerate(names)}
    for line in lines_of(data, name, faults):
        if line.words[0] not in known:
            faults.append(Fault(line.where, f"{shown(line.words[0])} is none of {', '.join(known)}"))
            continue
        try:
            order = read_order(Words(line, known[line.words[0]], faults), numbers)
        except Broken:
            continue
        if order is not None:
            orders.append(OrderLine(order, line.where))
    return orders, sorted_faults(faults)


def read_order(words, numbers):
    """One order, or None where a fault was noted."""
    word, curve = words.words[0], None
    if word == "deadline":
        values = (words.number("deadline"),)
    elif word == "curve":
        values, curve = (part_of(words, numbers),), words.curve()
        if curve is None:
            return None
    else:
        values = part_of(words, numbers), part_of(words, numbers)
        values += (words.number("delay"),) if word == "delay" else ()
    words.end()
    return None if None in values else Order(word, values, curve)


def sorted_faults(faults):
    """In the order of lines; faults of the whole text last."""
    def place(fault):
        line = fault.where.rpartition(":")[2]
        return (0, int(line)) if line.isdigit() else (1, 0)

    return sorted(faults, key=place)


# ---- text again


def board_text(board, names):
    """A board as text, its parts in their order and its links ascending."""
    out = [f"deadline {board.deadline}"]
    if board.rule != "A":
        out.append(f"rule {board.rule}")
    out += [f"part {name} {curve.text()}" for name, curve in zip(names, board.curves)]
    for (source, target), ticks in sorted(board.links.items()):
        out.append(f"link {names[source]} {names[target]}" + (f" {ticks}" if ticks else ""))
    return "".join(line + "\n" for line in out)


def order_text(orders, names):
    return "".join(order.text(namer(names)) + "\n" for order in orders)


def namer(names):
    """Gives a part's name; @NUMBER where the board lacks it."""
    return lambda part: names[part] if part < len(names) else f"@{part}"


def raise_faults(*rows):
    faults = [fault for row in rows for fault in row]
    if faults:
        raise InputFaults(faults)
