"""Boards and orders as the files that the program reads: written, and read with each number's place and meaning."""
from dataclasses import dataclass

import limits
from faults import one_fault
from model import KINDS, WORDS, Board, Curve, Order


def encode(n):
    """A number in groups of seven bits, lowest first, shortest form."""
    out = []
    while n >= 128:
        out.append(n % 128 + 128)
        n //= 128
    return bytes(out + [n])


def encoded(*numbers):
    return b"".join(map(encode, numbers))


def curve_bytes(curve):
    return encoded(curve.fastest, curve.power, len(curve.runs), *(n for run in curve.runs for n in run))


def board_bytes(board):
    """A design file: of version 1 where that can hold the board, or where no other is known; the rule is then named beside it."""
    version_2 = limits.LINK_DELAYS_KNOWN and (board.rule != "A" or any(board.links.values()))
    out = encoded(2, "AB".index(board.rule)) if version_2 else encoded(1)
    out += encoded(board.deadline, len(board.curves)) + b"".join(map(curve_bytes, board.curves)) + encoded(len(board.links))
    for (source, target), ticks in sorted(board.links.items()):
        out += encoded(source, target, ticks) if version_2 else encoded(source, target)
    return out


def order_bytes(order):
    return encoded(KINDS[order.word], *order.numbers) + (curve_bytes(order.curve) if order.curve else b"")


@dataclass(frozen=True)
class Field:
    """A number of a file: where it begins, what it is, and what of the text it belongs to."""

    at: int
    what: str
    key: object


class Reader:
    """A file read from left to right; the first fault ends it. `fields` has every number met, the faulty one last."""

    def __init__(self, data, name, at=0):
        self.data, self.name, self.at = data, name, at
        self.fields = []

    def left(self):
        return self.at < len(self.data)

    def fail(self, at, words):
        raise one_fault(f"{self.name}: byte {at}", words)

    def number(self, what, low, high, key=None):
        first, value = self.at, 0
        self.fields.append(Field(first, what, key))
        for group in range(limits.MOST_GROUPS):
            if not self.left():
                self.fail(len(self.data), f"the file ends within {what}")
            byte = self.data[self.at]
            self.at += 1
            value += byte % 128 * 128**group
            if byte < 128:
                if byte == 0 and group > 0:
                    self.fail(first, f"{what} is not in its shortest form")
                if not low <= value <= high:
                    self.fail(first, f"{what} is {value}, which is not from {low} to {high}")
                return value
        self.fail(first, f"{what} has more than {limits.MOST_GROUPS} groups")

    def ranged(self, what, of, key):
        return self.number(f"the {what} of {of}", *limits.RANGES[what], key)

    def curve(self, of, key):
        fastest, at, power = self.ranged("fastest", of, key), self.at, self.ranged("power", of, key)
        runs = []
        for k in range(1, self.number(f"the run count of {of}", 0, limits.MOST_RUNS, key) + 1):
            length, here = self.ranged("length", f"run {k} of {of}", key), self.at
            saving = self.ranged("saving", f"run {k} of {of}", key)
            if runs and saving >= runs[-1][1]:
                self.fail(here, f"the saving of run {k} of {of} is {saving}, not below the {runs[-1][1]} of the run before")
            runs.append((length, saving))
        savings = sum(length * saving for length, saving in runs)
        if power < savings:
            self.fail(at, f"the power of {of} is {power}, below all savings together, {savings}")
        return Curve(fastest, power, tuple(runs))

    def board(self, name):
        """A whole design file; `name` gives a part's name."""
        board = Board()
        version = self.number("the version", 1, 2 if limits.LINK_DELAYS_KNOWN else 1, "version")
        if version == 2:
            board.rule = "AB"[self.number("the rule", 0, 1, "rule")]
        board.deadline = self.number("the deadline", *limits.RANGES["deadline"], "deadline")
        for p in range(self.number("the part count", 1, limits.MOST_PARTS, "parts")):
            board.curves.append(self.curve(f"part {p} ({name(p)})", ("part", p)))
        before = (-1, -1)
        for k in range(1, self.number("the link count", 0, limits.MOST_LINKS, "links") + 1):
            before = self.link(k, before, board, version)
        if self.left():
            self.fail(self.at, "bytes follow after the design")
        return board

    def link(self, k, before, board, version):
        at, last = self.at, len(board.curves) - 1
        ends = self.number(f"the from of link {k}", 0, last, ("link", k)), self.number(f"the to of link {k}", 0, last, ("link", k))
        if ends[0] == ends[1]:
            self.fail(at, f"link {k} leads from part {ends[0]} to itself")
        if ends <= before:
            self.fail(at, f"link {k}, {ends[0]} to {ends[1]}, is not above the one before, {before[0]} to {before[1]}")
        board.links[ends] = self.ranged("delay", f"link {k}", ("link", k)) if version == 2 else 0
        return ends

    def order(self, k):
        """The k-th order; a part number may be any that an order can hold."""
        key, of = ("order", k), f"order {k}"
        word = WORDS[self.number(f"the kind of {of}", 1, 5 if limits.LINK_DELAYS_KNOWN else 4, key)]
        if word == "deadline":
            return Order(word, (self.ranged("deadline", of, key),))
        if word == "curve":
            return Order(word, (self.part("part", of, key),), self.curve(of, key))
        ends = self.part("from", of, key), self.part("to", of, key)
        return Order(word, ends + ((self.ranged("delay", of, key),) if word == "delay" else ()))

    def part(self, what, of, key):
        return self.number(f"the {what} of {of}", 0, limits.MOST_PARTS - 1, key)


def field_at(fields, place):
    """The number that begins at a place or holds it; the last one where the place is past them all."""
    return next((field for field in reversed(fields) if field.at <= place), None)
