"""The program `calls`, which asks the library everything: a row of calls goes in, lines come out."""
from dataclasses import dataclass, field

import limits
import programs
from faults import CannotRun

RULE, LOAD, ORDER, POWER, STATE = 1, 3, 4, 7, 13
# The words that begin a call's own line, and so end what a state says.
OPENINGS = {"load", "order", "tally", "power", "up", "down", "label", "write", "held", "stopped"}


@dataclass(frozen=True)
class Answer:
    """A refusal's number, place and path; number 0 where there is none."""

    no: int
    place: int = 0
    path: tuple = ()
    took: int = 0
    value: int = 0


@dataclass
class State:
    """What is held. What today's library does not say stays None."""

    deadline: int = 0
    usable: int = None
    rule: str = None
    file: bytes = b""
    parts: list = field(default_factory=list)  # of (start, delay, end, power)
    total: int = 0
    links: list = field(default_factory=list)  # of (from, to, critical)
    latest_ends: list = None
    late: list = None  # of (start, delay, end)

    def load(self):
        """The call that loads what is held once more."""
        return load(self.file, self.rule or "A")

    @property
    def last_tick(self):
        return self.deadline if self.usable is None else self.usable


def number(n):
    return n.to_bytes(8, "little")


def load(data, rule):
    """A load under a rule, which is named first; to name it prints nothing."""
    return bytes([RULE]) + number("AB".index(rule)) + bytes([LOAD]) + number(len(data)) + data


def order(data):
    return bytes([ORDER]) + number(len(data)) + data


def power(part, delay):
    return bytes([POWER]) + number(part) + number(delay)


def state():
    return bytes([STATE])


def ask(calls):
    """The answers to a row of calls, one for each: an Answer, or of `state` a State or None."""
    lines = programs.run("calls", {"calls.dat": b"".join(calls)}).decode("ascii").split("\n")[:-1]
    answers, at = [], 0
    for call in calls:
        end = at + 1
        if call[0] == STATE:
            while end < len(lines) and lines[end].split(" ", 1)[0] not in OPENINGS:
                end += 1
        if at >= len(lines) or lines[at] == "stopped":
            raise CannotRun(f"the program calls answered {len(answers)} of {len(calls)} calls")
        answers.append(state_of(lines[at:end]) if call[0] == STATE else answer_of(lines[at]))
        at = end
    if at != len(lines):
        raise CannotRun(f"the program calls said more than it was asked: {lines[at]!r}")
    return answers


def answer_of(line):
    words = line.split(" ")
    found = {}
    for name in ("no", "place", "took", "value"):
        if name in words:
            found[name] = int(words[words.index(name) + 1])
    if "path" in words:
        at = words.index("path") + 1
        found["path"] = tuple(map(int, words[at + 1:at + 1 + int(words[at])]))
    return Answer(**found)


def state_of(lines):
    """The lines of a state; lines of kinds that are not known here are left alone."""
    if lines[0] == "held 0":
        return None
    held = State()
    for line in lines[1:]:
        words = line.split(" ")
        take = TAKES.get(words[0])
        if take:
            take(held, words)
    return held


def take_deadline(held, words):
    held.deadline = int(words[1])
    held.usable = int(words[3]) if len(words) > 3 else None


def take_part(held, words):
    held.parts.append(tuple(int(word) for word in words[3::2]))


def take_link(held, words):
    held.links.append((int(words[1]), int(words[2]), words[words.index("critical") + 1] == "1"))


def take_latest_end(held, words):
    held.latest_ends = (held.latest_ends or []) + [int(words[2])]


def take_late(held, words):
    held.late = (held.late or []) + [tuple(int(word) for word in words[3::2])]


def take_file(held, words):
    held.file = bytes.fromhex(words[1])


def take_file_2(held, words):
    """A file of version 2, where such files are known here."""
    if limits.LINK_DELAYS_KNOWN or not held.file:
        take_file(held, words)


def take_rule(held, words):
    held.rule = words[1]


def take_total(held, words):
    held.total = int(words[1])


TAKES = {
    "rule": take_rule, "deadline": take_deadline, "file": take_file, "file1": take_file, "file2": take_file_2, "part": take_part,
    "total": take_total, "latest_end": take_latest_end, "link": take_link, "late": take_late,
}
