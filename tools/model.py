"""A board and its orders as values, between text and bytes."""
from dataclasses import dataclass, field

# An order's word in the text, and its kind in the file.
KINDS = {"deadline": 1, "add": 2, "remove": 3, "curve": 4, "delay": 5}
WORDS = {kind: word for word, kind in KINDS.items()}


@dataclass(frozen=True)
class Curve:
    fastest: int
    power: int
    runs: tuple = ()  # of (length, saving)

    @property
    def slowest(self):
        return self.fastest + sum(length for length, _ in self.runs)

    def text(self):
        runs = "".join(f" {length}@{saving}" for length, saving in self.runs)
        return f"fastest {self.fastest} power {self.power}" + (" runs" + runs if runs else "")


@dataclass
class Board:
    deadline: int = 0
    rule: str = "A"
    curves: list = field(default_factory=list)
    links: dict = field(default_factory=dict)  # (from, to): its own delay

    def copy(self):
        return Board(self.deadline, self.rule, list(self.curves), dict(self.links))


@dataclass(frozen=True)
class Order:
    word: str  # one of KINDS
    numbers: tuple  # a deadline; from and to; from, to and a delay; or a part
    curve: Curve = None

    def text(self, name):
        """The order as a line of text; `name` gives a part's name."""
        if self.word == "deadline":
            return f"deadline {self.numbers[0]}"
        if self.word == "curve":
            return f"curve {name(self.numbers[0])} {self.curve.text()}"
        ends = f"{self.word} {name(self.numbers[0])} {name(self.numbers[1])}"
        return f"{ends} {self.numbers[2]}" if self.word == "delay" else ends

    def made(self, board):
        """The board after this order, which the planner has taken."""
        after = board.copy()
        if self.word == "deadline":
            after.deadline = self.numbers[0]
        elif self.word == "curve":
            after.curves[self.numbers[0]] = self.curve
        elif self.word == "remove":
            del after.links[self.numbers[:2]]
        else:
            after.links[self.numbers[:2]] = self.numbers[2] if self.word == "delay" else 0
        return after


def usable_deadline(deadline, rule):
    """Under rule B one tick in every full 64 of the deadline is guard."""
    return deadline - deadline // 64 if rule == "B" else deadline


def counted(number, word):
    """A number of things, in words."""
    return f"{number} {word}" if number == 1 else f"{number} {word}s"
