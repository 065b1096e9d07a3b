"""What came of a board and its orders: the planner's answers one by one, and beside them where each fact was said."""
from dataclasses import dataclass, field

import asked
import datafile
from faults import CannotRun
from model import Board


@dataclass
class Ledger:
    """The board as the planner holds it, and where each thing of it was said."""

    board: Board
    lines: dict
    gone: dict = field(default_factory=dict)  # links that an order removed, and where

    def after(self, order, where):
        """The ledger after an order that was taken."""
        lines, gone = dict(self.lines), dict(self.gone)
        if order.word == "deadline":
            lines["deadline"] = where
        elif order.word == "curve":
            lines["part", order.numbers[0]] = where
        else:
            key = ("link",) + order.numbers[:2]
            if order.word == "remove":
                del lines[key]
                gone[key] = where
            else:
                lines[key] = where
        return Ledger(order.made(self.board), lines, gone)


@dataclass(frozen=True)
class Change:
    """What an order changed: the totals, the parts whose delay or power is another, and how many others only moved."""

    total_before: int
    total: int
    parts: list  # of (part, delay before, delay, power before, power)
    moved: int


def change_between(before, after):
    changed, moved = [], 0
    for part, (one, two) in enumerate(zip(before.parts, after.parts)):
        if (one[1], one[3]) != (two[1], two[3]):
            changed.append((part, one[1], two[1], one[3], two[3]))
        else:
            moved += one != two
    return Change(before.total, after.total, changed, moved)


@dataclass
class Step:
    """One order: what was asked and what came of it."""

    count: int
    where: str
    text: str
    order: object
    answer: asked.Answer
    before: Ledger = None  # where it was refused
    change: Change = None  # where it was taken and changes were asked for

    @property
    def taken(self):
        return self.answer.no == 0


@dataclass
class Story:
    source: object
    load: asked.Answer
    first_total: int = None  # after the load
    steps: list = field(default_factory=list)
    stopped: asked.Answer = None  # of an order that cannot be read
    state: asked.State = None  # at the end
    ledger: Ledger = None  # at the end

    @property
    def taken(self):
        return sum(step.taken for step in self.steps)

    @property
    def refused(self):
        return len(self.steps) - self.taken

    @property
    def is_clean(self):
        return self.load.no == 0 and not self.refused and self.stopped is None


CHUNK = 400  # orders to a run of the program, where every state between is asked for


def tell(source, changes=False):
    """Loads the board and gives it the orders; with what each changed where that is asked for."""
    load, state = asked.ask([asked.load(source.board_data, source.rule), asked.state()])
    story = Story(source, load)
    if load.no:
        return story
    if source.board is None:
        raise CannotRun("the planner reads a design file that is not read here")
    story.state, story.first_total, story.ledger = state, state.total, Ledger(source.board, source.lines)
    size = CHUNK if changes else max(len(source.orders), 1)
    for at in range(0, len(source.orders), size):
        give_orders(story, source.orders[at:at + size], changes)
    rest = source.orders_data[source.read_to:]
    if rest:
        _, story.stopped = asked.ask([story.state.load(), asked.order(rest)])
    checked(story)
    return story


def give_orders(story, lines, changes):
    """Some orders, given to the board as it stands."""
    rows = [datafile.order_bytes(line.order) for line in lines]
    calls = [story.state.load()]
    for row in rows:
        calls += [asked.order(row)] + ([asked.state()] if changes else [])
    answers = iter(asked.ask(calls + [asked.state()])[1:])
    for line, row in zip(lines, rows):
        answer = next(answers)
        step = Step(len(story.steps) + 1, line.where, line.order.text(story.source.name), line.order, answer)
        add_step(story, step, len(row))
        if changes:
            after = next(answers)
            step.change = change_between(story.state, after) if step.taken else None
            story.state = after
    story.state = next(answers)


def add_step(story, step, length):
    if step.answer.took != length:
        raise CannotRun(f"{step.where}: the planner took {step.answer.took} bytes of an order of {length}")
    if step.taken:
        story.ledger = story.ledger.after(step.order, step.where)
    else:
        step.before = story.ledger
    story.steps.append(step)


def checked(story):
    """What is told here must be the planner's own: the board that it holds, and the order that it cannot read."""
    held = datafile.Reader(story.state.file, "state").board(story.source.name)
    held.rule = story.state.rule or "A"
    if held != story.ledger.board:
        raise CannotRun("the planner holds another board than these orders make")
    if story.stopped and (story.stopped.no == 0 or story.stopped.took):
        raise CannotRun("the planner reads an order that is not read here")
