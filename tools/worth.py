"""What one more tick is worth: the least total at each deadline, by the proved planner, as text and as a plot."""
from dataclasses import dataclass

import asked
import datafile
import svg
from faults import WrongUse
from limits import RANGES
from model import Order, usable_deadline
from report import table
from story import tell


@dataclass(frozen=True)
class Row:
    deadline: int
    usable: int
    total: int  # None where the deadline is refused
    saves: int  # None where the tick before it is refused


def deadline_order(ticks):
    return asked.order(datafile.order_bytes(Order("deadline", (ticks,))))


CHUNK = 500  # deadlines to a run of the program


def asked_deadlines(held, deadlines):
    """What the planner says of each deadline of a board that is held: its answer, and what it then holds."""
    for at in range(0, len(deadlines), CHUNK):
        calls = [held.load()]
        for ticks in deadlines[at:at + CHUNK]:
            calls += [deadline_order(ticks), asked.state()]
        answers = asked.ask(calls)[1:]
        yield from zip(answers[::2], answers[1::2])


def ends_of_range(held):
    """The least deadline at which the board is possible, and one from which no tick saves; the held one lies between."""
    low, high = RANGES["deadline"]
    (tight, _), (_, loose) = asked_deadlines(held, [low, high])
    last_end = max(end for _, _, end, _ in loose.parts)
    first, flat = (least_deadline(ticks, loose.rule) for ticks in (tight.place if tight.no else low, last_end))
    return first, min(high, max(flat + 2, held.deadline))


def least_deadline(ticks, rule):
    """The least deadline of which so many ticks are usable."""
    deadline = ticks
    while usable_deadline(deadline, rule) < ticks:
        deadline += 1
    return deadline


def worth(source, first=None, last=None):
    """The story, and a row for each deadline; no rows where the board is refused."""
    low, high = RANGES["deadline"]
    for name, ticks in (("--from", first), ("--to", last)):
        if ticks is not None and not low <= ticks <= high:
            raise WrongUse(f"{name} {ticks} is not from {low} to {high}")
    story = tell(source)
    if story.load.no:
        return story, []
    least, most = ends_of_range(story.state)
    first, last = first or least, last or max(most, first or 0)
    if first > last:
        raise WrongUse(f"the first deadline, {first}, is past the last, {last}")
    return story, rows_of(story.state, range(max(first - 1, low), last + 1), first)


def rows_of(held, deadlines, first):
    rows, before = [], None
    for ticks, (answer, state) in zip(deadlines, asked_deadlines(held, deadlines)):
        total = None if answer.no else state.total
        saves = before - total if before is not None and total is not None else None
        usable = state.last_tick if total is not None else None
        if ticks >= first:
            rows.append(Row(ticks, usable, total, saves))
        before = total
    return rows


# ---- as text


def flat_stretches(rows):
    """The stretches of ticks that save nothing, as (first, last)."""
    stretches = []
    for row in rows:
        if row.saves == 0 and stretches and stretches[-1][1] == row.deadline - 1:
            stretches[-1] = (stretches[-1][0], row.deadline)
        elif row.saves == 0:
            stretches.append((row.deadline, row.deadline))
    return stretches


def inside_flat(row, stretches, held):
    """Whether a row says nothing that its neighbours do not."""
    return row.deadline != held and any(first < row.deadline < last for first, last in stretches)


def text(story, rows):
    held, stretches = story.state.deadline, flat_stretches(rows)
    guarded = any(row.usable not in (None, row.deadline) for row in rows)
    out = [["deadline"] + (["usable"] if guarded else []) + ["total", "tick saves", ""]]
    for row in rows:
        if inside_flat(row, stretches, held):
            if out[-1][0] != "..":
                out.append([".."] * (len(out[0]) - 1) + [""])
            continue
        cells = [str(row.deadline)] + ([shown(row.usable)] if guarded else [])
        out.append(cells + ["refused (10)" if row.total is None else str(row.total), shown(row.saves), "<- held" if row.deadline == held else ""])
    return table(out, left=(len(out[0]) - 1,)) + "".join(line + "\n" for line in notes(rows, stretches))


def shown(number):
    return "-" if number is None else str(number)


def notes(rows, stretches):
    refused = [row.deadline for row in rows if row.total is None]
    if refused:
        yield f"deadlines {refused[0]} to {refused[-1]} are refused: a path takes longer at its fastest"
    for first, last in stretches:
        yield f"flat from {first - 1} to {last}: no tick between saves anything"
    if not stretches:
        yield "flat nowhere in this range: every tick saves something"


# ---- as a plot

LEFT, WIDTH, TOP, HIGH, GAP = 110.0, 780.0, 60.0, 300.0, 60.0


class Panel:
    """A frame with its scales."""

    def __init__(self, top, high, deadlines, values):
        self.top, self.high = top, high
        self.first, self.last = deadlines
        self.low, self.most = values[0], max(values[1], values[0] + 1)

    def x(self, ticks):
        return LEFT + WIDTH * (ticks - self.first) / max(self.last - self.first, 1)

    def y(self, value):
        return self.top + self.high * (self.most - value) / (self.most - self.low)

    def frame(self, words):
        out = [svg.text(LEFT, self.top - 10, words, font_weight="bold")]
        for value in svg.steps(self.low, self.most, 6):
            y = self.y(value)
            out.append(svg.line(LEFT, y, LEFT + WIDTH, y, stroke=svg.GRID))
            out.append(svg.text(LEFT - 8, y + 4, value, text_anchor="end"))
        for ticks in svg.steps(self.first, self.last):
            x = self.x(ticks)
            out.append(svg.line(x, self.top, x, self.top + self.high, stroke=svg.GRID))
            out.append(svg.text(x, self.top + self.high + 16, ticks, text_anchor="middle"))
        return "".join(out)

    def held(self, ticks, words):
        x = self.x(ticks)
        out = svg.line(x, self.top, x, self.top + self.high, stroke=svg.LIMIT, stroke_width=2.5, stroke_dasharray="8 3", class_="held", data_held=ticks)
        right = ticks - self.first > (self.last - self.first) / 2
        return out + svg.text(x + (-6 if right else 6), self.top + 14, words, text_anchor="end" if right else "start", font_weight="bold")


def plot(story, rows):
    """The least total over the deadline, and below it what each tick saves."""
    possible = [row for row in rows if row.total is not None]
    if not possible:
        raise WrongUse("--svg: no deadline of this range is possible, and there is nothing to draw")
    span, held = (rows[0].deadline, rows[-1].deadline), story.state.deadline
    totals, saved = [row.total for row in possible], [row for row in rows if row.saves is not None]
    upper = Panel(TOP, HIGH, span, (min(totals), max(totals)))
    lower = Panel(TOP + HIGH + GAP, HIGH / 2, span, (0, max([row.saves for row in saved], default=1)))
    inside = [svg.text(16, 24, f"{story.source.board_name}: what one more tick is worth", font_size=15, font_weight="bold")]
    inside += [upper.frame("least total, microwatts"), lower.frame("saved by the tick to this deadline, microwatts")]
    inside += [flats(rows, upper), curve(possible, upper), *bars(saved, lower)]
    if span[0] <= held <= span[1]:
        inside += [upper.held(held, f"held: deadline {held}, total {story.state.total}"), lower.held(held, "")]
    inside.append(svg.text(LEFT + WIDTH, lower.top + lower.high + 34, "deadline, ticks", text_anchor="end"))
    words = f"The least total of {story.source.board_name} at deadlines {span[0]} to {span[1]}"
    return svg.drawing(LEFT + WIDTH + 40, lower.top + lower.high + 48, words, *inside) + "\n"


def flats(rows, panel):
    out = ""
    for first, last in flat_stretches(rows):
        left, right = panel.x(max(first - 1, panel.first)), panel.x(last)
        out += svg.element("rect", x=left, y=panel.top, width=right - left, height=panel.high, fill=svg.PALE, opacity=0.5, class_="flat")
        if right - left > 30:
            out += svg.text((left + right) / 2, panel.top + panel.high / 2, "flat", text_anchor="middle")
    return out


def curve(rows, panel):
    points = " ".join(f"{svg.number(panel.x(row.deadline))},{svg.number(panel.y(row.total))}" for row in rows)
    dots = "" if len(rows) > 80 else "".join(svg.element("circle", cx=panel.x(row.deadline), cy=panel.y(row.total), r=3, fill=svg.INK) for row in rows)
    return svg.element("polyline", points=points, fill="none", stroke=svg.INK, stroke_width=2, class_="total") + dots


def bars(rows, panel):
    pitch = WIDTH / max(panel.last - panel.first, 1)
    width = 0.7 * pitch if pitch > 6 else pitch + 0.2  # where they are narrow, without gaps
    for row in rows:
        top = panel.y(row.saves)
        place = {"x": panel.x(row.deadline) - width / 2, "y": top, "width": width, "height": panel.top + panel.high - top}
        words = svg.title(f"the tick from {row.deadline - 1} to {row.deadline} saves {row.saves}")
        yield svg.element("rect", words, **place, fill=svg.LINK, data_saves=row.saves)
