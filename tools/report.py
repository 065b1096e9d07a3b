"""What is held, for people: each part, the critical paths, the totals; and what each order changed."""
import asked
import explain
from model import counted
from story import tell

MOST_PATHS = 20


def asked_powers(story):
    """What the next tick of each part would save, by the planner's own powers; None at the slowest."""
    calls = [story.state.load()]
    for part, (_, delay, _, _) in enumerate(story.state.parts):
        calls += [asked.power(part, delay), asked.power(part, delay + 1)]
    answers = asked.ask(calls)[1:]
    return [None if later.no else now.value - later.value for now, later in zip(answers[::2], answers[1::2])]


# ---- critical paths


class Critical:
    """The paths along critical links from a part that starts at 0 to one that ends with the usable deadline."""

    def __init__(self, state):
        self.follows = {}
        for source, target, critical in state.links:
            if critical:
                self.follows.setdefault(source, []).append(target)
        self.last = {part for part, (_, _, end, _) in enumerate(state.parts) if end == state.last_tick}
        self.by_start = sorted(range(len(state.parts)), key=lambda part: state.parts[part][0])
        self.counts = self.path_counts()
        self.firsts = [part for part, (start, _, _, _) in enumerate(state.parts) if start == 0 and self.counts[part]]

    def path_counts(self):
        """How many such paths go on from each part. A link leads to a later start, so the last start comes first."""
        counts = [0] * len(self.by_start)
        for part in reversed(self.by_start):
            counts[part] = (part in self.last) + sum(counts[target] for target in self.follows.get(part, []))
        return counts

    def extend(self, path, paths, most):
        if len(paths) < most and path[-1] in self.last:
            paths.append(path)
        for target in self.follows.get(path[-1], []):
            if len(paths) < most and self.counts[target]:
                self.extend(path + [target], paths, most)


def critical_paths(state, most=MOST_PATHS):
    """The first few critical paths, and how many there are."""
    critical, paths = Critical(state), []
    for part in critical.firsts:
        critical.extend([part], paths, most)
    return paths, sum(critical.counts[part] for part in critical.firsts)


def critical_parts(state):
    """The parts on a critical path."""
    critical = Critical(state)
    reached = set(critical.firsts)
    for part in critical.by_start:
        if part in reached:
            reached.update(target for target in critical.follows.get(part, []) if critical.counts[target])
    return reached


# ---- tables


def table(rows, left=(1,)):
    """Rows of words in columns, numbers to the right, the named columns to the left."""
    widths = [max(len(row[k]) for row in rows) for k in range(len(rows[0]))]
    lines = []
    for row in rows:
        cells = [cell.ljust(width) if k in left else cell.rjust(width) for k, (cell, width) in enumerate(zip(row, widths))]
        lines.append("  ".join(cells).rstrip() + "\n")
    return "".join(lines)


def shown(number):
    return "-" if number is None else str(number)


def part_columns(story, saves, latest):
    """The report's columns: a heading and a value for each part. What the library does not say is left out."""
    state, curves, name = story.state, story.ledger.board.curves, story.source.name
    parts = range(len(state.parts))
    yield "part", [str(p) for p in parts]
    yield "label", [name(p) for p in parts]
    yield "fastest", [str(curves[p].fastest) for p in parts]
    yield "slowest", [str(curves[p].slowest) for p in parts]
    for k, heading in enumerate(("start", "delay", "end")):
        yield heading, [str(state.parts[p][k]) for p in parts]
    if state.latest_ends is not None:
        yield "latest end", [str(end) for end in state.latest_ends]
        yield "spare", [str(state.latest_ends[p] - state.parts[p][2]) for p in parts]
    yield "power", [str(state.parts[p][3]) for p in parts]
    yield "next saves", [shown(saving) for saving in saves]
    if latest and state.late is not None:
        for k, heading in enumerate(("late start", "late delay", "late end")):
            yield heading, [str(state.late[p][k]) for p in parts]
        yield "may wait", [str(state.late[p][0] - state.parts[p][0]) for p in parts]


def facts(story):
    """The board in a line, and the totals."""
    state, board = story.state, story.ledger.board
    guard = f", {state.usable} usable under rule {state.rule}" if state.usable not in (None, state.deadline) else ""
    end = max(end for _, _, end, _ in state.parts)
    yield f"{counted(len(board.curves), 'part')}, {counted(len(board.links), 'link')}, deadline {state.deadline}{guard}"
    yield f"total {state.total} microwatts, last end {end} of {state.last_tick} ticks"
    yield f"orders {story.taken} taken {story.refused} refused" + (", and the rest cannot be read" if story.stopped else "")


def path_lines(story):
    paths, count = critical_paths(story.state)
    if not paths:
        end = max(end for _, _, end, _ in story.state.parts)
        yield f"critical paths: none; the last end is {end}, {counted(story.state.last_tick - end, 'tick')} before the deadline"
        return
    yield f"critical paths: {count}"
    for path in paths:
        yield "  " + " -> ".join(map(story.source.name, path))
    if count > len(paths):
        yield f"  and {count - len(paths)} more"


def report_text(story, latest=False):
    columns = list(part_columns(story, asked_powers(story), latest))
    rows = [[heading for heading, _ in columns]] + [list(row) for row in zip(*(values for _, values in columns))]
    late = ""
    if latest and story.state.late is None:
        late = "\nThe planner that is built does not say the latest arrivals yet.\n"
    return "".join(line + "\n" for line in facts(story)) + "\n" + table(rows) + late + "\n" + "".join(line + "\n" for line in path_lines(story))


# ---- what each order changed


def signed(number):
    return f"{number:+d}" if number else "no change"


def diff_text(story):
    """Order by order: delays, powers and the total."""
    out = [f"{story.source.board_name}: total {story.first_total}"]
    for step in story.steps:
        if step.taken:
            change = step.change
            out.append(f"{step.where}: {step.text}: total {change.total_before} -> {change.total} ({signed(change.total - change.total_before)})")
            out += change_lines(change, story.source.name)
        else:
            out.append(str(explain.refused_step(story.source, step)))
    if story.stopped:
        out.append(str(explain.stopped(story)))
    return "".join(line + "\n" for line in out)


def change_lines(change, name):
    rows = [[" ", name(part), f"delay {one} -> {two}", f"power {old} -> {new}", f"({signed(new - old)})"] for part, one, two, old, new in change.parts]
    if rows:
        yield from table(rows, left=(0, 1, 2, 3, 4)).split("\n")[:-1]
    if change.moved:
        yield f"   only start and end at other times: {change.moved}"


def report(source, latest, diff):
    """The story, and its report as text where a board is held."""
    story = tell(source, changes=diff)
    if story.load.no:
        return story, ""
    return story, diff_text(story) if diff else report_text(story, latest)
