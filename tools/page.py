"""One HTML file with all that is to be known of a board: it needs no network and no script, and prints."""
from html import escape

import explain
import report
from chart import chart_of
from drawn import drawn_refusal
from model import counted
from story import tell

STYLE = """
:root { color-scheme: light; }
body { font-family: 'DejaVu Sans', Verdana, Arial, Helvetica, sans-serif; font-size: 15px; line-height: 1.45; color: #111; background: #fff;
  max-width: 1060px; margin: 0 auto; padding: 16px; }
h1 { font-size: 1.5em; margin: 0 0 .3em; overflow-wrap: anywhere; }
h2 { font-size: 1.15em; margin: 1.8em 0 .5em; border-bottom: 2px solid #00558b; padding-bottom: .15em; }
p { margin: .5em 0; }
.wide { overflow-x: auto; }
table { border-collapse: separate; border-spacing: 0; font-variant-numeric: tabular-nums; font-size: .92em; }
th, td { padding: 2px 10px; text-align: right; border-bottom: 1px solid #c8ccd0; white-space: nowrap; }
th { background: #eef2f5; vertical-align: bottom; }
th.name, td.name { text-align: left; }
tr.critical td.name { font-weight: bold; }
tr.critical td.name::after { content: ' \\25C6'; color: #b34700; }
tr.total td { font-weight: bold; border-top: 2px solid #111; }
.first { border-left: 2px solid #8a949e; }
.chart svg { width: 100%; min-width: 720px; height: auto; display: block; }
.drawn svg { max-width: 100%; height: auto; }
.refusal { border-left: 6px solid #b34700; padding: .2em 0 .2em .9em; margin: .8em 0; break-inside: avoid; }
.refusal p, li { overflow-wrap: anywhere; }
.facts { font-size: 1.1em; }
@media screen and (max-width: 640px) {
  body { font-size: 13px; padding: 10px; }
  th, td { padding: 2px 5px; }
  td.name, th.name { position: sticky; left: 0; }
  td.name { background: #fff; }
}
.note { color: #444; font-size: .92em; }
@media print {
  body { font-size: 10pt; max-width: none; padding: 0; }
  h2 { break-after: avoid; }
  tr, .refusal, .order { break-inside: avoid; }
  thead { display: table-header-group; }
  .wide { overflow: visible; }
  .chart svg { min-width: 0; max-height: 255mm; }
  .chart { break-inside: avoid; }
  th, td { padding: 1px 6px; }
}
@page { margin: 14mm; }
"""


def tag(name, *inside, **attributes):
    said = "".join(f' {key.rstrip("_").replace("_", "-")}="{escape(str(value))}"' for key, value in attributes.items())
    return f"<{name}{said}>{''.join(inside)}</{name}>"


def said(words):
    return escape(str(words))


def page(source):
    """The story, and its page; of a refused board too."""
    story = tell(source, changes=True)
    refusals = explain.refusals(story)
    body = [tag("h1", said(f"Board {source.board_name}")), tag("p", "<br>".join(map(said, facts(story))), class_="facts")]
    body += [tag("p", said(WORDS), class_="note"), refused(story, refusals)]
    if not story.load.no:
        body += [plan_table(story), drawing(story), views(story), paths(story), orders(story)]
    return story, whole(source.board_name, "\n".join(part for part in body if part))


MOST_ORDERS, MOST_DRAWN = 200, 40  # of a long row the first, and how many more there are
WORDS = (
    "Delays in ticks, powers in microwatts. What is held is the proved planner's choice: none within the deadline has a lower total, and of the equally cheap"
    " ones it is the earliest. A diamond marks a part on a critical path. What is refused changes nothing."
)


def facts(story):
    """The board in a few lines, held or refused."""
    board = story.source.board
    if not story.load.no:
        yield from report.facts(story)
        return
    if board is not None:
        yield f"{counted(len(board.curves), 'part')}, {counted(len(board.links), 'link')}, deadline {board.deadline}"
    yield "The board is refused; no budget is held."


def whole(name, body):
    head = f'<meta charset="utf-8">\n<meta name="viewport" content="width=device-width, initial-scale=1">\n<title>{said(name)}</title>\n<style>{STYLE}</style>'
    return f'<!DOCTYPE html>\n<html lang="en">\n<head>\n{head}\n</head>\n<body>\n{body}\n</body>\n</html>\n'


# ---- tables


def html_table(headings, rows, **attributes):
    """Rows of (class of the row, cells); a cell is (words, class)."""
    top = tag("tr", *(tag("th", said(words), **classed(kind), scope="col") for words, kind in headings))
    out = [tag("tr", *(tag("td", said(words), **classed(kind)) for words, kind in cells), **classed(row)) for row, cells in rows]
    return tag("div", tag("table", tag("thead", top), tag("tbody", "\n".join(out)), **attributes), class_="wide")


def classed(kind):
    return {"class_": kind} if kind else {}


def row_class(part, critical):
    return "critical" if part in critical else ""


def plan_table(story):
    """Every part, as the report has it."""
    columns = list(report.part_columns(story, report.asked_powers(story), latest=False))
    critical = report.critical_parts(story.state)
    headings = [(heading, "name" if heading == "label" else "") for heading, _ in columns]
    rows = []
    for part, cells in enumerate(zip(*(values for _, values in columns))):
        rows.append((row_class(part, critical), list(zip(cells, (kind for _, kind in headings)))))
    power = [heading for heading, _ in headings].index("power")
    last = [("total", "name") if k == 1 else (story.state.total if k == power else "", "") for k in range(len(headings))]
    return tag("h2", "The plan") + html_table(headings, rows + [("total", last)], id="plan")


def views(story):
    """The earliest and the latest arrivals at the same price, side by side."""
    state, name = story.state, story.source.name
    if state.late is None:
        return ""
    headings = [("part", ""), ("label", "name"), ("earliest start", "first"), ("delay", ""), ("end", "")]
    headings += [("latest start", "first"), ("delay", ""), ("end", ""), ("start may wait", "first")]
    critical, rows = report.critical_parts(state), []
    for part, (early, late) in enumerate(zip(state.parts, state.late)):
        numbers = [part, name(part), *early[:3], *late, late[0] - early[0]]
        rows.append((row_class(part, critical), [(words, kind) for words, (_, kind) in zip(numbers, headings)]))
    words = "Both cost the same. The earliest is held; the latest is where every start and end comes as late as that price allows."
    return tag("h2", "Earliest and latest") + tag("p", words) + html_table(headings, rows, id="views")


# ---- the rest


def drawing(story):
    return tag("h2", "Timing chart") + tag("div", chart_of(story), class_="wide chart", id="chart")


def paths(story):
    lines = list(report.path_lines(story))
    items = "".join(tag("li", said(line.strip()).replace("-&gt;", "&rarr;")) for line in lines[1:])
    return tag("h2", "Critical paths") + tag("p", said(lines[0])) + (tag("ul", items) if items else "")


def orders(story):
    """What each order changed."""
    if not story.steps:
        return ""
    out = [tag("h2", "What each order changed"), tag("p", said(f"The board as loaded: total {story.first_total}."))]
    for step in story.steps[:MOST_ORDERS]:
        out.append(taken_order(story, step) if step.taken else refused_order(step))
    if len(story.steps) > MOST_ORDERS:
        out.append(tag("p", said(f"And {len(story.steps) - MOST_ORDERS} more orders; `boddivarn report --diff` shows them all.")))
    return "\n".join(out)


def refused_order(step):
    return tag("p", tag("b", said(f"{step.count}. {step.text}")), said(f" is refused ({step.answer.no}): see above."), class_="order")


def taken_order(story, step):
    change = step.change
    words = f": total {change.total_before} to {change.total} ({report.signed(change.total - change.total_before)})"
    head = tag("p", tag("b", said(f"{step.count}. {step.text}")), said(words))
    headings = [("label", "name"), ("delay before", ""), ("after", ""), ("power before", "first"), ("after", ""), ("change", "")]
    rows = []
    for part, one, two, old, new in change.parts:
        cells = [story.source.name(part), one, two, old, new, report.signed(new - old)]
        rows.append(("", [(words, kind) for words, (_, kind) in zip(cells, headings)]))
    rest = tag("p", said(f"Parts that only start and end at other times: {change.moved}."), class_="note") if change.moved else ""
    return tag("div", head, html_table(headings, rows) if rows else "", rest, class_="order")


def refused(story, refusals):
    """Every refusal in words, with its path or loop drawn."""
    if not refusals:
        return ""
    out = [tag("h2", "Refused")]
    for count, refusal in enumerate(refusals):
        drawn = drawn_refusal(story, refusal, f"refusal{count}") if count < MOST_DRAWN else ""
        out.append(tag("div", tag("p", said(refusal)), tag("div", drawn, class_="drawn wide") if drawn else "", class_="refusal"))
    return "\n".join(out)
