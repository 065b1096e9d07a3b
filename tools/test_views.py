"""The drawings and the page say what the plan says; and what later planners will say is read and shown."""
import html.parser
import os
import re
import unittest
import xml.etree.ElementTree

import asked
import chart
import datafile
import front
import page
import programs
import report
import worth
from sources import source_of
from story import tell

EXAMPLES = [os.path.join(programs.ROOT, "examples", name) for name in ("D", "K", "sampler", "guard")]
SVG = "{http://www.w3.org/2000/svg}"
# Board K without its orders: the latest arrivals at the same price, and the latest ends.
K_LATE = [(0, 4, 4), (4, 5, 9), (9, 1, 10), (4, 6, 10)]
K_LATEST_ENDS = [4, 7, 10, 10]


def setUpModule():
    with programs.ready():
        pass


def planned(source):
    """The table of the program itself: label, start, delay, end, power of each part; and the total. Under rule B that of calls."""
    files = {"board.dat": source.board_data, "orders.dat": source.orders_data, "names.txt": source.sheet}
    text = programs.run("boddivarn", files).decode("ascii") if source.rule == "A" else front.table_of(tell(source))
    lines = text.split("\n")
    rows = [line.split(" ") for line in lines if re.match(r"\d+ \S+ \d+ \d+ \d+ \d+$", line)]
    total = next(int(line.split(" ")[1]) for line in lines if line.startswith("total "))
    return [(row[1], *map(int, row[2:])) for row in rows], total


def late_story():
    """Board K's story with what the planner says from Req 01 and Req 03 on."""
    source = source_of(os.path.join(EXAMPLES[1], "board.txt"))
    story = tell(source)
    story.state.late, story.state.latest_ends = K_LATE, K_LATEST_ENDS
    return story


class Drawn:
    """A drawing read back: ticks from places on the sheet."""

    def __init__(self, text):
        self.root = xml.etree.ElementTree.fromstring(text)
        self.left, self.tick = float(self.root.get("data-left", 0)), float(self.root.get("data-tick", 1))

    def ticks(self, x):
        return (float(x) - self.left) / self.tick

    def spans(self, *kinds):
        """Part: from and to, by the rectangle itself."""
        found = {}
        for item in self.root.iter(SVG + "rect"):
            if item.get("class") in kinds:
                first = self.ticks(item.get("x"))
                found[int(item.get("data-part"))] = (first, first + float(item.get("width")) / self.tick)
        return found

    def of_class(self, tag, kind):
        return [item for item in self.root.iter(SVG + tag) if item.get("class") == kind]


class Charts(unittest.TestCase):
    def near(self, found, ticks, drawn):
        for one, two in zip(found, ticks):
            self.assertAlmostEqual(one, two, delta=0.02 / drawn.tick)

    def test_bars_are_the_plan(self):
        for example in EXAMPLES:
            source = source_of(example)
            rows, total = planned(source)
            drawn = Drawn(chart.chart(source)[1])
            bars = drawn.spans("bar", "critical")
            self.assertEqual(sorted(bars), list(range(len(rows))))
            for part, (_, start, _, end, _) in enumerate(rows):
                self.near(bars[part], (start, end), drawn)
            texts = [item.text for item in drawn.root.iter(SVG + "text")]
            for label, _, delay, _, _ in rows:
                self.assertIn(label, texts)
                self.assertIn(str(delay), texts)
            self.assertTrue(any(f"total {total} " in text for text in texts))

    def test_rows_stand_apart_and_inside_the_sheet(self):
        drawn = Drawn(chart.chart(source_of(EXAMPLES[2]))[1])
        height = float(drawn.root.get("height"))
        tops = sorted(float(item.get("y")) for kind in ("bar", "critical") for item in drawn.of_class("rect", kind))
        self.assertTrue(all(below - above >= 15 for above, below in zip(tops, tops[1:])))
        self.assertTrue(0 < tops[0] and tops[-1] < height)

    def test_critical_links_join_bars(self):
        source = source_of(EXAMPLES[1])
        rows, drawn = planned(source)[0], Drawn(chart.chart(source)[1])
        links = drawn.of_class("path", "link")
        self.assertEqual(sorted(item.get("data-link") for item in links), ["0 1", "0 3", "1 2"])
        for item in links:
            one, two = map(int, item.get("data-link").split())
            ends = re.findall(r"[ML]([\d.]+),", item.get("d"))
            self.near((drawn.ticks(ends[0]), drawn.ticks(ends[1])), (rows[one][3], rows[two][1]), drawn)

    def test_the_usable_deadline_is_marked(self):
        drawn = Drawn(chart.chart(source_of(EXAMPLES[2]))[1])
        self.near([drawn.ticks(drawn.of_class("line", "deadline")[0].get("x1"))], [300], drawn)

    def test_the_latest_view_and_spare_ticks(self):
        story = late_story()
        story.state.latest_ends = [4, 9, 10, 10]
        drawn = Drawn(chart.chart_of(story))
        late = drawn.spans("late")
        for part, (start, _, end) in enumerate(K_LATE):
            self.near(late[part], (start, end), drawn)
        self.assertEqual(list(drawn.spans("spare")), [1])
        self.near(drawn.spans("spare")[1], (7, 9), drawn)

    def test_names_are_escaped(self):
        story = late_story()
        story.source.names = ['<A>&"', "]]>", "'", "&amp;"]
        texts = [item.text for item in Drawn(chart.chart_of(story)).root.iter(SVG + "text")]
        self.assertTrue({'<A>&"', "]]>", "'", "&amp;"} <= set(texts))


class Tables(html.parser.HTMLParser):
    """The tables of a page by their id, and its tags."""

    def __init__(self, text):
        super().__init__()
        self.tables, self.tags, self.now, self.links = {}, set(), None, []
        self.feed(text)

    def handle_starttag(self, tag, attributes):
        self.tags.add(tag)
        names = dict(attributes)
        self.links += [names[name] for name in ("href", "src") if name in names]
        if tag == "table":
            self.now = self.tables.setdefault(names.get("id", len(self.tables)), [])
        elif tag == "tr" and self.now is not None:
            self.now.append([])
        elif tag in ("td", "th") and self.now is not None:
            self.now[-1].append("")

    def handle_endtag(self, tag):
        if tag == "table":
            self.now = None

    def handle_data(self, data):
        if self.now and self.now[-1]:
            self.now[-1][-1] += data.strip()


class Pages(unittest.TestCase):
    def test_the_plan(self):
        for example in EXAMPLES:
            source = source_of(example)
            rows, total = planned(source)
            _, text = page.page(source)
            tables = Tables(text)
            head, *lines = tables.tables["plan"]
            found = [tuple(line[head.index(name)] for name in ("label", "start", "delay", "end", "power")) for line in lines[:-1]]
            self.assertEqual(found, [tuple(map(str, row)) for row in rows])
            self.assertEqual(lines[-1][head.index("power")], str(total))

    def test_it_stands_alone(self):
        tables = Tables(page.page(source_of(EXAMPLES[2]))[1])
        self.assertEqual((tables.links, tables.tags & {"script", "link", "img", "iframe", "object"}), ([], set()))

    def test_both_views(self):
        text = page.views(late_story())
        lines = Tables(text).tables["views"][1:]
        self.assertEqual([line[1:] for line in lines], [
            ["AMP", "0", "4", "4", "0", "4", "4", "0"], ["VIA", "4", "3", "7", "4", "5", "9", "0"],
            ["BUF", "7", "3", "10", "9", "1", "10", "2"], ["TRACE", "4", "6", "10", "4", "6", "10", "0"],
        ])

    def test_refusals_are_drawn(self):
        text = page.page(source_of(EXAMPLES[1]))[1]
        self.assertIn("orders.txt:3: deadline 9 is refused (10): AMP, TRACE, VIA, BUF take 10 ticks at their fastest, 1 too many", text)
        drawing = re.search(r'class="drawn wide">(<svg.*?</svg>)', text, re.S)[1]
        words = [item.text for item in xml.etree.ElementTree.fromstring(drawing).iter(SVG + "text")]
        self.assertEqual(words, ["AMP", "fastest 2", "TRACE", "fastest 4", "VIA", "fastest 3", "BUF", "fastest 1"])


class Reports(unittest.TestCase):
    def test_the_latest_arrivals_beside_the_earliest(self):
        text = report.report_text(late_story(), latest=True)
        row = next(line.split() for line in text.split("\n") if " BUF " in line)
        self.assertEqual(row, "2 BUF 1 3 7 3 10 10 0 26 - 9 1 10 2".split())
        self.assertNotIn("does not say", text)

    def test_the_next_tick_saves_what_the_plan_at_one_tick_more_saves(self):
        story = tell(source_of(EXAMPLES[1]))
        self.assertEqual(report.asked_powers(story), [5, 12, 12, 2])

    def test_many_critical_paths_are_counted(self):
        """Eighteen diamonds in a row: 2 to the 18 paths, of which the first few are listed."""
        state = asked.State(deadline=37, total=0)
        for k in range(18):
            state.parts += [(2 * k, 1, 2 * k + 1, 0), (2 * k + 1, 1, 2 * k + 2, 0), (2 * k + 1, 1, 2 * k + 2, 0)]
            one = 3 * k
            state.links += [(one, one + 1, True), (one, one + 2, True), (one + 1, one + 3, True), (one + 2, one + 3, True)]
        state.parts.append((36, 1, 37, 0))
        paths, count = report.critical_paths(state)
        self.assertEqual((len(paths), count, len(report.critical_parts(state))), (20, 2**18, 55))

    def test_no_critical_path(self):
        source = source_of(os.path.join(EXAMPLES[0], "board.txt"))
        story = tell(source)
        story.state.deadline = story.state.usable = 9
        self.assertEqual(list(report.path_lines(story)), ["critical paths: none; the last end is 3, 6 ticks before the deadline"])


class Worth(unittest.TestCase):
    def test_totals_fall_and_fall_by_less_and_less(self):
        for example in EXAMPLES[:3]:
            _, rows = worth.worth(source_of(example))
            saved = [row.saves for row in rows[1:]]
            self.assertEqual(saved, sorted(saved, reverse=True))
            self.assertEqual((rows[0].saves, saved[-1]), (None, 0))

    def test_under_rule_b_guard_ticks_save_nothing(self):
        story, rows = worth.worth(source_of(EXAMPLES[3]), 80)
        self.assertEqual((story.state.deadline, [row.deadline for row in rows if row.saves == 0][0]), (129, 128))
        self.assertEqual([row.deadline for row in rows if row.total is None], [80])
        for row in rows[1:]:
            self.assertEqual(row.usable, row.deadline - row.deadline // 64)
        self.assertIn("flat from 127 to 128: no tick between saves anything\n", worth.text(story, rows))

    def test_each_total_is_that_of_the_board_with_that_deadline(self):
        source = source_of(os.path.join(EXAMPLES[1], "board.txt"))
        for row in worth.worth(source, 5, 12)[1]:
            text = board_with(source, row.deadline)
            total = None if text.load.no else text.state.total
            self.assertEqual(row.total, total)

    def test_the_plot(self):
        story, rows = worth.worth(source_of(EXAMPLES[1]))
        drawn = Drawn(worth.plot(story, rows))
        self.assertEqual([item.get("data-held") for item in drawn.of_class("line", "held")], ["9", "9"])
        points = drawn.of_class("polyline", "total")[0].get("points").split()
        self.assertEqual(len(points), len(rows))
        heights = [float(point.split(",")[1]) for point in points]
        self.assertEqual(heights, sorted(heights))
        self.assertEqual(len(drawn.of_class("rect", "flat")), 1)

    def test_guard_ticks_are_flat_too(self):
        """One part, fastest 60, power 50, a run of 10 at 5, under rule B: the ticks from 60 to 67 save 5, 5, 5, 0, 5, 5, 5."""
        rows = [worth.Row(60, 60, 50, None)]
        for ticks, saves in zip(range(61, 68), (5, 5, 5, 0, 5, 5, 5)):
            rows.append(worth.Row(ticks, ticks - ticks // 64, rows[-1].total - saves, saves))
        self.assertEqual(worth.flat_stretches(rows), [(64, 64)])
        self.assertEqual(list(worth.notes(rows, [(64, 64)])), ["flat from 63 to 64: no tick between saves anything"])


def board_with(source, deadline):
    """The story of a board at another deadline, loaded anew."""
    board = source.board.copy()
    board.deadline = deadline
    other = source_of(source.board_name)
    other.board, other.board_data = board, datafile.board_bytes(board)
    return tell(other)


class Said(unittest.TestCase):
    """The lines of the program `calls`, today's and those of later requests."""

    def test_today(self):
        lines = ["held 1", "deadline 9", "file 0109", "part 0 start 0 delay 4 end 4 power 60", "total 60"]
        held = asked.state_of(lines + ["link 0 1 critical 1", "sets 0 up 1 1 down 3 2"])
        self.assertEqual((held.deadline, held.last_tick, held.file, held.parts), (9, 9, b"\1\x09", [(0, 4, 4, 60)]))
        self.assertEqual((held.total, held.links, held.late, held.latest_ends), (60, [(0, 1, True)], None, None))

    def test_later(self):
        lines = ["held 1", "rule B", "deadline 128 usable 126", "file2 02", "part 0 start 0 delay 4 end 4 power 60", "total 60", "latest_end 0 7"]
        held = asked.state_of(lines + ["link 0 1 delay 3 critical 0", "late 0 start 3 delay 4 end 7", "something else"])
        self.assertEqual((held.rule, held.deadline, held.last_tick, held.file), ("B", 128, 126, b"\2"))
        self.assertEqual((held.latest_ends, held.links, held.late), ([7], [(0, 1, False)], [(3, 4, 7)]))

    def test_answers(self):
        self.assertEqual(asked.answer_of("order no 10 place 10 path 2 0 3 took 2 tally 1 1"), asked.Answer(10, 10, (0, 3), 2))
        self.assertEqual(asked.answer_of("power no 0 value 60"), asked.Answer(0, value=60))
        self.assertIsNone(asked.state_of(["held 0"]))


if __name__ == "__main__":
    unittest.main()
