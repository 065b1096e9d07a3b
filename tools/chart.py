"""The timing chart: a row for each part, its bar from start to end, what it may still wait, and what is critical."""
import svg
from model import counted
from report import critical_parts
from story import tell

LEFT, WIDTH, RIGHT, TOP, ROW, FOOT = 150.0, 800.0, 50.0, 92.0, 20.0, 34.0
BAR, SPARE, BAND = 13.0, 7.0, 17.0  # the height of a bar, of its spare ticks, and of the latest view behind it
GREY = "#5a6570"
LOOKS = {
    "critical": {"fill": svg.INK, "stroke": svg.EDGE},
    "bar": {"fill": svg.PALE, "stroke": svg.EDGE},
    "spare": {"stroke": GREY, "stroke_width": 0.6},
    "late": {"fill": "#ffffff", "stroke": svg.EDGE, "stroke_dasharray": "4 2"},
}


class Sheet:
    """A story on a sheet: from ticks and parts to places. Names within the drawing begin with a prefix, so that a page can hold several."""

    def __init__(self, story, prefix):
        self.story, self.state, self.prefix = story, story.state, prefix
        self.ticks = max(self.state.deadline, max(end for _, _, end, _ in self.state.parts))
        self.each = WIDTH / self.ticks
        self.bottom = TOP + ROW * len(self.state.parts)
        self.critical = critical_parts(self.state)

    def x(self, tick):
        return LEFT + self.each * tick

    def middle(self, part):
        return TOP + ROW * (part + 0.5)

    def named(self, name):
        return f"{self.prefix}-{name}"

    # ---- shapes

    def box(self, kind, x, y, width, *inside, **more):
        """A rectangle of one of the kinds, about a middle line."""
        looks = {"stroke_width": 1, **LOOKS[kind], **more}
        if kind == "spare":
            looks["fill"] = f"url(#{self.named('spare')})"
        high = {"spare": SPARE, "late": BAND}.get(kind, BAR)
        return svg.element("rect", *inside, x=x, y=y - high / 2, width=width, height=high, **looks)

    def span(self, kind, part, first, last, words):
        """A part's stretch of ticks, with words to hover over."""
        facts = {"data_part": part, "data_from": first, "data_to": last, "class_": kind}
        return self.box(kind, self.x(first), self.middle(part), self.each * (last - first), svg.title(words), **facts)

    def arrow(self, way, **more):
        arrow = f"url(#{self.named('arrow')})"
        return svg.element("path", d=way, fill="none", stroke=svg.LINK, stroke_width=2, marker_end=arrow, **more)

    # ---- the drawing's parts

    def heading(self):
        story = self.story
        words = f"{story.source.board_name}: total {self.state.total} microwatts, {counted(story.taken, 'order')} taken, {story.refused} refused"
        return svg.text(16, 22, words, font_size=15, font_weight="bold")

    def marks(self):
        """What is drawn, in words."""
        yield "critical", "critical part"
        yield "bar", "part with its delay"
        if self.state.latest_ends is not None:
            yield "spare", "spare ticks"
        if self.state.late is not None:
            yield "late", "latest at the same price"
        yield "link", "critical link"

    def legend(self):
        out, x, y = [], 16.0, 42.0
        for kind, words in self.marks():
            out.append(self.arrow(f"M{x},{y} h26") if kind == "link" else self.box(kind, x, y, 26.0))
            out.append(svg.text(x + 34, y + 4, words))
            x += 48 + 7.0 * len(words)
        return "".join(out)

    def stripes(self):
        every_other = range(0, len(self.state.parts), 2)
        return "".join(svg.element("rect", x=LEFT, y=TOP + ROW * part, width=WIDTH, height=ROW, fill=svg.STRIPE) for part in every_other)

    def axis(self):
        out = [svg.text(LEFT - 10, self.bottom + 16, "ticks", text_anchor="end")]
        for tick in svg.steps(0, self.ticks):
            x = self.x(tick)
            out.append(svg.line(x, TOP, x, self.bottom, stroke=svg.GRID))
            out.append(svg.text(x, self.bottom + 16, tick, text_anchor="middle"))
            out.append(svg.text(x, TOP - 8, tick, text_anchor="middle"))
        return "".join(out)

    def row(self, part):
        """One part: its name, the latest view behind, the spare ticks, the bar and the delay."""
        state, name, critical = self.state, self.story.source.name(part), part in self.critical
        start, delay, end, power = state.parts[part]
        out = [svg.text(LEFT - 10, self.middle(part) + 4, name, text_anchor="end", font_weight="bold" if critical else "normal")]
        if state.late is not None:
            first, slow, last = state.late[part]
            out.append(self.span("late", part, first, last, f"{name} at the latest: starts {first}, delay {slow}, ends {last}"))
        if state.latest_ends is not None and state.latest_ends[part] > end:
            latest = state.latest_ends[part]
            out.append(self.span("spare", part, end, latest, f"{name}: {counted(latest - end, 'spare tick')}"))
        words = f"{name}: starts {start}, delay {delay}, ends {end}, power {power}"
        out.append(self.span("critical" if critical else "bar", part, start, end, words))
        return "".join(out) + self.delay(part)

    def delay(self, part):
        """The delay within its bar, or beside it where there is no room."""
        start, delay, end, _ = self.state.parts[part]
        y = self.middle(part) + 4
        if self.each * delay > 9 * len(str(delay)):
            colour = "#ffffff" if part in self.critical else "#000000"
            return svg.text((self.x(start) + self.x(end)) / 2, y, delay, font_size=11, text_anchor="middle", fill=colour)
        return svg.text(self.x(end) + 4, y, delay, font_size=11, paint_order="stroke", stroke="#ffffff", stroke_width=3)

    def links(self):
        """The links of critical paths, from bar to bar."""
        for source, target, is_critical in self.state.links:
            if is_critical and source in self.critical and target in self.critical:
                down = 1 if target > source else -1
                one, two = self.middle(source) + down * BAR / 2, self.middle(target) - down * BAR / 2
                end, start = self.x(self.state.parts[source][2]), self.x(self.state.parts[target][0])
                way = f"M{svg.number(end)},{svg.number(one)} L{svg.number(start)},{svg.number(two)}"
                yield self.arrow(way, class_="link", data_link=f"{source} {target}")

    def deadline(self):
        state, x = self.state, self.x(self.state.last_tick)
        side = "end" if state.last_tick * 2 > self.ticks else "start"
        out = [svg.line(x, TOP - 4, x, self.bottom + 4, stroke=svg.LIMIT, stroke_width=2.5, stroke_dasharray="8 3", class_="deadline")]
        guarded = f" of {state.deadline}" if state.deadline != state.last_tick else ""
        out.append(svg.text(x, TOP - 26, f"usable deadline {state.last_tick}{guarded}", text_anchor=side, font_weight="bold"))
        if guarded:
            guard = self.x(state.deadline)
            out.append(svg.line(guard, TOP, guard, self.bottom, stroke=svg.LIMIT, stroke_dasharray="2 3"))
        return "".join(out)


def chart_of(story, prefix="chart"):
    """The drawing of what is held."""
    sheet, state = Sheet(story, prefix), story.state
    inside = [svg.element("defs", svg.arrow_head(sheet.named("arrow")), svg.hatch(sheet.named("spare"), GREY))]
    inside += [sheet.heading(), sheet.legend(), sheet.stripes(), sheet.axis()]
    inside += [*map(sheet.row, range(len(state.parts))), *sheet.links(), sheet.deadline()]
    words = f"Timing chart of {story.source.board_name}: {counted(len(state.parts), 'part')}, usable deadline {state.last_tick}, total {state.total}"
    return svg.drawing(LEFT + WIDTH + RIGHT, sheet.bottom + FOOT, words, *inside, data_left=LEFT, data_tick=repr(sheet.each))


def chart(source):
    story = tell(source)
    return story, "" if story.load.no else chart_of(story) + "\n"
