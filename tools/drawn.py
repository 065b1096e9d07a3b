"""The path or the loop of a refusal as a drawing: a box for each part, an arrow for each link."""
import svg

WIDE, HIGH, ACROSS, DOWN, ROW, EDGE = 128.0, 44.0, 160.0, 74.0, 6, 24.0


def place(k):
    """The upper left corner of the k-th box; rows are read from left to right."""
    return EDGE + ACROSS * (k % ROW), EDGE + DOWN * (k // ROW)


def drawn_refusal(story, refusal, prefix):
    """Nothing where a refusal has no path and no loop."""
    count = len(refusal.path)
    if not count:
        return ""
    curves = story.source.board.curves if story.load.no else curves_then(story, refusal)
    width, height = 2 * EDGE + ACROSS * min(count, ROW), 2 * EDGE + DOWN * ((count - 1) // ROW + 1) - (DOWN - HIGH)
    inside = [svg.element("defs", svg.arrow_head(f"{prefix}-arrow"))]
    inside += [box(k, story.source.name(part), curves[part].fastest, refusal) for k, part in enumerate(refusal.path)]
    inside += [arrow(k, prefix) for k in range(count - 1)]
    if refusal.no == 9:
        inside.append(arrow_back(count - 1, height, prefix))
    return svg.drawing(width, height, str(refusal), *inside)


def curves_then(story, refusal):
    """The curves that the refused order was judged by."""
    step = next(step for step in story.steps if step.where == refusal.where)
    return step.order.made(step.before.board).curves


def box(k, name, fastest, refusal):
    x, y = place(k)
    out = svg.element("rect", x=x, y=y, width=WIDE, height=HIGH, rx=5, fill=svg.PALE, stroke=svg.EDGE)
    out += svg.text(x + WIDE / 2, y + 18, name, text_anchor="middle", font_weight="bold", font_size=11)
    words = f"fastest {fastest}" if refusal.no == 10 else f"part {refusal.path[k]}"
    return out + svg.text(x + WIDE / 2, y + 35, words, text_anchor="middle", font_size=11)


def arrow(k, prefix):
    """From the k-th box to the next; to the next row around its left edge."""
    (x, y), (u, v) = place(k), place(k + 1)
    x, y, v = x + WIDE, y + HIGH / 2, v + HIGH / 2
    if v == y:
        return path(f"M{x},{y} L{u},{v}", prefix)
    between = v - DOWN / 2
    return path(f"M{x},{y} h12 V{between} H{u - 14} V{v} H{u}", prefix)


def arrow_back(k, height, prefix):
    """From the last box to the first, below the rows."""
    (x, y), (u, v) = place(k), place(0)
    return path(f"M{x + WIDE / 2},{y + HIGH} V{height - 8} H{u - 14} V{v + HIGH / 2} H{u}", prefix)


def path(way, prefix):
    return svg.element("path", d=way, fill="none", stroke=svg.LINK, stroke_width=2, marker_end=f"url(#{prefix}-arrow)")
