"""Drawing: elements of SVG as text, and the scales that the drawings share."""
from xml.sax.saxutils import escape, quoteattr

FONT = "font-family:'DejaVu Sans',Verdana,Arial,Helvetica,sans-serif"
# Colours that stay apart for people who see colours otherwise (Okabe and Ito), and apart in grey by their lightness.
INK, PALE, EDGE, LINK, LIMIT, GRID, STRIPE = "#00558b", "#b9dcf2", "#1f2d3a", "#b34700", "#111111", "#c8ccd0", "#f3f5f7"


def element(tag, *inside, **attributes):
    """An element; a text inside must be escaped (see `text`), and _ stands for - in a name."""
    said = "".join(f" {name.rstrip('_').replace('_', '-')}={quoteattr(number(value))}" for name, value in attributes.items())
    return f"<{tag}{said}>{''.join(inside)}</{tag}>" if inside else f"<{tag}{said}/>"


def number(value):
    """At most two places behind the point, none where they are zeros."""
    return f"{value:.2f}".rstrip("0").rstrip(".") if isinstance(value, float) else str(value)


def text(x, y, words, **attributes):
    return element("text", escape(str(words)), x=x, y=y, **attributes)


def title(words):
    return element("title", escape(words))


def line(x1, y1, x2, y2, **attributes):
    return element("line", x1=x1, y1=y1, x2=x2, y2=y2, **attributes)


def arrow_head(name, colour=LINK):
    shape = element("path", d="M0,0 L8,4 L0,8 z", fill=colour)
    return element("marker", shape, id=name, markerWidth=8, markerHeight=8, refX=7, refY=4, orient="auto", markerUnits="userSpaceOnUse")


def hatch(name, colour=EDGE):
    """Slanted lines: told apart without colour."""
    stroke = line(0, 0, 0, 6, stroke=colour, stroke_width=1.5)
    return element("pattern", stroke, id=name, width=6, height=6, patternUnits="userSpaceOnUse", patternTransform="rotate(45)")


def drawing(width, height, words, *inside, **attributes):
    """A whole drawing with its own white ground, so that it prints and opens alone."""
    ground = element("rect", x=0, y=0, width=width, height=height, fill="#ffffff")
    return element(
        "svg", title(words), ground, *inside, xmlns="http://www.w3.org/2000/svg", viewBox=f"0 0 {number(width)} {number(height)}",
        width=width, height=height, role="img", style=FONT, font_size=12, **attributes
    )


def steps(low, high, about=10):
    """Round numbers from low to high, about so many."""
    span = max(high - low, 1)
    size = 1
    while span / size > about:
        size = size * 2 if str(size)[0] in "15" else size // 2 * 5
    first = -(-low // size) * size
    return list(range(first, high + 1, size))
