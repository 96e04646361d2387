"""Writes a chart as one SVG that stands by itself."""
from xml.sax.saxutils import escape

from . import words
from .layout import Chart
from .plan import CHAR, Plan

STYLE = """
text { font: 11px "DejaVu Sans Mono", Menlo, Consolas, "Liberation Mono", monospace; fill: #222; }
.big { font-size: 14px; font-weight: bold; } .stamp, .small { fill: #666; }
.rank, .life { font-weight: bold; } .bytes { fill: #0b4f9e; } .reply { fill: #0d6b5e; } .note { fill: #666; }
.took { fill: #444; } .held, .cut { fill: #8a4b00; font-weight: bold; } .polled, .done { fill: #1c6b1c; }
.dropped, .refused, .stuck { fill: #b00020; font-weight: bold; }
.way { fill: none; stroke-width: 1.4; stroke-linejoin: round; }
.way.bytes { stroke: #0b4f9e; } .way.reply { stroke: #0d6b5e; }
.way.note { stroke: #999; stroke-dasharray: 3 3; } .way.dropped { stroke: #b00020; stroke-dasharray: 7 3; }
.cross { fill: none; stroke: #b00020; stroke-width: 1.6; }
polygon.note { fill: #888; } circle.open { fill: #fff; stroke-width: 1.4; }
circle.bytes { stroke: #0b4f9e; } circle.reply { stroke: #0d6b5e; } circle.note { stroke: #999; }
circle.open.dropped { stroke: #b00020; }
line.axis { stroke: #bbb; stroke-dasharray: 2 4; } line.edge { stroke: #bbb; }
rect.ground { fill: #fff; }
rect.head { fill: #eef2f7; stroke: #8795a8; } rect.lifebar { fill: #dfe6ef; stroke: #8795a8; }
rect.waits { fill: #f0a030; } .mark { stroke: #fff; stroke-width: 1; } .mark.next, .mark.life { fill: #222; }
"""
KEYS = {
    "bytes": "bytes of messages",
    "reply": "what is told about them, and asks",
    "note": "notes",
    "dropped": "dropped",
    "open": "never handled, or its other end isn't drawn",
    "waits": "came before an earlier msg and waits for it: msgs enter in order of sending",
}


def number(value):
    return str(value) if isinstance(value, int) else ("%.1f" % value).removesuffix(".0")


def title(said):
    return "<title>%s</title>" % escape(said)


def text(x, y, said, style, anchor="start", tip=None):
    return '<text x="%s" y="%s" class="%s" text-anchor="%s">%s%s</text>' % (
        number(x), number(y), style, anchor, escape(said), "" if tip is None else title(tip))


def line(x, y, to_x, to_y, style):
    return '<line x1="%s" y1="%s" x2="%s" y2="%s" class="%s"/>' % (
        number(x), number(y), number(to_x), number(to_y), style)


def rect(x, y, wide, high, style, inner=""):
    return '<rect x="%s" y="%s" width="%s" height="%s" class="%s">%s</rect>' % (
        number(x), number(y), number(wide), number(high), style, inner)


def disc(x, y, radius, style):
    return '<circle cx="%s" cy="%s" r="%s" class="%s"/>' % (number(x), number(y), radius, style)


def points(of):
    return " ".join("%s,%s" % (number(x), number(y)) for x, y in of)


def tip(x, y, side, style, end):
    """What stands where an arrow ends that comes from the left (side 1) or from the right (-1)."""
    if end == "open":
        return disc(x, y, 3.5, "open " + style)
    if end == "dropped":
        return '<path d="M%s %sl10 10m-10 0l10 -10" class="cross"/>' % (number(x - 9 * side - 5), number(y - 5))
    return '<polygon points="%s" class="%s"/>' % (
        points([(x, y), (x - 9 * side, y - 4), (x - 9 * side, y + 4)]), style)


def arrow(a):
    (x, y), (before, _) = a.points[-1], a.points[-2]
    end = tip(x, y, 1 if x > before else -1, a.style, a.tip)
    begin = disc(*a.points[0], 3.5, "open " + a.style) if a.open else ""
    return '<g>%s<polyline points="%s" class="way %s"/>%s%s</g>' % (
        title(a.title), points(a.points), a.style, end, begin)


def mark(m):
    if m.shape == "square":
        return rect(m.x - 4, m.y - 4, 8, 8, "mark " + m.style)
    return disc(m.x, m.y, 4.5, "mark " + m.style)


def key(x, y, style):
    """The sample of a key: a piece of what it explains."""
    if style == "waits":
        return rect(x + 12, y - 7, 4, 14, style)
    end, drawn = {"open": "open", "dropped": "dropped"}.get(style, "head"), "bytes" if style == "open" else style
    return line(x, y, x + 20, y, "way " + drawn) + tip(x + (22 if end == "open" else 26), y, 1, drawn, end)


def used(c):
    """The keys of what is drawn here."""
    found = {a.style for a in c.arrows} | {"waits" for b in c.bars if b.style == "waits"}
    if any(a.open or a.tip == "open" for a in c.arrows):
        found.add("open")
    return [style for style in KEYS if style in found]


def legend(styles, y, width):
    """The keys in lines no wider than the chart; gives them and where the next line would stand."""
    parts, x = [], 14
    for style in styles:
        reach = 32 + CHAR * len(KEYS[style])
        if x > 14 and x + reach > width - 14:
            x, y = 14, y + 18
        parts += [key(x, y - 4, style), text(x + 32, y, KEYS[style], "small")]
        x += reach + 20
    return parts, y + 18


def lifelines(c):
    for rank, x in c.x.items():
        yield line(x, 72, x, c.bottom, "axis")
        yield rect(x - 36, 50, 72, 22, "head")
        yield text(x, 65, "rank %d" % rank, "rank", "middle")
    for b in c.bars:
        yield rect(b.x, b.y, b.wide, b.high, b.style, title(b.title))


def ends(c):
    for rank, x in c.x.items():
        style = "stuck" if c.view.report.ends[rank].left else "done"
        if style == "stuck":
            yield rect(x - 9, c.bottom, 18, 4, style)
        for k, said in enumerate(c.plan.ends[rank]):
            yield text(x, c.bottom + 20 + 16 * k, said, style, "middle")


def draw(view):
    c = Chart(Plan(view))
    heading, styles = words.heading(view.report), used(c)
    width = max([c.plan.width, 28 + round(8.5 * len(heading)), 28 + round(CHAR * len(view.cut or ""))]
                + [60 + round(CHAR * len(KEYS[style])) for style in styles])
    keys, height = legend(styles, c.height + 8, width)
    out = ['<svg xmlns="http://www.w3.org/2000/svg" width="%d" height="%d" viewBox="0 0 %d %d">' % (
        width, height, width, height), title(heading), "<style>%s</style>" % STYLE,
        rect(0, 0, width, height, "ground"), text(14, 24, heading, "big"),
        text(c.plan.stamp_x, 65, "stamp", "stamp", "end")]
    if view.cut:
        out += [text(14, 42, view.cut, "cut"), line(14, c.bottom + 4, width - 14, c.bottom + 4, "edge")]
    out += lifelines(c)
    out += map(arrow, c.arrows)
    out += map(mark, c.marks)
    out += [text(one.x, one.y, one.text, one.style, one.anchor, one.title) for one in c.labels]
    out += [*ends(c), *keys, "</svg>"]
    return "\n".join(out) + "\n"
