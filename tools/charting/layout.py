"""Where all that is drawn stands, and how it looks: a row for each entry, a lifeline for each rank."""
from dataclasses import dataclass

from .plan import STUB, in_lanes

ROW, TOP = 22, 92


@dataclass
class Label:
    x: float
    y: float
    text: str
    style: str
    anchor: str = "start"
    title: str | None = None


@dataclass
class Arrow:
    """A line through the points. `tip` is what it ends with: head, dropped or open; `open` tells that it begins so."""

    points: list
    style: str
    tip: str
    title: str
    open: bool = False


@dataclass
class Bar:
    style: str
    x: float
    y: float
    high: float
    wide: float
    title: str


@dataclass
class Mark:
    shape: str
    style: str
    x: float
    y: float


def style_of(d):
    """How an arrow is drawn: as bytes of messages, as what is told about them, or as a note."""
    if d.connid is None:
        return "note"
    if d.form == "data" or d.form == "packet" and (d.packet is None or d.packet.opens or d.packet.kind == "CTSDATA"):
        return "bytes"
    return "reply"


def label_style(e):
    if e.act == "push":
        return style_of(e.datagram)
    if e.act == "handle":
        d = e.datagram
        return "dropped" if d.dropped else "held" if d.held is not None else "took"
    if e.act == "next":
        return "refused" if e.words[-1] else "life" if e.words[1] in ("open", "close") else "next"
    return "polled" if e.form == "took" or e.words[-1] == "ok" else "refused"


class Chart:
    """All that is drawn of a plan: bars, arrows, marks and labels."""

    def __init__(self, plan):
        self.plan, self.view, self.x = plan, plan.view, plan.x
        self.bottom = TOP + ROW * len(plan.rows) + 6
        self.height = self.bottom + 24 + 16 * max(len(lines) for lines in plan.ends.values())
        self.bars, self.arrows, self.marks, self.labels = self.life_bars() + self.waiting_bars(), [], [], []
        for row, e in enumerate(plan.rows):
            self.place_label(row, e)
            if e.datagram is not None:
                self.arrows += self.arrow_of(row, e)

    def y(self, row):
        return TOP + ROW * row + ROW // 2

    def life_bars(self):
        bars = []
        for life in self.view.report.lives:
            if life.port not in self.plan.column:
                continue
            first, last = self.view.row(life.opened), self.view.row(life.closed)
            if first < len(self.plan.rows) and (last > 0 or life.closed is None):
                top, end = self.extent(life.opened, life.closed)
                bars.append(Bar("lifebar", self.x[life.port] - 4, top, end - top, 8, "life " + life.name))
        return bars

    def waiting_bars(self):
        bars = []
        for rank, spans in self.plan.waits.items():
            for (_, _, d), lane in zip(spans, in_lanes([span[:2] for span in spans])[0]):
                top, end = self.extent(d.held, d.let_in)
                x = self.x[rank] + self.plan.outer(rank) * (9 + 6 * lane) - 2
                bars.append(Bar("waits", x, top, end - top, 4, "msg %d of %s waits for an earlier one" % (
                    d.packet.message, d.source.name)))
        return bars

    def extent(self, first, last):
        """From where to where a bar reaches that begins and ends at these places in the history."""
        top = self.y(self.view.row(first)) if first in self.view.row_of else TOP
        return top, self.y(self.view.row(last)) if last in self.view.row_of else self.bottom

    def place_label(self, row, e):
        y, side, style = self.y(row), self.plan.sides[row], label_style(e)
        if row == 0 or self.plan.rows[row - 1].stamp != e.stamp:
            self.labels.append(Label(self.plan.stamp_x, y + 4, str(e.stamp), "stamp", "end"))
        over = e.act == "push" and e.datagram.dst != e.port
        self.labels.append(Label(self.x[e.port] + side * self.plan.off(e.port, side), y - 4 if over else y + 4,
                                 self.plan.said[row], style, "start" if side > 0 else "end", e.text))
        if e.act in ("next", "poll") or style == "held":
            self.marks.append(Mark("square" if e.act == "next" else "disc", style, self.x[e.port], y))

    def arrow_of(self, row, e):
        """The arrow of a datagram, at its push where that has a row."""
        d, x, y, side = e.datagram, self.x[e.port], self.y(row), self.plan.toward(e)
        style, tip = ("dropped", "dropped") if d.dropped else (style_of(d), "head")
        near, last = (x + 5 * side, y), self.view.row_of.get(d.handled)
        if e.act == "handle":
            return [] if d.pushed in self.view.row_of else [
                Arrow([(x + STUB * side, y), near], style, tip, e.text, open=True)]
        if last is None:
            far = STUB if d.dst == e.port else self.plan.reach(row, e, side) - 6
            return [Arrow([near, (x + far * side, y)], style, "open", e.text)]
        if d.dst == e.port:
            out, end = x + side * self.plan.loops[row], self.y(last)
            return [Arrow([near, (out, y), (out, end), (near[0], end)], style, tip, e.text)]
        return [Arrow([near, *self.path(self.plan.falls[row])], style, tip, e.text)]

    def path(self, f):
        """The points of an arrow to another rank, behind its first one."""
        left, right = (self.x[rank] for rank in self.view.ranks[f.strip:f.strip + 2])
        start, stop = (left, right) if f.side > 0 else (right, left)
        return [(start + f.side * f.before, self.y(f.first)), (stop - f.side * f.behind, self.y(f.last)),
                (stop - f.side * 5, self.y(f.last))]
