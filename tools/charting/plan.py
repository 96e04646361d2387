"""What takes room in a chart: which label stands on which side, where arrows fall, and so where the lifelines stand.

A row has one entry and so one label. An arrow runs level in the row where it begins, up to the strip before the
lifeline that it ends at; there it falls, beside the labels of the rows that it passes. So nothing meets a label.
"""
from collections import defaultdict
from dataclasses import dataclass

from . import words

CHAR, STUB, SPACE, FALL, NARROWEST, LANE = 6.7, 30, 14, 70, 200, 7


@dataclass
class Fall:
    """Between which rows an arrow falls, in which strip and to which side, and how wide the labels beside it are."""

    first: int
    last: int
    strip: int
    side: int
    before: float
    behind: float


def in_lanes(spans):
    """For each span of rows a lane, so that none meets another one of its lane, and how many lanes that takes."""
    ends, lanes = [], []
    for first, last in spans:
        lane = next((k for k, end in enumerate(ends) if end <= first), len(ends))
        ends[lane:lane + 1] = [last]
        lanes.append(lane)
    return lanes, len(ends)


class Widths:
    """How wide the labels stand in each strip, row by row. Strip k is right of lifeline k, strip -1 left of all.

    The labels of a strip begin at one of its two lifelines: at `edge` -1, its left one, or at 1.
    """

    def __init__(self, rows):
        self.rows, self.of = rows, defaultdict(lambda: [0] * rows)

    def add(self, row, column, side, width):
        self.of[column if side > 0 else column - 1, -side][row] = width

    def widest(self, strip, edge, first, last):
        """The widest label there from one row to another one."""
        if (strip, edge) not in self.of:
            return 0
        return max(self.of[strip, edge][first:last + 1], default=0)


class Plan:
    """`x` tells where the lifeline of each rank stands, `said` and `sides` what is written in each row and where."""

    def __init__(self, view):
        self.view, self.rows = view, view.entries()
        self.column = {rank: k for k, rank in enumerate(view.ranks)}
        self.waits, self.lanes = self.waiting()
        self.said = [words.label(e) + view.note_on(e) for e in self.rows]
        self.sides = [self.side(e) for e in self.rows]
        self.ends = {rank: words.end(view.report.ends[rank]) for rank in view.ranks}
        self.widths = self.label_widths()
        self.falls, self.loops = self.fall_places(), self.loop_reaches()
        self.stamp_x = 14 + CHAR * max([len(str(e.stamp)) for e in self.rows] + [5])
        self.x, self.width = self.columns()

    def outer(self, rank):
        """The side of a lifeline where its own doings are written: -1 is left, 1 is right."""
        return -1 if self.column[rank] == 0 and len(self.column) > 1 else 1

    def toward(self, e):
        """The side of the lifeline where the arrow of this entry is; one from a rank to itself is at the inner side."""
        there = e.datagram.dst if e.act == "push" else e.datagram.src
        return -self.outer(e.port) if there == e.port else 1 if there > e.port else -1

    def side(self, e):
        """The side where the label stands: what is pushed over its arrow, all else away from it."""
        if e.datagram is None:
            return self.outer(e.port)
        pushed_away = e.act == "push" and e.datagram.dst != e.port
        return self.toward(e) if pushed_away else -self.toward(e)

    def waiting(self):
        """The spans in which messages waited for an earlier one, by rank, and for each rank the count of its lanes."""
        spans, seen = {rank: [] for rank in self.view.ranks}, set()
        for d in self.view.report.datagrams:
            if d.held is None or d.dst not in self.column:
                continue
            key = d.source, d.dst, d.connid, d.packet.message
            first, last = self.view.row(d.held), self.view.row(d.let_in)
            if key not in seen and first < len(self.rows) and last > 0 and first < last:
                seen.add(key)
                spans[d.dst].append((first, last, d))
        for one in spans.values():
            one.sort(key=lambda span: span[:2])
        return spans, {rank: in_lanes([span[:2] for span in one])[1] for rank, one in spans.items()}

    def off(self, rank, side):
        """How far from its lifeline a label begins; the bars of what waits stand between."""
        return 12 + (6 * self.lanes[rank] if side == self.outer(rank) else 0)

    def label_widths(self):
        widths = Widths(len(self.rows))
        for row, (e, side) in enumerate(zip(self.rows, self.sides)):
            widths.add(row, self.column[e.port], side, self.reach(row, e, side))
        return widths

    def reach(self, row, e, side):
        """How far from its lifeline a label reaches; an arrow without an end goes on past it."""
        lost = e.act == "push" and e.datagram.dst != e.port and e.datagram.handled not in self.view.row_of
        return self.off(e.port, side) + CHAR * len(self.said[row]) + (STUB if lost else 0)

    def arrows(self, to_itself):
        """The rows in which an arrow begins whose end is drawn, and the row of its end."""
        for row, e in enumerate(self.rows):
            if e.act == "push" and (e.datagram.dst == e.port) == to_itself and e.datagram.handled in self.view.row_of:
                yield row, self.view.row_of[e.datagram.handled]

    def fall_places(self):
        """By the row of its push, where each arrow to another rank falls."""
        return {row: self.fall_of(row, last, self.rows[row]) for row, last in self.arrows(to_itself=False)}

    def fall_of(self, row, last, e):
        side, end = self.toward(e), self.column[e.datagram.dst]
        strip = end - 1 if side > 0 else end
        before = max(self.widths.widest(strip, -side, row, last), 5)
        behind = max(self.widths.widest(strip, side, row, last), 16)
        return Fall(row, last, strip, side, before, behind)

    def loop_reaches(self):
        """How far the arrow of a rank to itself goes out, by the row of its push: past the labels beside it."""
        spans, reaches = {rank: [] for rank in self.view.ranks}, {}
        for row, last in self.arrows(to_itself=True):
            spans[self.rows[row].port].append((row, last))
        for rank, of_rank in spans.items():
            side = -self.outer(rank)
            strip = self.column[rank] - (side < 0)
            for (first, last), lane in zip(of_rank, in_lanes(of_rank)[0]):
                reaches[first] = 28 + LANE * lane + self.widths.widest(strip, -side, first, last)
        return reaches

    def strips(self):
        """How wide each strip is."""
        ranks = self.view.ranks
        widest = {strip: max(self.widths.widest(strip, edge, 0, len(self.rows)) for edge in (-1, 1)) + SPACE
                  for strip in range(-1, len(ranks))}
        half = [max(len(line) for line in self.ends[rank]) * CHAR / 2 for rank in ranks]
        needs = {strip: max(wide, NARROWEST) for strip, wide in widest.items()}
        for k, (one, other) in enumerate(zip(half, half[1:])):
            needs[k] = max(needs[k], one + other + SPACE)
        for strip, beside in ((-1, half[0]), (len(ranks) - 1, half[-1])):
            needs[strip] = max(widest[strip], beside, 40)
        for f in self.falls.values():
            needs[f.strip] = max(needs[f.strip], f.before + f.behind + FALL + min(3 * (f.last - f.first), 60))
        for row, reach in self.loops.items():
            strip = self.column[self.rows[row].port] - (self.outer(self.rows[row].port) > 0)
            needs[strip] = max(needs[strip], reach + widest[strip])
        return needs

    def columns(self):
        """Where each lifeline stands, and how wide the chart is."""
        needs = self.strips()
        at, x = self.stamp_x + needs[-1], {}
        for k, rank in enumerate(self.view.ranks):
            x[rank] = round(at)
            at += needs[k]
        return x, round(at + SPACE)
