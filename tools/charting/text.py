"""Writes a chart for a terminal: lifelines on the left, beside each row what happened."""
from . import words

WIDE = 10
MARKS = {"next": "*", "poll": "o"}


class Lifelines:
    """Which ports have an open life, as the rows go by."""

    def __init__(self, view):
        self.edges = sorted((place, life.port, opens) for life in view.report.lives
                            for place, opens in ((life.opened, True), (life.closed, False)) if place is not None)
        self.at, self.open = 0, set()

    def go(self, place):
        """The ports that have one after the entry at this place."""
        while self.at < len(self.edges) and self.edges[self.at][0] <= place:
            _, port, opens = self.edges[self.at]
            (self.open.add if opens else self.open.discard)(port)
            self.at += 1
        return self.open


def row(view, open_ports, e):
    """The lifelines at one entry, with its mark or with the end of the arrow that begins or ends there."""
    cells = [c for rank in view.ranks for c in ("#" if rank in open_ports else ":").ljust(WIDE)]
    here, d = view.ranks.index(e.port) * WIDE, e.datagram
    if d is None:
        cells[here] = MARKS[e.act]
        return "".join(cells)
    there = d.dst if e.act == "push" else d.src
    right = there > e.port or there == e.port and (here + WIDE < len(cells) or here == 0)
    drawn = end_of_arrow(e, right)
    if right:
        cells[here + 1:here + 1 + len(drawn)] = drawn
    elif here:
        cells[here - len(drawn):here] = drawn
    return "".join(cells)


def end_of_arrow(e, right):
    """A piece of an arrow, right or left of its lifeline: it leaves there, or it comes in with a head or a cross."""
    d = e.datagram
    number = str(d.number)[-3:]
    if e.act == "push":
        drawn = "-%s--%s" % (number, "o" if d.handled is None else "")
    else:
        drawn = "%s-%s-" % ("x" if d.dropped else "<", number)
    return drawn if right else drawn[::-1].replace(number[::-1], number).replace("<", ">")


def spoken(view, e):
    d = e.datagram
    other = "" if d is None else " to %d" % d.dst if e.act == "push" else " from %d" % d.src
    return "rank %d%s: %s%s" % (e.port, other, words.label(e), view.note_on(e))


def draw(view):
    report = view.report
    out = [words.heading(report)] + ([view.cut] if view.cut else [])
    rows = view.entries()
    wide = max([len(str(e.stamp)) for e in rows] + [5])
    out += ["", "stamp".rjust(wide) + "  " + "".join(("rank %d" % rank).ljust(WIDE) for rank in view.ranks).rstrip()]
    lifelines, last = Lifelines(view), None
    for place, e in zip(view.places, rows):
        stamp = "" if e.stamp == last else str(e.stamp)
        last = e.stamp
        out.append("%s  %s%s" % (stamp.rjust(wide), row(view, lifelines.go(place), e), spoken(view, e)))
    out.append("")
    for rank in view.ranks:
        out.append("rank %d: %s" % (rank, ", ".join(words.end(report.ends[rank]))))
    return "\n".join(out) + "\n"
