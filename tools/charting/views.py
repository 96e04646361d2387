"""Which entries and ranks are drawn, and the line that says what was cut."""

MOST = 400


class NoView(Exception):
    """What was asked for isn't there to be drawn."""


class View:
    """`places` are the places in the history that have a row, `ranks` the ranks that have a lifeline."""

    def __init__(self, report, first=None, last=None, ranks=None, most=MOST):
        entries = report.entries
        self.report, self.ranks = report, sorted(set(ranks)) if ranks else list(range(len(report.ends)))
        if self.ranks[-1] >= len(report.ends):
            raise NoView("there is no rank %d" % self.ranks[-1])
        shown = set(self.ranks)
        wanted = [i for i, e in enumerate(entries) if e.port in shown
                  and (first is None or e.stamp >= first) and (last is None or e.stamp <= last)]
        if entries and not wanted:
            raise NoView("no entry of these stamps and ranks")
        self.places = wanted[:most]
        self.row_of = {place: row for row, place in enumerate(self.places)}
        self.cut = None
        if len(self.places) < len(entries):
            self.cut = self.cut_line(entries, len(wanted) - len(self.places))

    def cut_line(self, entries, left):
        line = "cut: %d of %d entries are drawn, stamps %d to %d" % (
            len(self.places), len(entries), entries[self.places[0]].stamp, entries[self.places[-1]].stamp)
        if len(self.ranks) < len(self.report.ends):
            line += ", ranks %s" % ",".join(map(str, self.ranks))
        if left:
            line += "; %d more would follow, from --from %d on" % (left, entries[self.places[-1]].stamp)
        return line

    def entries(self):
        return [self.report.entries[place] for place in self.places]

    def row(self, place):
        """The row of an entry, or how many rows come before it where it has none."""
        if place is None:
            return len(self.places)
        if place in self.row_of:
            return self.row_of[place]
        low, high = 0, len(self.places)
        while low < high:
            middle = (low + high) // 2
            low, high = (middle + 1, high) if self.places[middle] < place else (low, middle)
        return low

    def note_on(self, e):
        """What is said of a datagram whose other end has no row here."""
        d, entries = e.datagram, self.report.entries
        if d is None:
            return ""
        other = d.handled if e.act == "push" else d.pushed
        if other is None:
            return " (%s)" % self.left_where(d.dst)
        if other in self.row_of:
            return ""
        rank = d.dst if e.act == "push" else d.src
        if rank not in self.ranks:
            return " (%s rank %d)" % ("to" if e.act == "push" else "from", rank)
        return " (%s at stamp %d)" % ("handled" if e.act == "push" else "pushed", entries[other].stamp)

    def left_where(self, port):
        """Where a datagram to this port is that was never handled, as far as the report tells."""
        waiting, left = self.report.ends[port].waiting, self.report.left_to[port]
        if waiting:
            return "in the stash at the end" if waiting == left else "never handled"
        return "in flight at the end"
