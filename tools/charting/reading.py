"""Reads a report, line by line. docs/FORMATS.md has the grammar."""
import re
from dataclasses import dataclass, field

from .packets import decode

NUMBER = r"(0|[1-9][0-9]{0,19})"
SHOWN = r"(-|[0-9a-f]{2,128}|sha256:[0-9a-f]{64})"
MAYBE = r"(-|0|[1-9][0-9]{0,19})"


def pattern(text):
    """N stands for a number, M for a number or -, S for the bytes shown."""
    text = text.replace(".", r"\.")
    return re.compile(re.sub(r"\b[NMS]\b", lambda m: {"N": NUMBER, "M": MAYBE, "S": SHOWN}[m.group()], text))


OPS = "(open|insert|reg|send|recv|cancel|note|await|wait|close)"
WHYS = "(NoRegion|Range|NoEntry|Busy|Numbers|NoConfirm|Superseded|NotPosted)"
CLASSES = "(ToOther|FromOther|Malformed|Unknown|BadKey|NoOp|Mismatch|Overlap)"
STRANGE = re.compile(rb"[^\x20-\x7e\n]")
COUNT = pattern("entries N")
ENTRY = re.compile(NUMBER + " " + NUMBER + " ((next|push|handle|poll) .*)")
NEXT = pattern("next N %s (?:did(?: N)?(?: msg N)?|refused %s)" % (OPS, WHYS))
PUSHES = [("opened", pattern("push N to N note opened N")), ("note", pattern("push N to N note N")),
          ("packet", pattern("push N to N.N packet N S")),
          ("ask", pattern("push N to N.N ask send N recv N key N offset N length N at N")),
          ("data", pattern("push N to N.N data recv N at N length N S"))]
HANDLE = pattern("handle N N (?:took(?: enters N N)?|dropped %s)" % CLASSES)
POLLS = [("send", pattern("poll send N (ok|gone)")), ("recv", pattern("poll recv N (cancelled|gone)")),
         ("took", pattern("poll recv N ok from N.N tag M data M length N S")),
         ("cut", pattern("poll recv N truncated from N.N tag M data M length N excess N S"))]
LEFT = ("(NotYet Wait N N|NotYet Await|NotYet Opened|NotYet Handshake|NotYet Parts N"
        "|Again Tx|Again Rx|Again Cq|Worn)")
RANK = pattern("rank N (?:done N of N|stuck N of N %s) dropped N N waiting N" % LEFT)


class Bad(Exception):
    """A line that isn't a report's: its number, from 1 on, and what is wrong with it."""

    def __init__(self, line, what):
        super().__init__("line %d: %s" % (line, what))


@dataclass(eq=False, slots=True)
class Datagram:
    """What one push pushed. `pushed`, `handled`, `held` and `let_in` are places in the history."""

    form: str                       # opened, note, packet, ask or data
    src: int
    number: int
    dst: int
    connid: int | None              # of the life that it is for; a note is for none
    pushed: int
    handled: int | None = None
    dropped: str | None = None      # its class
    enters: tuple | None = None     # the first number that it lets enter, and how many
    length: int | None = None
    packet: object = None
    source: object = None           # the life that pushed it
    held: int | None = None         # where its message was heard before an earlier one
    waits_for: int | None = None    # the least number that was missing then
    let_in: int | None = None
    least: int | None = None        # told by ordering


@dataclass(eq=False, slots=True)
class Entry:
    """An entry of the history. `words` are the fields of its act in the order of its text."""

    line: int
    text: str
    stamp: int
    port: int
    act: str                        # next, push, handle or poll
    form: str | None = None
    words: tuple = ()
    datagram: Datagram | None = None
    life: object = None             # this and the next are told by naming
    op: dict | None = None


@dataclass
class End:
    """How a rank ended: what it did of all, what its next instruction answers, its drops, its stash."""

    done: int
    all: int
    left: str | None
    to_other: int
    from_other: int
    waiting: int


@dataclass
class Report:
    status: str
    entries: list
    ends: list
    datagrams: list = field(init=False)
    left_to: list = field(init=False)   # for each port, how many datagrams to it were never handled
    first: int | None = None            # this and the next are told by naming
    lives: list = field(default_factory=list)

    def __post_init__(self):
        self.datagrams = [e.datagram for e in self.entries if e.act == "push"]
        self.left_to = [0] * len(self.ends)
        for d in self.datagrams:
            self.left_to[d.dst] += d.handled is None


def short(text):
    return text if len(text) <= 60 else text[:57] + "..."


def lines_of(data):
    if not data:
        raise Bad(1, "no report: the input is empty")
    strange = STRANGE.search(data)
    if strange:
        raise Bad(data.count(b"\n", 0, strange.start()) + 1, "a byte that is no printable ASCII")
    lines = data.decode("ascii").split("\n")
    if lines[-1]:
        raise Bad(len(lines), "the report is cut: no line feed ends this line")
    return lines[:-1]


def read(data):
    """The report that these bytes are."""
    lines = lines_of(data)
    status, count = head_of(lines)
    history = History()
    for i in range(3, 3 + count):
        history.add(i + 1, line_at(lines, i))
    ends = ends_of(lines, 3 + count)
    if any(e.left for e in ends) != (status == "stuck"):
        raise Bad(2, "\"%s\", but the ranks' lines say otherwise" % lines[1])
    history.check_ports(len(ends))
    return Report(status, history.entries, ends)


def line_at(lines, i):
    if i >= len(lines):
        raise Bad(len(lines) + 1, "the report is cut: it ends before its line \"end\"")
    return lines[i]


def head_of(lines):
    """The status and the count of entries, from the first three lines."""
    if line_at(lines, 0) != "rdm report 1":
        raise Bad(1, "no report: \"rdm report 1\" is expected, not \"%s\"" % short(lines[0]))
    if line_at(lines, 1) not in ("status done", "status stuck"):
        raise Bad(2, "\"status done\" or \"status stuck\" is expected, not \"%s\"" % short(lines[1]))
    count = COUNT.fullmatch(line_at(lines, 2))
    if not count:
        raise Bad(3, "\"entries\" and their count is expected, not \"%s\"" % short(lines[2]))
    return lines[1][7:], int(count.group(1))


def ends_of(lines, at):
    """How each rank ended, from the lines from this one on up to the end."""
    ends = []
    while line_at(lines, at) != "end":
        ends.append(end_of(at + 1, lines[at], len(ends)))
        at += 1
    if at + 1 < len(lines):
        raise Bad(at + 2, "a line after the end")
    if not ends:
        raise Bad(at + 1, "a report has a line for each rank; here is none")
    return ends


def end_of(number, text, rank):
    found = RANK.fullmatch(text)
    if not found:
        raise Bad(number, "neither an entry that was counted, nor a rank, nor the end: \"%s\"" % short(text))
    if int(found.group(1)) != rank:
        raise Bad(number, "the line of rank %d is expected" % rank)
    _, done, every, stuck, all_stuck, left, _, _, _, to_other, from_other, waiting = found.groups()
    return End(int(done or stuck), int(every or all_stuck), left, int(to_other), int(from_other), int(waiting))


class History:
    """The entries so far, and which datagrams were pushed."""

    def __init__(self):
        self.entries, self.last, self.pushed, self.counts = [], (-1, -1), {}, {}

    def add(self, number, text):
        found = ENTRY.fullmatch(text)
        if not found:
            raise Bad(number, "no entry: \"%s\"" % short(text))
        stamp, port = int(found.group(1)), int(found.group(2))
        if (stamp, port) <= self.last:
            raise Bad(number, "stamp %d of port %d doesn't come after the line before" % (stamp, port))
        self.last = (stamp, port)
        e = Entry(number, text, stamp, port, found.group(4))
        getattr(self, e.act)(e, found.group(3))
        self.entries.append(e)

    def match(self, e, text, forms):
        for form, one in forms:
            found = one.fullmatch(text)
            if found:
                e.form, e.words = form, found.groups()
                return
        raise Bad(e.line, "no such %s: \"%s\"" % (e.act, short(text)))

    def next(self, e, text):
        self.match(e, text, [("next", NEXT)])
        _, op, number, message, why = e.words
        shown = (number is not None) + (message is not None)
        if why is None and shown != {"send": 2, "reg": 1, "recv": 1}.get(op, 0):
            raise Bad(e.line, "not the answer of %s: \"%s\"" % (op, short(text)))

    def poll(self, e, text):
        self.match(e, text, POLLS)

    def push(self, e, text):
        self.match(e, text, PUSHES)
        number, dst = int(e.words[0]), int(e.words[1])
        if number != self.counts.get(e.port, 0):
            raise Bad(e.line, "datagram %d of port %d is expected" % (self.counts.get(e.port, 0), e.port))
        self.counts[e.port] = number + 1
        connid = None if e.form in ("opened", "note") else int(e.words[2])
        d = e.datagram = Datagram(e.form, e.port, number, dst, connid, len(self.entries))
        if e.form == "packet":
            d.length = int(e.words[3])
            d.packet = self.packet(e, d.length, e.words[4])
        self.pushed[e.port, number] = d

    def packet(self, e, length, shown):
        if shown.startswith("sha256:"):
            return None
        data = bytes.fromhex(shown) if shown != "-" and len(shown) % 2 == 0 else b""
        if len(data) != length:
            raise Bad(e.line, "%d bytes are shown of a packet of %d" % (len(data), length))
        return decode(data)

    def handle(self, e, text):
        self.match(e, text, [("handle", HANDLE)])
        src, number, first, count, dropped = e.words
        d = e.datagram = self.pushed.get((int(src), int(number)))
        if d is None or d.dst != e.port:
            raise Bad(e.line, "port %s pushed no datagram %s to port %d before" % (src, number, e.port))
        if d.handled is not None:
            raise Bad(e.line, "datagram %s of port %s was handled before" % (number, src))
        d.handled, d.dropped = len(self.entries), dropped
        d.enters = None if first is None else (int(first), int(count))

    def check_ports(self, ranks):
        for e in self.entries:
            for port in (e.port, e.datagram.dst if e.act == "push" else 0):
                if port >= ranks:
                    raise Bad(e.line, "there is no port %d: the report ends with %d ranks" % (port, ranks))
