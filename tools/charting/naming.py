"""Tells what each datagram is, which messages are held, and which life did what.

A report shows short packets byte for byte and longer ones by a digest. What a longer one carries is told from what
stands around it, as far as that is certain; the job, where it is given, tells the rest.
"""
from dataclasses import dataclass, field

from .ordering import deduce, hold, least_open
from .packets import CTSDATA_HEAD, Packet
from .reading import Bad


@dataclass(eq=False)
class Life:
    port: int
    connid: int | None
    opened: int
    closed: int | None = None
    sends: dict = field(default_factory=dict)
    openers: list = field(default_factory=list)     # the datagrams that opened messages
    bounds: list = field(default_factory=list)      # for each of them the sends that it can be of
    grants: dict = field(default_factory=dict)      # by send
    told: dict = field(default_factory=dict)        # by send the kind that a reply told
    current: dict = field(default_factory=dict)     # by port
    words: dict = field(default_factory=dict)       # by life of a peer
    polled: set = field(default_factory=set)

    @property
    def name(self):
        return "%d.%s" % (self.port, "?" if self.connid is None else self.connid)


@dataclass
class Send:
    message: int
    to: int | None
    packets: list         # those that will open its message, where the job tells them
    polled: bool = False


@dataclass
class Grant:
    """What a peer let a send's CTSDATA packets carry and they didn't carry yet."""

    send: int
    recv: int
    peer: tuple
    offset: int | None
    left: int = 0
    named: list = field(default_factory=list)

    def give(self, packet, count):
        """The packet is the next of these; a known offset tells those of all before it."""
        for one in self.named + [packet]:
            if packet.offset is None and self.offset is not None:
                packet.offset = self.offset
        if packet.offset is not None:
            at = packet.offset
            for one in reversed(self.named):
                at -= one.count
                one.offset = at
            self.offset = packet.offset + count
        self.named.append(packet)
        self.left -= min(count, self.left)


class Naming:
    """One walk over the history; it writes what it tells into the entries and datagrams."""

    def __init__(self, report, job=None):
        self.report, self.job = report, job
        self.now = [None] * len(report.ends)     # the open life of each port
        self.lives = []
        self.connids, self.reads = identifiers(report), first_asks(report)
        firsts = [e.datagram.enters[0] for e in report.entries if e.act == "handle" and e.datagram.enters]
        report.first = job.limits["first"] if job else firsts[0] if firsts else None
        for i, e in enumerate(report.entries):
            e.life = self.now[e.port]
            getattr(self, e.act)(i, e)
        report.lives = self.lives
        for life in self.lives:
            deduce(life)
        hold(report)

    def next(self, i, e):
        _, word, number, message, why = e.words
        e.op = op = self.job.op(e) if self.job else None
        if why is not None:
            return
        if word == "open":
            left = self.connids[e.port]
            e.life = self.now[e.port] = Life(e.port, op.get("connid") if op else left.pop(0) if left else None, i)
            self.lives.append(e.life)
        elif e.life is None and word not in ("note", "await"):
            raise Bad(e.line, "port %d has no open life that could %s" % (e.port, word))
        elif word == "close":
            e.life.closed, self.now[e.port] = i, None
        elif word == "insert" and op:
            insert(e.life, op["port"], op["connid"])
        elif word == "send":
            if int(number) != len(e.life.sends):
                raise Bad(e.line, "send %d of this life is expected" % len(e.life.sends))
            packets = []
            if op:
                peer = (op["to"], e.life.current.get(op["to"]))
                packets = self.job.packets(e.port, op, int(message), e.life.words.get(peer))
            e.life.sends[int(number)] = Send(int(message), op["to"] if op else None, packets)

    def poll(self, i, e):
        if e.life is None:
            raise Bad(e.line, "port %d has no open life that could poll" % e.port)
        number = int(e.words[0])
        if e.form == "send" and number in e.life.sends:
            e.life.grants.pop(number, None)
            e.life.sends[number].polled = e.words[1] == "ok"
            e.life.polled.add(number)

    def push(self, i, e):
        d = e.datagram
        d.source = e.life
        if d.connid is None:
            return
        if e.life is None:
            raise Bad(e.line, "port %d has no open life that could push this" % e.port)
        if e.life.connid is None and d.dst == d.src:
            e.life.connid = d.connid
        if d.form == "packet":
            self.name(e, d, e.life)

    def name(self, e, d, life):
        p = d.packet
        if p is None and d.length <= 64:
            return
        if p is None or p.kind == "CTSDATA":
            grants = [g for g in life.grants.values() if g.left and g.peer == (d.dst, d.connid)]
            if grants and (p is None or p.recv in [g.recv for g in grants]):
                g = min(grants, key=lambda one: one.send) if p is None else \
                    next(one for one in grants if one.recv == p.recv)
                p = d.packet = p or Packet("CTSDATA", recv=g.recv, count=d.length - CTSDATA_HEAD)
                p.message, p.send = life.sends[g.send].message if g.send in life.sends else None, g.send
                g.give(p, p.count)
                return
        if p is None or p.opens:
            self.open_message(e, d, life)

    def open_message(self, e, d, life):
        life.openers.append(d)
        if not self.job:
            life.bounds.append((least_open(life), len(life.sends) - 1))
            d.packet = d.packet or Packet("opener")
            return
        for number in sorted(life.sends):
            s = life.sends[number]
            if not s.packets or s.to != d.dst:
                continue
            made, length = s.packets.pop(0)
            if length == d.length:
                d.packet = made
                made.send = number
                return
            break
        raise Bad(e.line, "by the job another packet is pushed here: the job isn't that of this report")

    def handle(self, i, e):
        d = e.datagram
        if d.dropped or d.connid is None:
            return
        life, p, peer = e.life, d.packet, (d.src, d.source.connid)
        if life is None:
            raise Bad(e.line, "port %d has no open life that could take this" % e.port)
        life.current.setdefault(*peer)
        if d.form == "ask":
            send = int(self.report.entries[d.pushed].words[3])
            first = self.reads[d.src, d.dst, d.connid, send]
            self.tell(life, d.src, send, "runt" if first else "long-read")
        elif p is None:
            return
        elif p.kind == "HANDSHAKE":
            life.words.setdefault(peer, p.word)
        elif p.kind == "CTS":
            opener = self.tell(life, d.src, p.send, "long-CTS")
            g = life.grants.setdefault(p.send, Grant(p.send, p.recv, (d.src, p.connid), opener))
            g.left += p.grant
        elif p.opens and d.enters and p.message is None:
            p.message = d.enters[0]

    def tell(self, life, port, send, kind):
        """A reply names a send: the packets that opened its message are of this kind. Gives the first part's size."""
        life.told[send] = kind
        message = life.sends[send].message if send in life.sends else None
        size = None
        for d in life.openers:
            p = d.packet
            if d.dst != port or p.message is None or p.message != message:
                continue
            if p.kind == "opener":
                p.kind, p.send = kind, send
            size = p.count
        return size


def insert(life, port, connid):
    """An insert of another life than the current one: what was owed to that one goes."""
    if life.current.get(port, connid) != connid:
        for s in life.sends.values():
            if s.to == port:
                s.packets = []
        life.grants = {n: g for n, g in life.grants.items() if g.peer[0] != port}
    life.current[port] = connid


def identifiers(report):
    """For each port the identifiers of its lives in order, as its notes tell them."""
    found = [[] for _ in report.ends]
    for d in report.datagrams:
        if d.form == "opened":
            connid = int(report.entries[d.pushed].words[2])
            if connid not in found[d.src]:
                found[d.src].append(connid)
    return found


def first_asks(report):
    """For each send that is read, by who reads it: the place in the message from which on it is asked for."""
    found = {}
    for d in report.datagrams:
        if d.form == "ask":
            words = report.entries[d.pushed].words
            key = d.src, d.dst, d.connid, int(words[3])
            found[key] = min(found.get(key, int(words[8])), int(words[8]))
    return found
