"""What the bytes of a packet say. docs/FORMATS.md has the tables.

Receipts (type 10), the confirmed kinds (types 200 to 205) and a HANDSHAKE with a raw address are read as well;
no program of this repository pushes them yet.
"""
import struct
from dataclasses import dataclass

RAW, CQ_DATA, TAGGED, CONNID = 1, 2, 8, 1 << 15
OPENERS = {64: "eager", 66: "medium", 68: "long-CTS", 128: "long-read", 192: "runt"}
CONFIRMED = {200: "eager", 202: "medium", 204: "long-CTS"}
HEADS = {"eager": 8, "medium": 24, "long-CTS": 24, "long-read": 24, "runt": 40}
RANGE = 24
CTSDATA_HEAD = 28


@dataclass(eq=False, slots=True)
class Packet:
    """A packet as far as it is known; what isn't known is None."""

    kind: str                     # a word of OPENERS, or CTS, CTSDATA, EOR, HANDSHAKE, RECEIPT, opener
    message: int | None = None
    tag: int | None = None
    data: int | None = None       # the CQ data
    whole: int | None = None      # the length of the message
    offset: int | None = None
    count: int | None = None      # how many bytes of the message are in it
    runt: int | None = None
    send: int | None = None
    recv: int | None = None
    grant: int | None = None
    word: int | None = None       # the features
    connid: int | None = None
    confirmed: bool = False

    @property
    def opens(self):
        return self.kind in HEADS or self.kind == "opener"


class Fields:
    """Bytes that are read from front to back."""

    def __init__(self, data):
        self.data, self.at = data, 0

    def take(self, form):
        values = struct.unpack_from("<" + form, self.data, self.at)
        self.at += struct.calcsize("<" + form)
        return values

    def left(self):
        return len(self.data) - self.at


def head_of(kind, tagged, raw, data, ranges):
    """How many bytes a packet that opens a message has before its data."""
    return (HEADS[kind] + (8 if tagged else 0) + (36 if raw else 4) + (8 if data else 0)
            + (RANGE * ranges if kind in ("long-read", "runt") else 0))


def decode(data):
    """The packet that these bytes are, or None where they are none that is drawn."""
    try:
        return packet_of(Fields(data))
    except struct.error:
        return None


def packet_of(f):
    kind, version, flags = f.take("BBH")
    if version != 4:
        return None
    if kind & ~1 in OPENERS or kind & ~1 in CONFIRMED:
        return opener_of(f, kind, flags)
    if kind == 3:
        send, recv, grant, connid = f.take("IIQI")
        p = Packet("CTS", send=send, recv=recv, grant=grant, connid=connid)
    elif kind == 4:
        recv, count, offset, connid = f.take("IQQI")
        p = Packet("CTSDATA", recv=recv, count=count, offset=offset, connid=connid)
        f.take("%ds" % count if count <= f.left() else "Q")
    elif kind == 7:
        send, recv, connid = f.take("III")
        p = Packet("EOR", send=send, recv=recv, connid=connid)
    elif kind == 9:
        words = [f.take("Q")[0] for _ in range(f.take("I")[0] - 3)]
        p = Packet("HANDSHAKE", word=words[0] if words else None)
        p.connid = f.take("I20xI8x" if flags & RAW else "I")[-1]
    elif kind == 10:
        message, connid = f.take("II")
        p = Packet("RECEIPT", message=message, connid=connid)
    else:
        return None
    return None if f.left() else p


def opener_of(f, kind, flags):
    word = OPENERS.get(kind & ~1) or CONFIRMED[kind & ~1]
    p = Packet(word, message=f.take("I")[0], offset=0, confirmed=kind & ~1 in CONFIRMED)
    ranges = 0
    if word == "medium":
        p.whole, p.offset = f.take("QQ")
    elif word == "long-CTS":
        p.whole, p.send, _ = f.take("QII")
    elif word in ("long-read", "runt"):
        p.whole, p.send, ranges = f.take("QII")
        if word == "runt":
            p.runt, p.offset = f.take("QQ")
    if kind & 1:
        p.tag = f.take("Q")[0]
    if flags & RAW:
        p.connid = f.take("IIQIHHIQ")[6]
    if flags & CQ_DATA:
        p.data = f.take("Q")[0]
    if flags & CONNID:
        p.connid = f.take("I")[0]
    f.take("24s" * min(ranges, 5))
    p.count = f.left()
    if word == "eager":
        p.whole = p.count
    return p
