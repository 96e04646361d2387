"""What is written beside each entry: short lines in plain words."""

CLASSES = {
    "ToOther": "it is for a life that isn't open here",
    "FromOther": "another life of that port is current here",
    "Malformed": "it is no packet of its sender",
    "Unknown": "nothing is known of its sender",
    "BadKey": "it asks for bytes that aren't to be read",
    "NoOp": "no operation waits for it",
    "Mismatch": "it contradicts what came before",
    "Overlap": "these bytes have come already",
}
MORE = {"cancel": "recv {recv}", "note": "{what} to rank {to}", "await": "{what} from rank {from}",
        "wait": "for {count}"}
LEFT = {
    "NotYet Await": "waits for a note",
    "NotYet Opened": "waits until that life opens",
    "NotYet Handshake": "waits for a HANDSHAKE",
    "Again Tx": "the pool tx is full",
    "Again Rx": "the pool rx is full",
    "Again Cq": "the pool cq is full",
    "Worn": "its clock is used up",
}


def counted(number, one, more):
    return "%s %s" % (number, one if int(number) == 1 else more)


def count_of(number, what):
    return counted(number, what, what + "s")


def shown(text):
    """The bytes shown, as text where they can be read, and not too long."""
    if text.startswith("sha256:"):
        return text[:15] + "..."
    if text == "-":
        return ""
    data = bytes.fromhex(text)
    if all(32 <= b < 127 and b not in (34, 92) for b in data):
        return '"%s"' % data.decode("ascii") if len(data) <= 16 else '"%s"...' % data[:16].decode("ascii")
    return text if len(data) <= 8 else text[:16] + "..."


def spoken(*parts):
    return " ".join(part for part in parts if part)


def piece(p):
    """Where the bytes of a packet stand in its message."""
    if p.count is None:
        return ""
    if p.count == 0 and not p.whole:
        return "0 bytes"
    if p.kind == "long-read":
        return "of %s, all to be read" % count_of(p.whole, "byte")
    if p.count == p.whole:
        return count_of(p.count, "byte")
    at = "length %d" % p.count if p.offset is None else "offset %d length %d" % (p.offset, p.count)
    return at if p.whole is None else "%s of %d" % (at, p.whole)


def packet(d):
    p = d.packet
    if p is None or p.kind == "opener" and p.message is None:
        return "packet of %s" % count_of(d.length, "byte")
    message = "" if p.message is None else "msg %d" % p.message
    if p.kind == "opener":
        return "packet of %s: opens %s" % (count_of(d.length, "byte"), message)
    if p.opens:
        return spoken(p.kind, message, "" if p.tag is None else "tag %d" % p.tag,
                      "" if p.data is None else "data %d" % p.data, "confirm" if p.confirmed else "",
                      "" if p.count is None else "|", piece(p)).replace(" |", ",")
    if p.kind == "CTS":
        return "CTS send %d recv %d: %s more" % (p.send, p.recv, count_of(p.grant, "byte"))
    if p.kind == "CTSDATA":
        return spoken("CTSDATA", message or "recv %d" % p.recv) + ", " + piece(p)
    if p.kind == "EOR":
        return "EOR send %d recv %d: all was read" % (p.send, p.recv)
    if p.kind == "HANDSHAKE":
        bits = [str(bit) for bit in range(64) if p.word >> bit & 1]
        return "HANDSHAKE features %s" % (",".join(bits) or "none")
    return "RECEIPT %s" % message


def datagram(d, e):
    """What a datagram is; `e` is the entry of its push."""
    w = e.words
    if d.form == "opened":
        return "note: opened %s" % w[2]
    if d.form == "note":
        return "note: %s" % w[2]
    if d.form == "ask":
        return "ask send %s: offset %s length %s" % (w[3], w[8], w[7])
    if d.form == "data":
        return "read data recv %s, offset %s length %s" % (w[3], w[4], w[5])
    return packet(d)


def push(e):
    return "#%d %s" % (e.datagram.number, datagram(e.datagram, e))


def entering(first, count):
    """The messages that enter at one packet; those after the first one waited for it."""
    if count == 1:
        return "msg %d enters" % first
    others = "msg %d" % (first + 1) if count == 2 else "msgs %d %s %d" % (
        first + 1, "and" if count == 3 else "to", first + count - 1)
    return "msg %d enters, and now %s too" % (first, others)


def handle(e):
    d = e.datagram
    if d.dropped:
        return "dropped #%d: %s, %s" % (d.number, d.dropped, CLASSES[d.dropped])
    if d.enters:
        return "took #%d: %s" % (d.number, entering(*d.enters))
    if d.held is not None:
        missing = "an earlier msg" if d.waits_for is None else "msg %d" % d.waits_for
        return "took #%d: msg %d waits, %s isn't here yet" % (d.number, d.packet.message, missing)
    return "took #%d" % d.number


def next(e):
    _, word, number, message, why = e.words
    if why is not None:
        return "%s refused: %s" % (word, why)
    op = e.op or {}
    if word == "open":
        return "open %s" % e.life.name
    if word == "insert":
        return spoken("insert", "%d.%d" % (op["port"], op["connid"]) if op else "", "did")
    if word == "reg":
        return "reg: region %s" % number
    tag = "tag %d" % op["tag"] if "tag" in op else ""
    if word == "send":
        size = sum(part[2] for part in op["parts"]) if "parts" in op else op.get("len")
        return spoken("send %s: msg %s" % (number, message), "to rank %d," % op["to"] if op else "",
                      "" if size is None else count_of(size, "byte"), tag)
    if word == "recv":
        return "recv %s" % number + (": " + spoken(count_of(op["len"], "byte"), tag) if op else "")
    more = MORE[word].format(**op) if op and word in MORE else ""
    return spoken(word, more, "" if word == "close" else "did")


def poll(e):
    w = e.words
    if e.form in ("send", "recv"):
        return "poll: %s %s %s" % (e.form, w[0], w[1])
    ok = "ok" if e.form == "took" else "truncated"
    tag = "" if w[3] == "-" else "tag %s" % w[3]
    data = "" if w[4] == "-" else "data %s" % w[4]
    cut = "" if e.form == "took" else ", %s cut off" % count_of(w[6], "byte")
    text = spoken("poll: recv %s %s from %s.%s" % (w[0], ok, w[1], w[2]), tag, data)
    return text + ", " + spoken(count_of(w[5], "byte"), shown(w[-1])) + cut


def label(e):
    return {"next": next, "push": push, "handle": handle, "poll": poll}[e.act](e)


def end(n):
    """How a rank ended, in lines."""
    lines = ["%s %d of %s" % ("stuck after" if n.left else "done:", n.done, count_of(n.all, "instruction"))]
    if n.left:
        words = n.left.split()
        if words[:2] == ["NotYet", "Wait"]:
            lines.append("waits for %s, has %s" % (count_of(words[3], "completion"), words[2]))
        elif words[:2] == ["NotYet", "Parts"]:
            lines.append("waits for %s" % count_of(words[2], "part"))
        else:
            lines.append(LEFT[n.left])
    if n.to_other:
        lines.append("dropped %d ToOther" % n.to_other)
    if n.from_other:
        lines.append("dropped %d FromOther" % n.from_other)
    if n.waiting:
        lines.append("%s in the stash" % count_of(n.waiting, "datagram"))
    return lines


def heading(report):
    return "rdm report: %s, %s, %s" % (report.status, counted(len(report.entries), "entry", "entries"),
                                       count_of(len(report.ends), "rank"))
