"""What follows from the order of things: of which message a packet is, and which messages wait for an earlier one."""

SINGLE = ("eager", "long-CTS", "long-read")


def least_open(life):
    """The least send that wasn't polled yet: the packets of those below it are all out."""
    least = life.openers[-2].least if len(life.openers) > 1 else 0
    while least in life.polled:
        least += 1
    life.openers[-1].least = least
    return least


def deduce(life):
    """Packets that open messages go out send by send, and each send has one at least.

    So where every send was polled as ok, a packet can only be of a few sends, and often of one alone.
    """
    if not life.bounds or not life.sends or not all(s.polled for s in life.sends.values()):
        return
    packets = [d.packet for d in life.openers]
    low, high = [b[0] for b in life.bounds], [b[1] for b in life.bounds]
    last = len(packets) - 1
    high[0], low[last] = 0, len(life.sends) - 1
    for _ in range(2):
        for i, p in enumerate(packets):
            own = [p.send] if p.send is not None else one_of(life, p.message, low[i], high[i])
            if own:
                low[i], high[i] = max(low[i], own[0]), min(high[i], own[-1])
            if i < last:
                low[i + 1] = max(low[i + 1], low[i] + (p.kind in SINGLE))
                high[i + 1] = min(high[i + 1], high[i] + 1)
        for i in range(last, 0, -1):
            low[i - 1] = max(low[i - 1], low[i] - 1)
            high[i - 1] = min(high[i - 1], high[i] - (packets[i - 1].kind in SINGLE))
    if all(a <= b for a, b in zip(low, high)):
        tell_sends(life, packets, low, high)


def one_of(life, message, low, high):
    """The sends of this message number between the bounds, but where they are many."""
    if message is None or high - low > 64:
        return []
    return [n for n in range(low, high + 1) if n in life.sends and life.sends[n].message == message]


def tell_sends(life, packets, low, high):
    for i, p in enumerate(packets):
        if p.kind != "opener" or low[i] != high[i]:
            continue
        send = low[i]
        p.message = life.sends[send].message
        group = [j for j in range(max(0, i - 1), min(len(packets), i + 2)) if low[j] <= send <= high[j]]
        certain = all(low[j] == high[j] for j in group)
        told = life.told.get(send)
        if told or certain:
            p.kind, p.send = told or ("medium" if len(group) > 1 else "eager"), send


def hold(report):
    """A message whose number isn't the next one is held until the lower numbers have come."""
    following, held = {}, {}
    for i, e in enumerate(report.entries):
        d = e.datagram
        if e.act != "handle" or d.dropped or d.packet is None or not d.packet.opens:
            continue
        pair, message = (e.life, d.source), d.packet.message
        if d.enters:
            end = following[pair] = sum(d.enters)
            for one in held.get(pair, []):
                if one.packet.message < end:
                    one.let_in = i
            held[pair] = [one for one in held.get(pair, []) if one.let_in is None]
        elif message is not None:
            awaited = following.get(pair, report.first)
            if awaited is None or message >= awaited:
                d.held, d.waits_for = i, awaited
                held.setdefault(pair, []).append(d)
