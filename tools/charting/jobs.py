"""What the job of a report adds to it: the ends of an operation and the packets that a send is cut into."""
import json

from .packets import Packet, head_of
from .reading import Bad

LIMITS = {"mtu": 8192, "medium": 65536, "read": 1048576, "runt": 0, "first": 0}
NUMBERS = {"insert": ("port", "connid"), "send": ("to",), "recv": ("len",), "cancel": ("recv",),
           "note": ("to", "what"), "await": ("from", "what"), "wait": ("count",)}
RUNTING, READING, RAW = 16, 1, 4


class NoJob(Exception):
    """The bytes are no job."""


def is_number(value):
    return type(value) is int and 0 <= value < 1 << 64


def is_op(op):
    """Whether this is an instruction as far as it is looked at here."""
    if not isinstance(op, dict) or not all(is_number(op.get(key)) for key in NUMBERS.get(op.get("op"), ())):
        return False
    if not all(is_number(op.get(key, 0)) for key in ("tag", "data", "connid", "len")):
        return False
    if op.get("op") != "send" or "parts" not in op:
        return op.get("op") != "send" or "len" in op
    return isinstance(op["parts"], list) and all(
        isinstance(part, list) and len(part) == 3 and all(map(is_number, part)) for part in op["parts"])


class Job:
    """The limits of a job, and for each rank its instructions and its features."""

    def __init__(self, data):
        try:
            top = json.loads(data)
            self.limits = {key: top.get(key, value) for key, value in LIMITS.items()}
            self.ranks = [list(rank["ops"]) for rank in top["ranks"]]
            self.features = [rank.get("features", 25) for rank in top["ranks"]]
            sound = (all(map(is_number, [*self.limits.values(), *self.features]))
                     and all(is_op(op) for ops in self.ranks for op in ops))
        except (ValueError, TypeError, KeyError, AttributeError, RecursionError):
            sound = False
        if not sound:
            raise NoJob("no job: an object with ranks and their ops is expected")

    def op(self, entry):
        """The instruction that an entry did; the entry must be one of this job."""
        index, word = int(entry.words[0]), entry.words[1]
        ops = self.ranks[entry.port] if entry.port < len(self.ranks) else []
        if index >= len(ops) or ops[index].get("op") != word:
            raise Bad(entry.line, "by the job instruction %d of rank %d is no %s" % (index, entry.port, word))
        return ops[index]

    def packets(self, port, op, message, word):
        """The packets that open this message, where `word` is what is known of the peer. With each its length."""
        lengths = [part[2] for part in op["parts"]] if "parts" in op else [op["len"]]
        whole, ranges = sum(lengths), sum(length > 0 for length in lengths)
        raw = word is None or bool(word & RAW)
        kind = self.choose(whole, self.limits["mtu"] - head_of("eager", "tag" in op, raw, "data" in op, 0),
                           self.features[port], word)
        head = head_of(kind, "tag" in op, raw, "data" in op, ranges)
        room = max(self.limits["mtu"] - head, 1)
        runt = min(self.limits["runt"], whole - 1) if kind == "runt" else None
        end = {"runt": runt, "long-CTS": min(whole, room), "long-read": 0}.get(kind, whole)
        known = {"message": message, "tag": op.get("tag"), "data": op.get("data"), "whole": whole, "runt": runt,
                 "confirmed": bool(op.get("confirm")) and kind not in ("runt", "long-read")}
        made = []
        for at in range(0, max(end, 1), room):
            count = min(room, end - at)
            made.append((Packet(kind, offset=at, count=count, **known), head + count))
        return made

    def choose(self, whole, room, own, word):
        """The protocol of a message of this length, by both feature words."""
        both = own & word if word is not None else 0
        if whole <= room:
            return "eager"
        if both & READING and whole >= self.limits["read"]:
            return "runt" if self.limits["runt"] and both & RUNTING else "long-read"
        return "medium" if whole <= self.limits["medium"] else "long-CTS"
