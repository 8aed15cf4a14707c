"""The kinds of functions. Each call takes a frame's bytes, stamp and receive port, and gives a verdict and bytes.

A verdict is ("next",), ("drop",), ("to", SERVICE) or ("out", PORT).
"""
import ipaddress

from packets import TCP, UDP, flow_hash, heads_of, holds, is_in, number, prefix, updated, with_word

NEXT, DROP = ("next",), ("drop",)


class Forward:
    def __init__(self, keys):
        self.keys = keys

    def __call__(self, data, stamp, port):
        return NEXT, data


# Counts stand in no report, so a counter is seen by nothing but the frames that go on.
Count = Forward


class Drop(Forward):
    def __call__(self, data, stamp, port):
        return DROP, data


class Out(Forward):
    def __call__(self, data, stamp, port):
        return ("out", self.keys["port"]), data


class To(Forward):
    def __call__(self, data, stamp, port):
        return ("to", self.keys["to_service"]), data


class Filter(Forward):
    def __call__(self, data, stamp, port):
        heads = heads_of(data)
        return (DROP if any(holds(match, port, heads) for match in self.keys["match"]) else NEXT), data


class Ttl(Forward):
    def __call__(self, data, stamp, port):
        heads = heads_of(data)
        if heads.version is None:
            return NEXT, data
        at = heads.at + (8 if heads.version == 4 else 7)
        if data[at] <= 1:
            return DROP, data
        less = data[:at] + bytes([data[at] - 1]) + data[at + 1 :]
        if heads.version == 4:
            less = with_word(less, at + 2, updated(number(data, at + 2, 2), number(data, at, 2), number(less, at, 2)))
        return NEXT, less


class Tag(Forward):
    def __call__(self, data, stamp, port):
        if len(data) < 14:
            return NEXT, data
        if len(data) > 262140:
            return DROP, data
        tag = self.keys["tag_priority"] * 8192 + self.keys["vlan"]
        return NEXT, data[:12] + b"\x81\x00" + tag.to_bytes(2, "big") + data[12:]


class Untag(Forward):
    def __call__(self, data, stamp, port):
        return NEXT, data if heads_of(data).vlan is None else data[:12] + data[16:]


class Macs(Forward):
    def __call__(self, data, stamp, port):
        addresses = bytes.fromhex(self.keys["target"] + self.keys["source"])
        return NEXT, addresses + data[12:] if len(data) >= 14 else data


class Route(Forward):
    def __call__(self, data, stamp, port):
        heads = heads_of(data)
        table = self.keys["table"] if heads.version == 4 else []
        found = [entry for entry in table if is_in(entry["prefix"], 4, heads.target)]
        if not found:
            return DROP, data
        # min takes the first of equal ones
        best = min(found, key=lambda entry: prefix(entry["prefix"])[2])
        return (("to", best["to"]) if "to" in best else ("out", best["out"])), data


class Balance(Forward):
    def __call__(self, data, stamp, port):
        services = self.keys["services"]
        return ("to", services[flow_hash(heads_of(data)) % len(services)]), data


class Police(Forward):
    """Tokens are in bytes times 10^9, so that each nanosecond adds `rate` of them."""

    tokens = None

    def __call__(self, data, stamp, port):
        moment, depth = stamp.seconds * 10**9 + stamp.nanos, self.keys["depth"] * 10**9
        if self.tokens is None:
            self.tokens, self.last = depth, moment
        since = max(moment - self.last, 0)
        self.tokens, self.last = min(self.tokens + since * self.keys["rate"], depth), max(moment, self.last)
        if self.tokens < len(data) * 10**9:
            return DROP, data
        self.tokens -= len(data) * 10**9
        return NEXT, data


class Nat(Forward):
    def __init__(self, keys):
        super().__init__(keys)
        self.outside = int(ipaddress.IPv4Address(keys["outside"]))
        # by protocol: the senders, of which number i has the range's port i
        self.senders = {TCP: [], UDP: []}

    def __call__(self, data, stamp, port):
        heads = heads_of(data)
        if heads.version != 4 or heads.ports is None:
            return NEXT, data
        if len(data) < heads.behind + (18 if heads.protocol == TCP else 8):
            return DROP, data
        if is_in(self.keys["inside"], 4, heads.source):
            return self.leave(data, heads)
        return NEXT, self.enter(data, heads)

    def leave(self, data, heads):
        senders, (first, last) = self.senders[heads.protocol], self.keys["ports"]
        sender = heads.source, heads.ports[0]
        if sender not in senders:
            if first + len(senders) > last:
                return DROP, data
            senders.append(sender)
        return NEXT, rewritten(data, heads, heads.at + 12, heads.behind, self.outside, first + senders.index(sender))

    def enter(self, data, heads):
        senders, place = self.senders[heads.protocol], heads.ports[1] - self.keys["ports"][0]
        if heads.target != self.outside or not 0 <= place < len(senders):
            return data
        return rewritten(data, heads, heads.at + 16, heads.behind + 2, *senders[place])


def rewritten(data, heads, address_at, port_at, address, port):
    for at, word in ((address_at, address >> 16), (address_at + 2, address % 65536)):
        data = with_segment_sum(with_head_sum(data, heads.at + 10, at, word), heads, at, word)
        data = with_word(data, at, word)
    return with_word(with_segment_sum(data, heads, port_at, port), port_at, port)


def with_head_sum(data, sum_at, at, word):
    old = number(data, at, 2)
    return data if word == old else with_word(data, sum_at, updated(number(data, sum_at, 2), old, word))


def with_segment_sum(data, heads, at, word):
    sum_at = heads.behind + (16 if heads.protocol == TCP else 6)
    old = number(data, sum_at, 2)
    if word == number(data, at, 2) or (heads.protocol == UDP and old == 0):
        return data
    new = updated(old, number(data, at, 2), word)
    return with_word(data, sum_at, 0xFFFF if heads.protocol == UDP and new == 0 else new)


class Guest(Forward):
    def __call__(self, data, stamp, port):
        if self.keys["guest"] == "flip":
            return NEXT, data[:-1] + bytes([data[-1] ^ 1]) if data else data
        return NEXT, data[6:12] + data[:6] + data[12:] if len(data) >= 14 else data


KINDS = {
    "forward": Forward,
    "drop": Drop,
    "out": Out,
    "to": To,
    "filter": Filter,
    "ttl": Ttl,
    "tag": Tag,
    "untag": Untag,
    "macs": Macs,
    "route": Route,
    "balance": Balance,
    "count": Count,
    "police": Police,
    "nat": Nat,
    "guest": Guest,
}
