"""What the bytes of a frame say, by offset, and what rules ask of them (docs/FORMATS.md, "The chain file")."""
import ipaddress
from collections import namedtuple

TCP, UDP = 6, 17

# Parts that a frame hasn't are None. `at` is where the network head begins, `behind` what is behind it.
Heads = namedtuple("Heads", "vlan type version at behind source target protocol ports")
NO_NET = (None,) * 7


def number(data, at, size):
    return int.from_bytes(data[at : at + size], "big")


def heads_of(data):
    if len(data) < 14:
        return Heads(None, None, *NO_NET)
    tagged = number(data, 12, 2) == 0x8100 and len(data) >= 18
    type_at = 16 if tagged else 12
    ethertype = number(data, type_at, 2)
    return Heads(number(data, 14, 2) % 4096 if tagged else None, ethertype, *net_of(data, ethertype, type_at + 2))


def net_of(data, ethertype, at):
    rest = len(data) - at
    if ethertype == 0x0800 and rest >= 20 and data[at] >> 4 == 4 and data[at] % 16 >= 5 and rest >= data[at] % 16 * 4:
        return ipv4(data, at)
    if ethertype == 0x86DD and rest >= 40 and data[at] >> 4 == 6:
        behind = at + 40
        ports = ports_at(data, behind, data[at + 6])
        return 6, at, behind, number(data, at + 8, 16), number(data, at + 24, 16), data[at + 6], ports
    return NO_NET


def ipv4(data, at):
    behind, protocol = at + data[at] % 16 * 4, data[at + 9]
    is_fragment = number(data, at + 6, 2) % 16384 != 0
    ports = None if is_fragment else ports_at(data, behind, protocol)
    return 4, at, behind, number(data, at + 12, 4), number(data, at + 16, 4), protocol, ports


def ports_at(data, at, protocol):
    if protocol not in (TCP, UDP) or len(data) < at + 4:
        return None
    return number(data, at, 2), number(data, at + 2, 2)


def flow_hash(heads):
    """FNV-1a of 32 bits over version, addresses, protocol and ports."""
    if heads.version is None:
        flow = bytes(1)
    else:
        size = 4 if heads.version == 4 else 16
        ports = heads.ports or (0, 0)
        flow = bytes([heads.version]) + heads.source.to_bytes(size, "big") + heads.target.to_bytes(size, "big")
        flow += bytes([heads.protocol]) + ports[0].to_bytes(2, "big") + ports[1].to_bytes(2, "big")
    value = 2166136261
    for byte in flow:
        value = (value ^ byte) * 16777619 % 2**32
    return value


def prefix(text):
    """A prefix: its version, its address and how many bits of that don't count."""
    address, length = text.split("/")
    if "." in address:
        return 4, int(ipaddress.IPv4Address(address)), 32 - int(length)
    return 6, int(address, 16), 128 - int(length)


def is_in(text, version, address):
    wanted, front, rest = prefix(text)
    return version == wanted and address >> rest == front >> rest


def is_between(ends, ports, which):
    return ports is not None and ends[0] <= ports[which] <= ends[1]


# The tests of a match object, each of what it asks for, the receive port and the heads.
TESTS = {
    "port": lambda wanted, port, heads: port == wanted,
    "vlan": lambda wanted, port, heads: heads.vlan == wanted,
    "type": lambda wanted, port, heads: heads.type == wanted,
    "src": lambda wanted, port, heads: is_in(wanted, heads.version, heads.source),
    "dst": lambda wanted, port, heads: is_in(wanted, heads.version, heads.target),
    "protocol": lambda wanted, port, heads: heads.protocol == wanted,
    "src_ports": lambda wanted, port, heads: is_between(wanted, heads.ports, 0),
    "dst_ports": lambda wanted, port, heads: is_between(wanted, heads.ports, 1),
}


def holds(match, port, heads):
    return all(TESTS[key](wanted, port, heads) for key, wanted in match.items())


def updated(checksum, old, new):
    """A checksum after one word changed, by RFC 1624."""
    total = (0xFFFF - checksum) + (0xFFFF - old) + new
    while total > 0xFFFF:
        total = total % 65536 + total // 65536
    return 0xFFFF - total


def with_word(data, at, word):
    return data[:at] + word.to_bytes(2, "big") + data[at + 2 :]
