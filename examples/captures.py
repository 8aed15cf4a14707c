#!/usr/bin/env python3
"""Writes the captures of examples 42 to 45 anew, each beside its chain file: the same bytes as those there."""
import os
import struct
import sys

HERE = os.path.dirname(os.path.abspath(__file__))
sys.path.insert(0, os.path.join(os.path.dirname(HERE), "checks", "model"))
from captures import ones_sum  # noqa: E402 - the model's own module, of the same name as this file.

HOST, SERVER = "020000000001", "020000000002"


def address(text):
    return bytes(map(int, text.split(".")))


def ip(protocol, source, target, segment):
    """An Ethernet frame with an IPv4 packet of TTL 64."""
    front = struct.pack(">HHHHBB", 0x4500, 20 + len(segment), 0, 0, 64, protocol)
    addresses = address(source) + address(target)
    checksum = 0xFFFF - ones_sum(front + addresses)
    packet = front + struct.pack(">H", checksum) + addresses + segment
    return bytes.fromhex(SERVER + HOST + "0800") + packet


def udp(source, source_port, target, target_port, payload):
    """A datagram without a checksum."""
    return ip(17, source, target, struct.pack(">HHHH", source_port, target_port, 8 + payload, 0) + bytes(payload))


def tcp(source, source_port, target, target_port):
    """A head alone, that asks for a connection, with its checksum."""
    head = struct.pack(">HHIIHHHH", source_port, target_port, 0, 0, 0x5002, 1024, 0, 0)
    covered = address(source) + address(target) + struct.pack(">HH", 6, len(head)) + head
    checksum = 0xFFFF - ones_sum(covered)
    return ip(6, source, target, head[:16] + struct.pack(">H", checksum) + head[18:])


def tagged(vlan, frame):
    return frame[:12] + struct.pack(">HH", 0x8100, vlan) + frame[12:]


def write(path, frames, apart=1000):
    """A capture of these frames, the first at second 1, so many microseconds apart."""
    parts = [struct.pack("<IHHIIII", 0xA1B2C3D4, 2, 4, 0, 0, 262144, 1)]
    for number, frame in enumerate(frames):
        seconds, micros = divmod(1000000 + number * apart, 1000000)
        parts += (struct.pack("<IIII", seconds, micros, len(frame), len(frame)), frame)
    with open(os.path.join(HERE, path), "wb") as file:
        file.write(b"".join(parts))


def main():
    web, names, outside = "198.51.100.7", "198.51.100.53", "192.0.2.1"
    write(
        "42-firewall-and-nat/inside.pcap",
        [
            tcp("10.0.0.1", 5000, web, 80),
            tcp("10.0.0.2", 5000, web, 23),
            tcp("10.0.0.3", 5000, web, 80),
            udp("10.0.0.3", 6000, names, 53, 30),
            tcp("10.0.0.1", 5001, "192.168.7.7", 80),
        ],
    )
    write(
        "42-firewall-and-nat/outside.pcap",
        [
            tcp(web, 80, outside, 40001),
            tcp(web, 80, outside, 40002),
            udp(names, 53, outside, 40000, 50),
            tcp("10.9.9.9", 80, outside, 40000),
        ],
    )
    write(
        "43-two-servers/flows.pcap",
        [udp("203.0.113.5", 5000 + flow, "198.51.100.7", 53, 18) for flow in (0, 1, 2, 3, 0, 1, 1, 1)],
    )
    write(
        "44-access-and-trunk/access.pcap",
        [udp("10.0.0.1", 5000, "10.0.0.9", 9, 18), udp("10.0.0.2", 5000, "10.0.0.9", 9, 18)],
    )
    trunk = udp("10.0.0.9", 9, "10.0.0.1", 5000, 18)
    write("44-access-and-trunk/trunk.pcap", [tagged(3 * 8192 + 7, trunk), tagged(8, trunk), trunk])
    stream = [udp("10.0.0.1", 5000, "10.0.0.9", 5001, 958)] * 12
    write("45-policer/stream.pcap", stream + [tcp("10.0.0.1", 5000, "10.0.0.9", 80)] * 2, 4000)


if __name__ == "__main__":
    main()
