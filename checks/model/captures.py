"""Captures: how they are read, how they are emitted, and the made ones (docs/FORMATS.md)."""
import struct
from collections import namedtuple

# The beginnings of a capture: the order of its bytes, and how many nanoseconds a unit of its fractions is.
SPELLINGS = {
    bytes.fromhex("d4c3b2a1"): ("<", 1000),
    bytes.fromhex("4d3cb2a1"): ("<", 1),
    bytes.fromhex("a1b2c3d4"): (">", 1000),
    bytes.fromhex("a1b23c4d"): (">", 1),
}
HEADER = struct.pack("<IHHIIII", 0xA1B23C4D, 2, 4, 0, 0, 262144, 1)

Stamp = namedtuple("Stamp", "seconds nanos tail")


def read(path):
    """The frames of a capture that has no fault: a stamp and the bytes of each."""
    with open(path, "rb") as file:
        text = file.read()
    order, unit = SPELLINGS[text[:4]]
    place = 24
    while place < len(text):
        seconds, fraction, included, original = struct.unpack_from(order + "IIII", text, place)
        data = text[place + 16 : place + 16 + included]
        assert len(data) == included, f"the capture ends inside the record at {place}"
        yield Stamp(seconds, fraction * unit, max(original - included, 0)), data
        place += 16 + included


def emit(frames):
    """The emitted spelling of these stamps and bytes."""
    parts = [HEADER]
    for stamp, data in frames:
        original = min(len(data) + stamp.tail, 0xFFFFFFFF)
        parts += (struct.pack("<IIII", stamp.seconds, stamp.nanos, len(data), original), data)
    return b"".join(parts)


def made(seed, count):
    """The made frames of a seed."""
    state = seed
    for number in range(1, count + 1):
        state = (state * 6364136223846793005 + 1442695040888963407) % 2**64
        seconds, micros = divmod(number - 1, 1000000)
        yield Stamp(seconds, micros * 1000, 0), made_frame(state >> 32, number)


def made_frame(draw, number):
    flow = draw % 16
    payload = bytes([number % 256]) * (18 + 16 * (draw // 16 % 64))
    addresses = bytes([10, 0, 0, flow, 10, 1, 0, 1])
    front = struct.pack(">HHHHH", 0x4500, 28 + len(payload), number % 65536, 0, 0x4011)
    checksum = 0xFFFF - ones_sum(front + addresses)
    udp = struct.pack(">HHHH", 10000 + flow, 9, 8 + len(payload), 0)
    ethernet = bytes.fromhex("0200000000010200000000020800")
    return ethernet + front + struct.pack(">H", checksum) + addresses + udp + payload


def ones_sum(data):
    """The sum in one's complement of words of 16 bits."""
    total = sum(struct.unpack(f">{len(data) // 2}H", data))
    while total > 0xFFFF:
        total = total % 65536 + total // 65536
    return total


def feed(word):
    """The frames of a capture word: a file, or gen:SEED:COUNT."""
    if word.startswith("gen:"):
        seed, count = word[4:].split(":")
        return made(int(seed), int(count))
    return read(word)
