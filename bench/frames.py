"""Captures of made frames, UDP over IPv4, of which each follows from its number and its draw.

A recipe says which flow and which payload length a draw gives, and what the flows look like. `mixed` is the rule
that docs/FORMATS.md states for made captures; the others are for the race.
"""
import struct

WORD = (1 << 64) - 1
SNAP_LENGTH = 262144
TWO_BYTES = [number.to_bytes(2, "big") for number in range(1 << 16)]
LONGEST_PAYLOAD = 18 + 16 * 63
PAYLOADS = [bytes([number]) * LONGEST_PAYLOAD for number in range(256)]
# How many frames are put together before they are written.
PORTION = 4096


def draws(seed, count):
    """The draw of each frame: the upper half of its state."""
    state = seed
    for _ in range(count):
        state = (state * 6364136223846793005 + 1442695040888963407) & WORD
        yield state >> 32


def folded(total):
    """The Internet checksum of 16-bit words with this sum."""
    total = (total & 0xFFFF) + (total >> 16)
    total = (total & 0xFFFF) + (total >> 16)
    return ~total & 0xFFFF


class Shape:
    """What the frames of one flow and payload length have in common."""

    def __init__(self, source, ports, payload):
        length = 28 + payload
        ethernet = bytes.fromhex("020000000001 020000000002 0800")
        # up to the identification, which is the frame's own, as is the checksum
        start = struct.pack(">HH", 0x4500, length)
        middle = struct.pack(">HH", 0, 0x4011)
        addresses = bytes([10, 0, *source.to_bytes(2, "big"), 10, 1, 0, 1])
        udp = struct.pack(">HHHH", *ports, 8 + payload, 0)
        self.payload = payload
        self.frame_length = 14 + length
        self.front = ethernet + start
        self.middle = middle
        self.back = addresses + udp
        self.words = sum(struct.unpack(">8H", start + middle + addresses))


class Recipe:
    """`flow` and `payload` take a draw; `ports` takes a flow's number and gives its two ports."""

    def __init__(self, flow, payload, ports):
        self.flow, self.payload, self.ports = flow, payload, ports
        self.shapes = {}

    def shape(self, draw):
        flow, payload = self.flow(draw), self.payload(draw)
        found = self.shapes.get((flow, payload))
        if found is None:
            found = self.shapes[flow, payload] = Shape(flow, self.ports(flow), payload)
        return found


def mixed_payload(draw):
    return 18 + 16 * (draw // 16 % 64)


RECIPES = {
    "mixed": lambda: Recipe(lambda draw: draw % 16, mixed_payload, lambda flow: (10000 + flow, 9)),
    "short": lambda: Recipe(lambda draw: draw % 16, lambda draw: 18, lambda flow: (10000 + flow, 9)),
    # 1,000 flows to 256 ports, so that each of 256 rules takes some four of them
    "flows": lambda: Recipe(lambda draw: (draw >> 10) % 1000, mixed_payload, lambda flow: (10000 + flow, 2000 + flow % 256)),
}


def header(micros):
    magic = 0xA1B2C3D4 if micros else 0xA1B23C4D
    return struct.pack("<IHHIIII", magic, 2, 4, 0, 0, SNAP_LENGTH, 1)


def portions(recipe, seed, count, micros):
    """The capture's bytes, some thousand frames at a time."""
    yield header(micros)
    record_head = struct.Struct("<IIII").pack
    scale = 1 if micros else 1000
    parts = []
    for index, draw in enumerate(draws(seed, count)):
        number = index + 1
        shape = recipe.shape(draw)
        identification = number & 0xFFFF
        parts += (
            record_head(index // 1000000, index % 1000000 * scale, shape.frame_length, shape.frame_length),
            shape.front,
            TWO_BYTES[identification],
            shape.middle,
            TWO_BYTES[folded(shape.words + identification)],
            shape.back,
            PAYLOADS[number & 255][: shape.payload],
        )
        if number % PORTION == 0:
            yield b"".join(parts)
            parts = []
    yield b"".join(parts)


def write_capture(path, name, seed, count, micros):
    """Writes a capture of the recipe of this name."""
    recipe = RECIPES[name]()
    with open(path, "wb") as file:
        for portion in portions(recipe, seed, count, micros):
            file.write(portion)
