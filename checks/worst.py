"""The worst inputs: each the largest of its kind that is read, or what costs most for its size, replayed with --serial and without.
Each has to end with its status and its line, account for every frame, and keep the bounds on time and memory that
docs/LIMITS.md states: no more memory than is stated there, and no more than twice the time.

worst.py ROOM [--table] [NAME..]: the cases of these names, or all. With --table it prints what was measured as the rows of
that page, and judges all but the bounds.
"""
import json
import os
import re
import struct
import sys

from runs import OUTCOMES, Run, Tally, remove, write

FRAMES = 262144
GREATEST = 268435456
# A case that takes longer than this is not waited for.
SECONDS = 900
MODES = (("serial", ["--serial"]), ("beside each other", []))
HEADER = struct.pack("<IHHIIII", 0xA1B23C4D, 2, 4, 0, 0, 262144, 1)


class Case:
    """One input: a chain file's bytes or plan, captures, and how a run of it has to end."""

    def __init__(self, name, plan, captures, frames=0, status=0, line="", options=(), emits=None):
        self.name, self.plan, self.captures, self.frames = name, plan, captures, frames
        self.status, self.line, self.options, self.emits = status, line, list(options), emits


# Plans.


def function(number, kind, core=0, **keys):
    return {"name": f"f{number}", "service": number, "core": core, "kind": kind, **keys}


def plan(functions, steps=None, rules=(), **top):
    """A plan with one chain, through all functions or through these services, and out of port 0."""
    steps = [item["service"] for item in functions][:15] if steps is None else steps
    chain = {"name": "a", "steps": [{"to": service} for service in steps] + [{"out": 0}]}
    return {"version": 1, "ports": 1, **top, "functions": functions, "chains": [chain], "rules": list(rules), "default": "a"}


FORWARD = plan([function(1, "forward")])
FOUR_PORTS = {**FORWARD, "ports": 4}
# No frame here has this source port, so each of these tests is made and none holds.
MISS = {"type": 2048, "src": "0.0.0.0/0", "dst": "10.0.0.0/8", "protocol": 17, "src_ports": [65535, 65535], "dst_ports": [0, 65535]}
SMALLEST = {"ports": 4, "cores": 8, "transmit": 4, "buffers": 1, "ring": 2, "output": 2, "high": 2, "low": 1, "burst": 1, "age": 0}


def loop(cores):
    """32 functions of which each sends to the next, and the last to the first."""
    return [function(number, "to", number % cores, to_service=number % 32 + 1) for number in range(1, 33)]


def filters(cores):
    return [function(number, "filter", number % cores, match=[MISS] * 64) for number in range(1, 16)]


def routes(cores):
    """15 functions whose table has 255 prefixes that no frame here has as its target, and one that every frame has."""
    miss = [{"prefix": f"10.2.{number}.0/24", "to": 99} for number in range(255)]
    ends = [{"prefix": "0.0.0.0/0", "to": number} for number in range(2, 16)] + [{"prefix": "0.0.0.0/0", "out": 0}]
    return [function(number + 1, "route", number % cores, table=miss + [end]) for number, end in enumerate(ends)]


def largest_plan():
    """As many of everything as a plan may have, with the longest names."""
    long = [f"{number:a>32}" for number in range(64)]
    functions = [{**function(number, "filter", number % 8, match=[MISS] * 64), "name": long[number - 1]} for number in range(1, 33)]
    chains = [{"name": name, "steps": [{"to": number % 32 + 1} for number in range(15)] + [{"out": 0}]} for name in long]
    rules = [{"chain": name, "match": MISS} for name in long * 4]
    return {"version": 1, "ports": 4, "cores": 8, "transmit": 4, "functions": functions, "chains": chains, "rules": rules,
            "default": long[63]}


# Chain files that are no plan, each as large as one may be, or with as many brackets.


def padded(text, size=1 << 20, filler=b" "):
    return text + filler * (size - len(text))


def many_keys():
    """An object of as many keys as have room, all different."""
    keys = b",".join(b'"%05x":0' % number for number in range((1 << 20) // 10 - 1))
    return b"{" + keys + b"}"


def nested(opening, closing, inner):
    return opening * 32768 + inner + closing * 32768


# Captures.


class Captures:
    """Makes captures in a folder as they are asked for, each once."""

    def __init__(self, room):
        self.room = room

    def made(self, name, pieces):
        path = os.path.join(self.room, name)
        if not os.path.exists(path):
            with open(path, "wb") as file:
                file.write(HEADER)
                file.writelines(pieces)
        return path

    def of_length(self, length):
        """Frames of this length, so many that they pass neither limit by one byte or frame."""
        count = min(FRAMES, GREATEST // length)
        body = ethernet_frame(0, length)
        head = struct.pack("<II", length, length)
        return self.made(f"length{length}", (struct.pack("<II", 1, number) + head + body for number in range(count)))

    def of_flows(self):
        """As many flows as frames: sources 10.0.0.0 to 10.3.255.255, 60 bytes each."""
        head = struct.pack("<II", 60, 60)
        return self.made("flows", (struct.pack("<II", 1, number) + head + ethernet_frame(number, 60) for number in range(FRAMES)))

    def empty(self):
        return self.made("empty", (struct.pack("<IIII", 1, number, 0, 0) for number in range(FRAMES)))


def ethernet_frame(flow, length):
    """UDP over IPv4 from 10.0.0.0 + flow, filled up with zeros."""
    addresses = struct.pack(">II", 0x0A000000 + flow, 0x0A010001)
    front = bytes.fromhex("0200000000010200000000020800") + struct.pack(">HHHHHH", 0x4500, min(length - 14, 65535), 0, 0, 0x4011, 0)
    return (front + addresses + struct.pack(">HHHH", 1000 + flow % 60000, 9, min(length - 34, 65535), 0)).ljust(length, b"\0")


def chain_file_cases():
    """Chain files: the largest, and those that cost most to read."""
    one = ["gen:7:1"]
    white = padded(json.dumps(FORWARD).encode())
    shape = {"status": 3, "line": "fault plan shape top\n"}
    no_json = {"status": 3, "line": "fault plan json file\n"}
    keys = {"status": 3, "line": "fault plan shape top\n"}
    return [
        Case("a chain file of 1 MiB, most of it white space", white, one, 1),
        Case("a plan with as many of everything as there may be", largest_plan(), one, 1),
        Case("32,768 lists in each other", nested(b"[", b"]", b""), one, **no_json),
        Case("32,768 objects in each other", nested(b'{"a":', b"}", b"1"), one, **no_json),
        Case("32,768 lists that no bracket closes", b"[" * 32768, one, **no_json),
        Case("an object of 104,856 keys", many_keys(), one, **keys),
        Case("a text of 1 MiB", b'"' + b"\\u0041" * 174762 + b'"', one, **shape),
        Case("a number of 1 MiB", b"1" * (1 << 20), one, **no_json),
    ]


def frame_cases(captures):
    """As many frames, flows and bytes as are read."""
    flows, thin, wide, empty = captures.of_flows(), captures.of_length(1024), captures.of_length(262144), captures.empty()
    rules = [{"chain": "a", "match": MISS}] * 256
    made = [f"gen:{(1 << 64) - 1 - port}:{FRAMES}" for port in range(4)]
    nat = plan([function(1, "nat", inside="10.0.0.0/8", outside="192.0.2.1", ports=[1, 65535])])
    tags = plan([function(number, "tag", number % 8, vlan=1, tag_priority=0) for number in range(1, 16)], cores=8)
    all_ports = {"frames": 4 * FRAMES}
    return [
        Case("256 rules against 262,144 flows", plan([function(1, "forward")], rules=rules), [flows], FRAMES),
        Case("262,144 senders for 65,535 ports of NAT", nat, [flows], FRAMES),
        Case("a chain of 15 filters of 64 tests", plan(filters(8), cores=8), [flows], FRAMES),
        Case("a chain of 15 routes of 256 prefixes", plan(routes(8), cores=8), [flows], FRAMES),
        Case("32 functions in a loop of 32 hops, one core", plan(loop(1), steps=[1]), [flows], FRAMES),
        Case("32 functions in a loop of 32 hops, eight cores", plan(loop(8), steps=[1], cores=8), [flows], FRAMES),
        Case("15 tags on 1,024 frames of 262,144 bytes", tags, [wide], 1024),
        Case("`gen:` at its limits on four ports", FOUR_PORTS, made, **all_ports),
        Case("four captures of 262,144 frames without a byte", FOUR_PORTS, [empty] * 4, **all_ports),
        Case("four captures of 262,144 frames of 1,024 bytes", FOUR_PORTS, [thin] * 4, emits=4 * FRAMES * 1040, **all_ports),
        Case("four captures of 1,024 frames of 262,144 bytes", FOUR_PORTS, [wide] * 4, 4096, emits=4096 * 262160),
    ]


def small_ring_cases():
    """Rings and bursts of the smallest size, and reports of the largest."""
    eight = [function(number, "forward", number - 1) for number in range(1, 9)]
    thirty_two = [function(number, "forward", number % 8) for number in range(1, 33)]
    # Where one frame at a time is on its way, each takes milliseconds.
    one, few, four = [f"gen:7:{FRAMES}"], 4 * 1024, [f"gen:{port}:1024" for port in range(4)]
    logs = ["--records", "--throttle-log", "--shares"]
    return [
        Case("burst of 1", plan([function(1, "forward")], burst=1), one, FRAMES),
        Case("rings, buffers and burst of the smallest size", plan(eight, **SMALLEST), four, few),
        Case("the same through a loop of 32 hops", plan(loop(8), steps=[1], **SMALLEST), four, few),
        Case("every line of a report, small rings", plan(eight, **SMALLEST), four, few, options=logs),
        Case("a tick in each round of 32 functions", plan(thirty_two, cores=8, burst=8, tick=1000), one, FRAMES, options=["--shares"]),
    ]


def is_accounted(ended, case):
    """Whether the outcomes of the report add up to the frames."""
    counts = ended.counts()
    return counts.get("frames") == case.frames and sum(counts.get(word, 0) for word in OUTCOMES[1:]) == case.frames


def is_emitted(out, sent, case):
    """Where a size is stated: whether OUT has it, or with lost frames no more."""
    if case.emits is None:
        return True
    size = os.path.getsize(out)
    return size - 24 == case.emits // case.frames * sent


def replay(case, options, room):
    """A run of a case. What it emits goes to a file only where its size is looked at."""
    chain = case.plan if isinstance(case.plan, bytes) else json.dumps(case.plan).encode()
    path = write(os.path.join(room, "worst.json"), chain)
    out = os.path.join(room, "out.pcap") if case.emits else "/dev/null"
    ended = Run([*options, *case.options, path, out, *case.captures], room, command=["./onvm"]).end(SECONDS)
    if case.status:
        well = ended.status == case.status and ended.said == case.line
    else:
        well = ended.status == 0 and is_accounted(ended, case) and is_emitted(out, ended.counts()["sent"], case)
    if case.emits:
        remove(out)
    return ended, well and ended.complaint == ""


def bounds():
    """The bounds of docs/LIMITS.md by case and mode: seconds and MiB."""
    stated = {}
    with open("docs/LIMITS.md", encoding="utf-8") as file:
        for line in file:
            cells = [cell.strip() for cell in line.strip().strip("|").split("|")]
            if len(cells) == 6 and re.fullmatch(r"[\d.]+", cells[1]):
                stated[cells[0]] = {"serial": (float(cells[1]), int(cells[2])), "beside each other": (float(cells[3]), int(cells[4]))}
    return stated


def told(ended, case):
    """What became of the frames, in a few words."""
    counts = ended.counts()
    if case.status:
        return f"status {ended.status}"
    return f"{counts.get('sent', 0):,} sent" + "".join(
        f", {counts[word]:,} {word}" for word in OUTCOMES[2:] if counts.get(word))


def judge(tally, case, mode, ended, well, stated):
    """One check of a run: it ends as it should, within the bounds."""
    seconds, memory = stated.get(case.name, {}).get(mode, (0, 0)) if stated is not None else (SECONDS, 1 << 20)
    peak = ended.peak / 1024
    measured = f"{ended.seconds:.2f} s and {peak:.0f} MiB, where {seconds} s and {memory} MiB are stated"
    tally.judge(f"{case.name}, {mode}", well and ended.seconds <= 2 * seconds and peak <= memory,
                f"status {ended.status}, {measured}; {ended.said[:300]!r}")


def main(words):
    room, table = words[0], "--table" in words
    names = [word for word in words[1:] if word != "--table"]
    tally = Tally("worst")
    stated = None if table else bounds()
    cases = [*chain_file_cases(), *frame_cases(Captures(room)), *small_ring_cases()]
    for case in cases:
        if names and case.name not in names:
            continue
        cells = []
        for mode, options in MODES:
            ended, well = replay(case, options, room)
            judge(tally, case, mode, ended, well, stated)
            cells += [f"{ended.seconds:.2f}", f"{ended.peak / 1024:.0f}"]
            print(f"worst: {case.name}, {mode}: {told(ended, case)}, {cells[-2]} s, {cells[-1]} MiB", file=sys.stderr, flush=True)
        if table:
            print(f"| {case.name} | {' | '.join(cells)} | {told(ended, case)} |", flush=True)
    return tally.end()


if __name__ == "__main__":
    sys.exit(main(sys.argv[1:]))
