"""The cases of the race: which plan, which captures, and which programs do the same work.

A case is what all its programs have to do with the same captures. `works` is that work for the C programs of
baselines/, `others` the commands of programs that somebody may have installed.
"""
import json
import os
import sys

import captures

ADDRESSES = {"target": "020000000003", "source": "020000000004"}
NAT = {"inside": "10.0.0.0/8", "outside": "192.0.2.1", "ports": [40000, 65535]}
KEYS = {"macs": ADDRESSES, "nat": NAT, "out": {"port": 0}}
MOST = 262144
SEED = 7


def plan(kinds, cores=1, ports=1, **more):
    """A chain through one function of each kind, dealt out to the cores in turn, and out of port 0."""
    functions = [
        {"name": f"f{index}", "service": index + 1, "core": index % cores, "kind": kind, **KEYS.get(kind, {})}
        for index, kind in enumerate(kinds)
    ]
    steps = [{"to": function["service"]} for function in functions]
    if kinds[-1] != "out":
        steps.append({"out": 0})
    text = {"version": 1, "ports": ports, "cores": cores, "functions": functions, "default": "all"}
    return {**text, "chains": [{"name": "all", "steps": steps}], **more}


def rules():
    """256 rules, each for one of the ports to which the recipe `flows` sends, to two chains in turn."""
    text = plan(["forward"])
    steps = text["chains"][0]["steps"]
    matches = [{"protocol": 17, "dst_ports": [2000 + index, 2000 + index]} for index in range(256)]
    text["rules"] = [{"chain": ("even", "odd")[index % 2], "match": match} for index, match in enumerate(matches)]
    text["chains"] += [{"name": "even", "steps": steps}, {"name": "odd", "steps": steps}]
    return text


def tcpdump(read, written):
    return ["tcpdump", "-q", "-r", read, "-w", written]


def editcap(read, written):
    return ["editcap", "-F", "pcap", read, written]


def tcprewrite(*options):
    return lambda read, written: ["tcprewrite", *options, "-i", read, "-o", written]


WRITERS = {"tcpdump": tcpdump, "editcap": editcap, "tcprewrite": tcprewrite()}
TTL = ["--ttl=-1", "--fixcsum"]
MACS = ["--enet-dmac=02:00:00:00:00:03", "--enet-smac=02:00:00:00:00:04"]


class Case:
    """`captured` is a recipe and, for each port, a seed and how many frames are made."""

    def __init__(self, name, title, text, works, captured, others=None, copies=False, plain=False):
        self.name, self.title, self.plan, self.works = name, title, text, works
        self.recipe, self.made = captured
        self.frames = sum(count for _, count in self.made)
        self.others = others or {}
        # whether the capture may be copied as it is; whether the program runs without the script, too
        self.copies, self.plain = copies, plain

    def captures(self):
        return [captures.capture(self.recipe, seed, count) for seed, count in self.made]


def one_port(recipe, count):
    return recipe, [(SEED, count)]


def growth(count):
    """Four ports, so that more frames than one capture may have are read by one and the same plan."""
    name = f"growth-{count}" if count else "growth-none"
    title = f"Growth: {count:,} frames, of four ports" if count else "Growth: four captures without a frame"
    made = [(SEED + port, count // 4) for port in range(4)]
    return Case(name, title, plan(["forward"], ports=4), "forward", ("mixed", made))


def all_cases(most=MOST):
    """Every case, with at most so many frames for each port."""
    mixed = one_port("mixed", most)
    three, three_others = ["ttl", "forward", "macs"], {"tcprewrite": tcprewrite(*TTL, *MACS)}
    sixteen = ["forward"] * 15 + ["out"]
    counts = [0] + [count for count in (16384, 65536, 262144, 4 * MOST) if count <= 4 * most]
    nat = {"tcprewrite": tcprewrite("--pnat=10.0.0.0/8:192.0.2.1/32")}
    return [
        Case("forward", "Forward, a chain of one", plan(["forward"]), "forward", mixed, WRITERS, copies=True, plain=True),
        Case("ttl", "TTL", plan(["ttl"]), "ttl", mixed, {"tcprewrite": tcprewrite(*TTL)}),
        Case("nat", "NAT", plan(["nat"]), "nat", mixed, nat),
        Case("three", "A chain of three on one core", plan(three), ",".join(three), mixed, three_others, plain=True),
        Case("cores", "A chain of three, each on a core of its own", plan(three, cores=3), ",".join(three), mixed, three_others),
        Case("sixteen", "A chain of sixteen on one core", plan(sixteen), ",".join(["forward"] * 16), mixed),
        Case("rules", "256 rules and 1,000 flows", rules(), "forward", one_port("flows", most)),
        Case("short", "Frames of 60 bytes", plan(["forward"]), "forward", one_port("short", most), WRITERS, copies=True),
        *[growth(count) for count in counts],
    ]


def main(words):
    """Writes the plan of a case into a folder, and says its path and those of the captures: for bench/profile.sh."""
    case = next((case for case in all_cases() if case.name == words[0]), None)
    if case is None:
        sys.exit(f"no such case: {words[0]}; there are {', '.join(case.name for case in all_cases())}")
    path = os.path.join(words[1], f"{case.name}.json")
    with open(path, "w") as file:
        json.dump(case.plan, file)
    print(path, *case.captures())


if __name__ == "__main__":
    main(sys.argv[1:])
