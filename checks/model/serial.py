"""A serial run: rounds, in each of which every role makes a pass, over lists instead of a board of words.

A round's moment is 1,000 times its number. In it come the receive roles by port, the cores, the transmit roles and
the tick role. The run is over at the end of the round in which each capture was found at its end and each frame has
its outcome; then the tick role makes one closing tick.
"""
from collections import deque

from functions import KINDS
from packets import heads_of, holds

DEFAULTS = {"transmit": 1, "cores": 1, "buffers": 1024, "ring": 128, "burst": 32, "age": 100000,
            "window": 100000000, "tick": 10000000, "rules": []}
WINDOW_SAMPLES, MOST_HOPS = 1024, 32


def filled(chain_file):
    """The chain file with its defaults."""
    plan = {**DEFAULTS, **chain_file}
    plan.setdefault("output", plan["ring"])
    plan.setdefault("high", plan["ring"] - plan["ring"] // 4)
    plan.setdefault("low", max(plan["ring"] // 4, 1))
    return plan


class Frame:
    def __init__(self, port, number, stamp, data):
        self.port, self.number, self.stamp, self.data = port, number, stamp, data
        self.heads = heads_of(data)
        self.cursor = self.hops = 0
        self.verdict = self.outcome = None


class Feeder:
    """A receive or transmit role's lanes, one for each function, and what it holds back."""

    def __init__(self, number, functions):
        self.number = number
        self.lanes = [deque() for _ in range(functions)]
        # the moment of each push
        self.pushes = [[] for _ in range(functions)]
        self.marks = ["calm"] * functions
        self.held, self.posts = [], []


class Function:
    def __init__(self, keys, lanes):
        self.act = KINDS[keys["kind"]](keys)
        self.name, self.core = keys["name"], keys["core"]
        self.cost, self.priority = keys.get("cost", 100), keys.get("priority", 1)
        self.weight = keys.get("weight", 1024)
        self.lanes, self.next, self.output = lanes, 0, deque()
        self.mail, self.samples = [], []


class Run:
    def __init__(self, chain_file, feeds):
        self.plan = plan = filled(chain_file)
        self.feeders = [Feeder(n, len(plan["functions"])) for n in range(plan["ports"] + plan["transmit"])]
        self.functions = [Function(keys, self.lanes_of(f)) for f, keys in enumerate(plan["functions"])]
        self.services = {keys["service"]: f for f, keys in enumerate(plan["functions"])}
        self.chains = {chain["name"]: chain["steps"] for chain in plan["chains"]}
        self.masks = {name: self.mask(steps) for name, steps in self.chains.items()}
        self.feeds = [iter(feed) for feed in feeds]
        self.frames = [[] for _ in feeds]
        self.free = [plan["buffers"]] * plan["ports"]
        self.ticks, self.last_tick = [], 0
        self.yields = self.ended = 0
        self.moment = -1000
        self.go()

    def lanes_of(self, f):
        return [feeder.lanes[f] for feeder in self.feeders]

    def mask(self, steps):
        """The functions that a chain names, in file order."""
        return sorted(self.services[step["to"]] for step in steps if "to" in step)

    def go(self):
        over = False
        while not over:
            self.moment += 1000
            at_end = [self.receive(port) for port in range(len(self.feeds))]
            for core in range(self.plan["cores"]):
                self.serve(core)
            for role in range(self.plan["transmit"]):
                self.transmit(role)
            self.take_samples()
            over = all(at_end) and self.ended == sum(map(len, self.frames))
        self.make_tick()

    # Receive roles

    def receive(self, port):
        """One pass. Answers whether the capture was found at its end."""
        feeder, burst = self.feeders[port], self.plan["burst"]
        self.read_marks(feeder)
        for _ in range(burst):
            item = next(self.feeds[port], None)
            if item is None:
                return True
            frame = Frame(port, len(self.frames[port]) + 1, *item)
            self.frames[port].append(frame)
            self.admit(feeder, frame)
        return False

    def admit(self, feeder, frame):
        rules = (rule["chain"] for rule in self.plan["rules"] if holds(rule["match"], frame.port, frame.heads))
        frame.chain = next(rules, self.plan["default"])
        for other in self.feeders:
            held = [f for f in self.masks[frame.chain] if f in other.held]
            if held:
                self.end(frame, f"throttled {other.number} {len(other.posts)} {self.functions[held[0]].name}")
                return
        if self.free[frame.port] == 0:
            self.end(frame, "pool-empty")
            return
        self.free[frame.port] -= 1
        self.go_on(feeder, frame, self.step_to(frame), None)

    # Marks

    def read_marks(self, feeder):
        """A marks pass: a reading of each lane, and a post where other functions are held back than before."""
        plan = self.plan
        for f, lane in enumerate(feeder.lanes):
            high, low = len(lane) >= plan["high"], len(lane) >= plan["low"]
            age = self.moment - feeder.pushes[f][-plan["high"]] if high else 0
            if not low:
                feeder.marks[f] = "calm"
            elif high and age >= plan["age"]:
                feeder.marks[f] = "throttle"
            elif high and feeder.marks[f] == "calm":
                feeder.marks[f] = "watch"
        held = [f for f, mark in enumerate(feeder.marks) if mark == "throttle"]
        if held != feeder.held:
            feeder.held = held
            feeder.posts.append((self.moment, held))

    # Cores

    def serve(self, core):
        here = [function for function in self.functions if function.core == core]
        counts = [self.serve_one(function) for function in here]
        for function, count in zip(here, counts):
            if count > 0:
                function.mail.append((count, function.cost))

    def serve_one(self, function):
        """The function's turns, up to its budget. Answers how many frames it handled."""
        budget = min(max(self.plan["burst"] * function.weight // 1024, 1), 1024)
        for handled in range(budget):
            if len(function.output) >= self.plan["output"]:
                self.yields += 1
                return handled
            frame = self.next_frame(function)
            if frame is None:
                return handled
            frame.verdict, frame.data = function.act(frame.data, frame.stamp, frame.port)
            frame.hops += 1
            function.output.append(frame)
        return budget

    def next_frame(self, function):
        """Tries the lanes in turn, each once, from behind the one that was tried last."""
        for _ in function.lanes:
            lane = function.lanes[function.next]
            function.next = (function.next + 1) % len(function.lanes)
            if lane:
                return lane.popleft()
        return None

    # Moves

    def transmit(self, role):
        feeder = self.feeders[self.plan["ports"] + role]
        self.read_marks(feeder)
        for f in range(role, len(self.functions), self.plan["transmit"]):
            function = self.functions[f]
            for _ in range(min(self.plan["burst"], len(function.output))):
                frame = function.output.popleft()
                self.go_on(feeder, frame, self.move(frame), function.name)

    def step_to(self, frame):
        """Where the step at the frame's cursor sends it."""
        steps = self.chains[frame.chain]
        if frame.cursor >= len(steps):
            return "end", "chain-end"
        step = steps[frame.cursor]
        return self.to_service(frame, step["to"]) if "to" in step else ("leave", step["out"])

    def to_service(self, frame, service):
        if service not in self.services:
            return "end", "no-service"
        return ("end", "hops") if frame.hops >= MOST_HOPS else ("go", self.services[service])

    def move(self, frame):
        """Where the verdict of its last function sends a frame."""
        what, *rest = frame.verdict
        if what == "drop":
            return "end", "asked"
        if what == "to":
            return self.to_service(frame, rest[0])
        if what == "out":
            return ("leave", rest[0]) if rest[0] < self.plan["ports"] else ("end", "no-port")
        frame.cursor += 1
        return self.step_to(frame)

    def go_on(self, feeder, frame, move, name):
        what, where = move
        if what == "go":
            self.push(feeder, frame, where)
            return
        self.free[frame.port] += 1
        self.end(frame, f"sent {where}" if what == "leave" else f"dropped {name} {where}")

    def push(self, feeder, frame, f):
        if len(feeder.lanes[f]) >= self.plan["ring"]:
            self.free[frame.port] += 1
            self.end(frame, f"ring-full {self.functions[f].name} {feeder.number}")
            return
        feeder.lanes[f].append(frame)
        feeder.pushes[f].append(self.moment)

    def end(self, frame, outcome):
        frame.outcome = outcome
        self.ended += 1

    # Samples and ticks

    def take_samples(self):
        for function in self.functions:
            function.samples += [(self.moment, *sample) for sample in function.mail]
            function.mail = []
        if self.moment - self.last_tick >= self.plan["tick"]:
            self.make_tick()

    def make_tick(self):
        self.last_tick = self.moment
        loads = [self.load(function) for function in self.functions]
        lines = [self.share(f, loads) for f in range(len(self.functions))]
        self.ticks.append((self.moment, lines))

    def load(self, function):
        """Arrivals and median of the window."""
        young = [s for s in function.samples[-WINDOW_SAMPLES:] if self.moment - s[0] < self.plan["window"]]
        times = sorted(time for _, _, time in young)
        return sum(count for _, count, _ in young), times[(len(times) - 1) // 2] if times else None

    def share(self, f, loads):
        function = self.functions[f]
        values = [arrivals * (median or 0) for arrivals, median in loads]
        total = sum(v for v, other in zip(values, self.functions) if other.core == function.core)
        share = None
        if total > 0:
            share = function.priority * values[f], total
            function.weight = max(1024 * share[0] // total, 1)
        return (function.name, *loads[f], function.priority, share, function.weight)
