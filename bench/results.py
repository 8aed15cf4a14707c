"""What the runs of a race say: a table for each case, whether each target is met, and all figures for a file."""
import statistics

import programs

MIB = 1 << 20
BASES = ("c-keep-all", "c-copy")
OWN = ("serial", "threads")


def seconds(race, name):
    return [run.seconds for run in race.runs[name]]


def speed(race, name, base):
    """How many times as fast as the base a program is: the median over the rounds. None where one is not there."""
    if name not in race.runs or base not in race.runs:
        return None
    return statistics.median(other / own for own, other in zip(seconds(race, name), seconds(race, base)))


def peak(race, name):
    return max(run.peak for run in race.runs[name])


def cost(race, name):
    """Nanoseconds for a frame, in the median run."""
    return statistics.median(seconds(race, name)) / max(race.case.frames, 1) * 1e9


def came_out(race, program):
    """What is said of what came out."""
    if program.name in race.wrongs:
        return f"WRONG: {race.wrongs[program.name]}"
    return "as many bytes" if program.due == "size" else "all"


def line(race, program):
    times = seconds(race, program.name)
    ratios = [speed(race, program.name, base) for base in BASES]
    cells = [program.name, f"{statistics.median(times) * 1000:.0f}", f"{min(times) * 1000:.0f}"]
    cells.append(f"{cost(race, program.name):.0f}" if race.case.frames else "")
    cells += ["" if ratio is None else f"{ratio:.2f}" for ratio in ratios]
    cells += [f"{peak(race, program.name) / programs.due_bytes(race.case):.2f}" if race.case.frames else ""]
    cells += [came_out(race, program)]
    return f"| {' | '.join(cells)} |"


def table(race):
    """The fastest first, by the median."""
    rows = [
        f"**{race.case.title}** (`{race.case.name}`): {race.case.frames:,} frames, {programs.due_bytes(race.case):,} bytes",
        "",
        "| Program | median ms | least ms | ns a frame | x c-keep-all | x c-copy | peak / emitted | came out |",
        "|---|---|---|---|---|---|---|---|",
    ]
    ordered = sorted(race.programs, key=lambda program: statistics.median(seconds(race, program.name)))
    return "\n".join(rows + [line(race, program) for program in ordered]) + "\n"


def tables(races):
    return "\n".join(table(race) for race in races)


class Verdicts:
    """Lines that say of each target what this run showed. What wasn't run isn't judged."""

    def __init__(self, races, processors):
        self.by_name = {race.case.name: race for race in races}
        self.processors = processors
        self.lines = []

    def judge(self, target, value, met):
        """`value` is the figure as text, `met` a truth, or None where it can't be judged."""
        said = {True: "met", False: "NOT MET", None: "not judged"}[met]
        self.lines.append(f"| {target} | {value} | {said} |")

    def at_least(self, target, case, name, base, least):
        race = self.by_name.get(case)
        ratio = race and speed(race, name, base)
        wrong = ratio and (race.wrongs.get(name) or race.wrongs.get(base))
        if wrong:
            self.judge(target, f"{ratio:.2f}, but {wrong}", False)
        else:
            self.judge(target, f"{ratio:.2f}" if ratio else "", ratio >= least if ratio else None)

    def beside_others(self):
        for case, wanted in (("forward", (0.9, 1.1)), ("three", (0.75, 1.0)), ("cores", (0.75, 1.0))):
            for name, least in zip(OWN, wanted):
                self.at_least(f"{case}, {name}: at least {least} times as fast as c-keep-all", case, name, "c-keep-all", least)
        for other, least in (("editcap", 1.0), ("tcprewrite", 1.0), ("tcpdump", 0.9)):
            for name in OWN:
                self.at_least(f"forward, {name}: at least {least} times as fast as {other}", "forward", name, other, least)

    def within_forward(self):
        """The time of TTL and NAT over that of forward in the same round."""
        for case in ("ttl", "nat"):
            for name in OWN:
                target = f"{case}, {name}: at most 1.1 times the time of forward"
                if "forward" not in self.by_name or case not in self.by_name:
                    self.judge(target, "", None)
                    continue
                pairs = zip(seconds(self.by_name[case], name), seconds(self.by_name["forward"], name))
                ratio = statistics.median(own / forward for own, forward in pairs)
                self.judge(target, f"{ratio:.2f}", ratio <= 1.1)

    def short_frames(self):
        race = self.by_name.get("short")
        rate = race and 1e3 / cost(race, "serial")
        value = f"{rate:.2f} million a second" if rate else ""
        self.judge("short, serial: at least 2 million frames a second", value, rate >= 2 if rate else None)

    def growth(self):
        """The cost of a frame, less what a run without a frame takes, in each race of more and more frames."""
        grown = [race for name, race in self.by_name.items() if name.startswith("growth-") and race.case.frames]
        empty = self.by_name.get("growth-none")
        for name in OWN:
            target = f"growth, {name}: the dearest cost of a frame at most 1.1 times the cheapest"
            if not empty or len(grown) < 2:
                self.judge(target, "", None)
                continue
            start = statistics.median(seconds(empty, name))
            costs = [(statistics.median(seconds(race, name)) - start) / race.case.frames * 1e9 for race in grown]
            ratio = max(costs) / min(costs)
            value = f"{ratio:.2f}: {', '.join(f'{one:.0f}' for one in costs)} ns; a run without a frame {start * 1000:.1f} ms"
            self.judge(target, value, ratio <= 1.1)

    def memory(self):
        """What each run of ours takes beyond 1.5 times what it emits."""
        for name in OWN:
            over = {race.case.name: peak(race, name) - 1.5 * programs.due_bytes(race.case) for race in self.by_name.values() if race.case.frames}
            worst = max(over, key=over.get)
            race = self.by_name[worst]
            value = f"worst in {worst}: {peak(race, name) / MIB:.0f} MiB for {programs.due_bytes(race.case) / MIB:.0f} MiB"
            target = f"every case, {name}: peak memory at most 1.5 times what is emitted and 64 MiB"
            self.judge(target, value, over[worst] <= 64 * MIB)

    def threads(self):
        """Threads beside --serial: on 4 processors for a chain of three, on 2 for every case."""
        for case in ("three", "cores"):
            target = f"{case}, on 4 processors: threads at least 1.15 times as fast as serial"
            if self.processors == 4:
                self.at_least(target, case, "threads", "serial", 1.15)
            else:
                self.judge(target, "", None)
        ratios = {name: speed(race, "threads", "serial") for name, race in self.by_name.items() if race.case.frames}
        worst = min(ratios, key=ratios.get, default=None)
        value = f"worst in {worst}: {ratios[worst]:.2f}" if worst else ""
        met = ratios[worst] >= 0.9 if worst and self.processors == 2 else None
        self.judge("every case, on 2 processors: threads at least 0.9 times as fast as serial", value, met)


def verdicts(races, processors):
    told = Verdicts(races, processors)
    told.beside_others()
    told.within_forward()
    told.short_frames()
    told.growth()
    told.memory()
    told.threads()
    return "\n".join(["| Target | In this run | |", "|---|---|---|"] + told.lines)


def figures(races, words):
    """Each run of each program, for whoever wants to reckon otherwise."""
    cases = {}
    for race in races:
        runs = {name: [vars(run) for run in done] for name, done in race.runs.items()}
        due = programs.due_bytes(race.case)
        cases[race.case.name] = {"frames": race.case.frames, "due": due, "plan": race.case.plan, "runs": runs, "wrong": race.wrongs}
    return {"processors": words.processors, "rounds": words.rounds, "keys": words.keys, "cases": cases}
