"""The report of a run, line by line (docs/FORMATS.md, "The report")."""

OUTCOMES = ("sent", "asked", "chain-end", "no-service", "no-port", "hops", "throttled", "ring-full", "pool-empty")


def outcome_of(frame):
    words = frame.outcome.split()
    return words[2] if words[0] == "dropped" else words[0]


def summary(run):
    frames = [frame for frames in run.frames for frame in frames]
    found = [outcome_of(frame) for frame in frames]
    yield f"frames {len(frames)}"
    yield from (f"{outcome} {found.count(outcome)}" for outcome in OUTCOMES)
    yield f"posts {sum(len(feeder.posts) for feeder in run.feeders)}"
    yield f"ticks {len(run.ticks)}"
    # the tick role empties each mail ring in each round, so that no sample is lost
    yield "lost 0"
    yield f"yields {run.yields}"


def records(run):
    for frames in run.frames:
        yield from (f"record {frame.port} {frame.number} {frame.outcome}" for frame in frames)


def posts(run):
    for feeder in run.feeders:
        for number, (moment, held) in enumerate(feeder.posts, 1):
            names = ",".join(run.functions[f].name for f in held) or "-"
            yield f"post {feeder.number} {number} {moment} {names}"


def shares(run):
    for number, (moment, lines) in enumerate(run.ticks, 1):
        yield f"tick {number} {moment}"
        for name, arrivals, median, priority, share, weight in lines:
            told = "-" if median is None else median
            fraction = "-" if share is None else f"{share[0]}/{share[1]}"
            yield f"share {name} {arrivals} {told} {priority} {fraction} {weight}"


def report(run, options):
    yield from summary(run)
    for option, lines in (("--records", records), ("--throttle-log", posts), ("--shares", shares)):
        if option in options:
            yield from lines(run)
