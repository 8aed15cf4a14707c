#!/usr/bin/env python3
"""Turns a report into tables (CSV) and pictures (SVG).

plot.py REPORT FOLDER

REPORT is a file with what onvm said with --records, --throttle-log or --shares, or all of them; - is standard input.
FOLDER is made where it isn't there. README.md beside this file says what comes into it.
"""
import csv
import os
import sys

sys.dont_write_bytecode = True

from picture import COLOURS, Axis, Picture  # noqa: E402

OUTCOMES = ("sent", "asked", "chain-end", "no-service", "no-port", "hops", "throttled", "ring-full", "pool-empty")
HEADS = {
    "summary": ("word", "number"),
    "records": ("port", "frame", "outcome", "function", "out_port", "feeder", "post"),
    "posts": ("feeder", "post", "moment_ns", "functions"),
    "shares": ("tick", "moment_ns", "function", "arrivals", "median_ns", "priority", "load", "core_load", "weight"),
}


def read(lines):
    """The report as tables: a list of rows for each name of HEADS, and the moments of all ticks."""
    tables = {name: [] for name in HEADS}
    tick = ()
    for line in lines:
        word, *rest = line.split()
        if word == "frames" and tables["summary"]:
            raise ValueError("there are several reports in one file")
        if word == "record":
            tables["records"].append(record_of(rest))
        elif word == "post":
            tables["posts"].append((*map(int, rest[:3]), "" if rest[3] == "-" else rest[3].replace(",", " ")))
        elif word == "tick":
            tick = int(rest[0]), int(rest[1])
        elif word == "share":
            tables["shares"].append((*tick, *share_of(rest)))
        else:
            tables["summary"].append((word, int(rest[0])))
    if not tables["summary"]:
        raise ValueError("it has no summary")
    return tables


def record_of(words):
    """A record's row. Columns that its outcome doesn't have are empty."""
    port, number, what, *rest = words
    columns = {
        "sent": lambda: ("sent", "", rest[0], "", ""),
        "dropped": lambda: (rest[1], rest[0], "", "", ""),
        "throttled": lambda: ("throttled", rest[2], "", rest[0], rest[1]),
        "ring-full": lambda: ("ring-full", rest[0], "", rest[1], ""),
        "pool-empty": lambda: ("pool-empty", "", "", "", ""),
    }
    return (int(port), int(number), *columns[what]())


def share_of(words):
    name, arrivals, median, priority, share, weight = words
    load, core_load = ("", "") if share == "-" else map(int, share.split("/"))
    return name, int(arrivals), "" if median == "-" else int(median), int(priority), load, core_load, int(weight)


def in_order(names):
    """Each name once, in the order in which they come first."""
    return list(dict.fromkeys(names))


def runs(numbers):
    """Numbers that follow one another, as pairs of the first and the last."""
    found = []
    for number in numbers:
        if found and found[-1][1] == number - 1:
            found[-1][1] = number
        else:
            found.append([number, number])
    return found


# The pictures


def draw_outcomes(rows):
    """A row for each port and cause, with a mark at each frame that had this outcome."""
    causes = [cause for cause in OUTCOMES if any(row[2] == cause for row in rows)]
    strips = [(port, cause) for port in in_order(row[0] for row in rows) for cause in causes]
    labels = [f"port {port}: {cause}" for port, cause in strips]
    counts = [sum(row[2] == cause for row in rows) for cause in causes]
    picture = Picture("Outcomes by frame", Axis("frame number", 0, max(row[1] for row in rows)), labels=labels)
    picture.legend((f"{cause} ({count})", COLOURS[OUTCOMES.index(cause)]) for cause, count in zip(causes, counts))
    for place, (port, cause) in enumerate(strips):
        for first, last in runs(row[1] for row in rows if (row[0], row[2]) == (port, cause)):
            # Frame N is drawn from N - 1 to N, so the last one ends where the axis does.
            picture.bar(place, first - 1, last, COLOURS[OUTCOMES.index(cause)])
    return picture.text()


def spans(posts, end):
    """From when to when each feeder held back each function: (feeder, function, from, to)."""
    since = {}
    for feeder, _, moment, names in posts:
        held = names.split()
        for key in [key for key in since if key[0] == feeder and key[1] not in held]:
            yield (*key, since.pop(key), moment)
        for name in held:
            since.setdefault((feeder, name), moment)
    for key, moment in since.items():
        yield (*key, moment, end)


def draw_posts(posts, end):
    """A row for each function and feeder, with a bar for as long as frames for it were held back."""
    end = max([end] + [post[2] for post in posts])
    found = list(spans(posts, end))
    strips = sorted(in_order((name, feeder) for feeder, name, _, _ in found))
    labels = [f"{name}, by feeder {feeder}" for name, feeder in strips]
    picture = Picture("Functions held back", Axis("moment (microseconds)", 0, end / 1000), labels=labels)
    feeders = sorted({feeder for _, feeder in strips})
    picture.legend((f"held back by feeder {feeder}", COLOURS[feeder % len(COLOURS)]) for feeder in feeders)
    for feeder, name, first, last in found:
        picture.bar(strips.index((name, feeder)), first / 1000, last / 1000, COLOURS[feeder % len(COLOURS)])
    return picture.text()


def draw_lines(title, unit, rows, value):
    """A line for each function over the moments of the ticks. A row without a value has no point."""
    names = in_order(row[2] for row in rows)
    found = {name: [(row[1] / 1000, value(row)) for row in rows if row[2] == name] for name in names}
    found = {name: [point for point in points if point[1] is not None] for name, points in found.items()}
    most = max([point[1] for points in found.values() for point in points], default=1)
    across = Axis("moment of the tick (microseconds)", 0, max(row[1] for row in rows) / 1000)
    picture = Picture(title, across, Axis(unit, 0, most))
    picture.legend((name, COLOURS[place % len(COLOURS)]) for place, name in enumerate(names))
    for place, name in enumerate(names):
        picture.line(found[name], COLOURS[place % len(COLOURS)], place)
    return picture.text()


def pictures(tables):
    if tables["records"]:
        yield "outcomes", draw_outcomes(tables["records"])
    shares = tables["shares"]
    if tables["posts"]:
        yield "posts", draw_posts(tables["posts"], max((row[1] for row in shares), default=0))
    if shares:
        fraction = lambda row: None if row[7] == "" else row[6] / row[7]  # noqa: E731
        yield "shares", draw_lines("Shares", "share of its core (1 is all of it)", shares, fraction)
        yield "weights", draw_lines("Weights", "weight (1,024 is a whole burst)", shares, lambda row: row[8])


def write(folder, tables):
    os.makedirs(folder, exist_ok=True)
    for name, rows in tables.items():
        if rows:
            with open(os.path.join(folder, name + ".csv"), "w", newline="", encoding="utf-8") as file:
                csv.writer(file, lineterminator="\n").writerows([HEADS[name], *rows])
    for name, text in pictures(tables):
        with open(os.path.join(folder, name + ".svg"), "w", encoding="utf-8") as file:
            file.write(text)


def main(words):
    if len(words) != 2:
        print("usage: plot.py REPORT FOLDER", file=sys.stderr)
        return 2
    try:
        if words[0] == "-":
            tables = read(sys.stdin)
        else:
            with open(words[0], encoding="utf-8") as file:
                tables = read(file)
    except (OSError, ValueError, KeyError, IndexError) as error:
        print(f"plot.py: this is no report: {error}", file=sys.stderr)
        return 1
    write(words[1], tables)
    return 0


if __name__ == "__main__":
    sys.exit(main(sys.argv[1:]))
