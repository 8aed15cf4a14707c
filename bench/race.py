#!/usr/bin/env python3
"""Races onvm against other programs that do the same with the same captures, in turns in one run.

race.py [--onvm PATH] [--rounds N] [--cases NAME,..] [--processors 2|4] [--frames N] [--keys JSON] [--json FILE] [--forget]

README.md beside this file says how to read what is printed. The status is 0 where each run of each program gave
what is due, whatever times it took, else 1.
"""
import argparse
import json
import os
import shutil
import subprocess
import sys
import tempfile

import captures
import cases
import programs
import results

ONVM = os.path.join(programs.TOP, "crates", "onvm_main", "out", "onvm_main")


def read_words():
    parser = argparse.ArgumentParser(description="Races onvm against other programs that do the same with the same captures.")
    parser.add_argument("--onvm", default=ONVM, metavar="PATH", help="the program to race, if not the one that was built")
    parser.add_argument("--rounds", type=int, default=7)
    parser.add_argument("--cases", default="", help=", ".join(case.name for case in cases.all_cases()))
    parser.add_argument("--processors", type=int, default=len(os.sched_getaffinity(0)), help="run on the first so many")
    parser.add_argument("--frames", type=int, default=cases.MOST, help="the most frames of one capture")
    parser.add_argument("--keys", type=json.loads, default={}, metavar="JSON", help="keys for the top object of each plan")
    parser.add_argument("--json", metavar="FILE", help="writes each run's figures to a file")
    parser.add_argument("--forget", action="store_true", help="removes the kept captures, and ends")
    words = parser.parse_args()
    words.picked = [case for case in cases.all_cases(words.frames) if is_named(case, words.cases)]
    unknown = [name for name in words.cases.split(",") if name and not any(is_named(case, name) for case in words.picked)]
    if unknown:
        parser.error(f"no such case: {', '.join(unknown)}")
    if not 4 <= words.frames <= cases.MOST or words.rounds < 1:
        parser.error(f"--frames is 4 to {cases.MOST}, --rounds at least 1")
    return words


def is_named(case, names):
    """A case is picked by its name or by its begin up to a hyphen, as `growth`."""
    return not names or any(name in (case.name, case.name.split("-")[0]) for name in names.split(","))


def keep_to(count):
    """This process, and so every program that it starts, runs on the first so many processors."""
    there = sorted(os.sched_getaffinity(0))
    if not 1 <= count <= len(there):
        sys.exit(f"there are {len(there)} processors")
    os.sched_setaffinity(0, there[:count])


class Race:
    """A case with its programs, and what came of each of their runs."""

    def __init__(self, case, words, folder, baselines):
        self.case = case
        self.written = os.path.join(folder, "written.pcap")
        self.emitted = os.path.join(folder, "emitted.pcap")
        plan = programs.write_plan(case, folder, words.keys)
        self.programs, self.missing = programs.programs_of(case, words.onvm, plan, self.written, baselines)
        self.runs = {program.name: [] for program in self.programs}
        self.wrongs = {}

    def run(self, program, emitted=None):
        done = programs.run(program, self.written)
        found = programs.wrong(self.case, program, done, self.written, emitted)
        if found:
            self.wrongs[program.name] = found
        return done

    def try_out(self):
        """A run of each that doesn't count: it brings files and memory in, and every byte that came out is compared."""
        emitters = [program for program in self.programs if program.due == "emitted"]
        self.run(emitters[-1])
        if os.path.exists(self.written):
            os.rename(self.written, self.emitted)
        for program in self.programs:
            self.run(program, self.emitted if os.path.exists(self.emitted) else None)
        if os.path.exists(self.emitted):
            os.remove(self.emitted)

    def round(self, number):
        """Who begins changes from round to round, so that none always follows the same other."""
        turn = number % len(self.programs)
        for program in self.programs[turn:] + self.programs[:turn]:
            self.runs[program.name].append(self.run(program))
        if os.path.exists(self.written):
            os.remove(self.written)


def race(words, folder):
    baselines = programs.build_baselines(folder)
    races = [Race(case, words, folder, baselines) for case in words.picked]
    missing = sorted({name for one in races for name in one.missing})
    print(f"not installed, so left out: {', '.join(missing) or 'none'}", flush=True)
    for one in races:
        one.try_out()
    for number in range(words.rounds):
        for one in races:
            one.round(number)
        print(f"round {number + 1} of {words.rounds} is done", file=sys.stderr, flush=True)
    return races


def version(onvm):
    told = subprocess.run(["sh", os.path.join(programs.TOP, "checks", "version.sh"), onvm], capture_output=True, text=True)
    return told.stdout.strip().replace("\n", "; ") if told.returncode == 0 else "unknown"


def main():
    words = read_words()
    if words.forget:
        captures.forget()
        return 0
    if not os.access(words.onvm, os.X_OK):
        sys.exit(f"there is no program {words.onvm}: `make build` makes it")
    words.onvm = os.path.abspath(words.onvm)
    keep_to(words.processors)
    folder = tempfile.mkdtemp(prefix="onvm-race-", dir=captures.room())
    before = os.getloadavg()[0]
    try:
        races = race(words, folder)
    finally:
        shutil.rmtree(folder)
    load = f"{before:.1f} before and {os.getloadavg()[0]:.1f} behind it"
    print(f"{words.rounds} rounds on {words.processors} processors, load {load}; program: {version(words.onvm)}\n")
    print(results.tables(races))
    print(results.verdicts(races, words.processors))
    if words.json:
        with open(words.json, "w") as file:
            json.dump(results.figures(races, words), file, indent=1)
    return 1 if any(one.wrongs for one in races) else 0


if __name__ == "__main__":
    sys.exit(main())
