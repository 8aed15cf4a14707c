"""Replays captures under limits on memory, on the size of files and on how many are open, each over a range. A run is whole,
or it says its line and leaves what its status promises: nothing in between. Prints what is wrong, and how many checks passed.

The program is begun without its script, since a shell needs more than some of these limits give. As the script does it, a
write behind the limit on the size of files is made a failed write.
"""
import os
import resource
import sys
from collections import Counter

from runs import Run, Tally, bytes_of, is_report, remove, summary, write

ROOM = sys.argv[1]
# A folder of its own, where nothing may be left but OUT.
FOLDER = os.path.join(ROOM, "folder")
OUT = os.path.join(FOLDER, "out.pcap")
PLAN = "examples/01-one-frame/chain.json"
FRAME = "examples/01-one-frame/one-frame.pcap"
EMITTED = bytes_of("examples/01-one-frame/expected.pcap")
MODES = ((["--serial"], "serial"), ([], "beside each other"))
OLD = b"what was there"
SECONDS = 60
LINES = {5: "fault read ", 6: "fault write\n", 7: "fault memory\n"}
tally = Tally("whole")
seen = Counter()


def ended_of(words, limits=(), old=None, piped=True):
    """A run with OUT in the folder, in which an old file of that name was, or nothing."""
    remove(OUT)
    if old is not None:
        write(OUT, old)
    return Run(words, ROOM, limits, piped=piped).end(SECONDS)


def is_kept(status, old, emitted):
    """Whether OUT is what this status promises."""
    there = bytes_of(OUT)
    if os.listdir(FOLDER) not in ([], ["out.pcap"]):
        return False
    return there == (emitted if status == 0 else old)


def judge(name, ended, statuses, emitted, frames, serial, old=None):
    """One check: the run is whole, or has its line, and leaves what its status promises."""
    seen[ended.status] += 1
    holds = ended.status in statuses and ended.complaint == "" and is_kept(ended.status, old, emitted)
    if ended.status == 0:
        holds = holds and is_report(ended.said, frames, serial)
    elif ended.status == 5:
        holds = holds and ended.said.startswith(LINES[5]) and ended.said.count("\n") == 1
    else:
        holds = holds and ended.said == LINES.get(ended.status)
    tally.judge(name, holds, ended)


def two_ports():
    """A chain file for as many as four captures."""
    return write(os.path.join(ROOM, "ports.json"), bytes_of(PLAN).replace(b'"ports":1', b'"ports":4'))


def try_open_files():
    """Three files are open when the program begins, and the loader needs one more. Then the captures stay open."""
    plan = two_ports()
    for most in range(4, 11):
        for count in range(1, 5):
            for options, mode in MODES:
                ended = ended_of([*options, plan, OUT, *[FRAME] * count], [(resource.RLIMIT_NOFILE, most)])
                emitted = EMITTED[:24] + EMITTED[24:] * count
                name = f"at most {most} open files for {count} captures, {mode}"
                judge(name, ended, (0,) if most >= 3 + count else (5,), emitted, count, bool(options))
                if ended.status == 5:
                    tally.judge(f"{name}: the line", ended.said == f"fault read {most - 3}\n", ended)


def starts(most):
    return ended_of([], [(resource.RLIMIT_AS, most)]).status in (2, 7)


def least_start():
    """The least memory, in pages of 4,096 bytes, in which the program says anything at all."""
    below, enough = 0, 64 << 20
    while enough - below > 4096:
        middle = (below + enough) // 8192 * 4096
        if starts(middle):
            enough = middle
        else:
            below = middle
    return enough


def try_memory():
    """From the least memory in which the program starts up to 60 MiB more."""
    least = least_start()
    print(f"whole: the program starts in {least // 1024} KiB of memory")
    gaps = [page * 4096 for page in range(0, 64, 8)] + [half << 19 for half in range(1, 16)] + [mib << 20 for mib in range(8, 61, 4)]
    made = made_of("gen:7:20000")
    for gap in gaps:
        for options, mode in MODES:
            limits = [(resource.RLIMIT_AS, least + gap)]
            ended = ended_of([*options, PLAN, OUT, FRAME], limits)
            judge(f"one frame in {gap} bytes more than the least, {mode}", ended, (0, 7), EMITTED, 1, bool(options))
            ended = ended_of([*options, PLAN, OUT, "gen:7:20000"], limits, OLD)
            judge(f"20,000 frames in {gap} bytes more than the least, {mode}", ended, (0, 7), made, 20000, bool(options), OLD)


def made_of(word):
    """What is emitted of made frames: all of them, by the script of the repository that makes them by itself."""
    path = os.path.join(ROOM, "made.pcap")
    _, seed, count = word.split(":")
    os.spawnlp(os.P_WAIT, "python3", "python3", "-B", "bench/generate.py", seed, count, path)
    return bytes_of(path)


def try_file_sizes():
    """The limit on the size of files, from nothing to more than OUT. Standard output is a pipe, which has none."""
    made = made_of("gen:7:300")
    edges = [number for near in (0, 24, 65536, 131072, len(made)) for number in (near - 1, near, near + 1)]
    courses = ((FRAME, EMITTED, 1, range(0, 60)), ("gen:7:300", made, 300, sorted({edge for edge in edges if edge >= 0})))
    for capture, emitted, frames, sizes in courses:
        for most in sizes:
            for number, (options, mode) in enumerate(MODES):
                old = OLD if (most + number) % 2 else None
                limits = [(resource.RLIMIT_FSIZE, most)]
                ended = ended_of([*options, PLAN, OUT, capture], limits, old)
                name = f"files of at most {most} bytes for {len(emitted)}, {mode}"
                judge(name, ended, (0,) if most >= len(emitted) else (6,), emitted, frames, bool(options), old)


def try_report_sizes():
    """Standard output is a file, and has less room than the report, which is longer than OUT here."""
    report = summary(1)
    for most in range(len(EMITTED), len(report) + 4, 3):
        ended = ended_of(["--serial", PLAN, OUT, FRAME], [(resource.RLIMIT_FSIZE, most)], piped=False)
        seen[ended.status] += 1
        holds = ended.status == (0 if most >= len(report) else 6) and bytes_of(OUT) == EMITTED and report.startswith(ended.said)
        tally.judge(f"a report in a file of at most {most} bytes", holds and ended.complaint == "", ended)


os.mkdir(FOLDER)
try_open_files()
try_memory()
try_file_sizes()
try_report_sizes()
# Where one of them never came, its limit did nothing.
for status in (0, 5, 6, 7):
    tally.judge(f"status {status} occurs", seen[status] > 0, dict(seen))
sys.exit(tally.end())
