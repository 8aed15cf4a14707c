"""Replays captures onto files that are there, links, open files and special ones, as several users and killed at random
moments. A regular file is the old one or the whole new one, and nothing in between. Prints what is wrong, and how many
checks passed.
"""
import os
import random
import shutil
import stat
import sys
import time

from runs import PROGRAM, Run, Tally, bytes_of, remove, summary, write

ROOM = sys.argv[1]
# A folder of its own, where each case says what may be left.
FOLDER = os.path.join(ROOM, "folder")
OUT = os.path.join(FOLDER, "out.pcap")
PLAN = "examples/01-one-frame/chain.json"
FRAME = "examples/01-one-frame/one-frame.pcap"
EMITTED = bytes_of("examples/01-one-frame/expected.pcap")
OLD = b"what was there"
SECONDS = 60
KILLS = 200
NOBODY = 65534
tally = Tally("output")


def clear():
    shutil.rmtree(FOLDER, ignore_errors=True)
    os.mkdir(FOLDER)


def onvm(out, capture=FRAME, plan=PLAN, options=("--serial",), command=None):
    return Run([*options, plan, out, capture], ROOM, command=command).end(SECONDS)


def left():
    return sorted(os.listdir(FOLDER))


def judge(name, ended, status, *conditions):
    tally.judge(name, ended.status == status and all(conditions), f"{ended}, left {left()}, conditions {conditions}")


def try_files():
    """A file that is there is replaced, with its permissions; a new one has those that the system gives."""
    clear()
    judge("a new file", onvm(OUT), 0, bytes_of(OUT) == EMITTED, left() == ["out.pcap"])
    mask = os.umask(0)
    os.umask(mask)
    tally.judge("its permissions", stat.S_IMODE(os.stat(OUT).st_mode) == 0o666 & ~mask, oct(os.stat(OUT).st_mode))
    for mode in (0o600, 0o640, 0o666):
        write(OUT, OLD)
        os.chmod(OUT, mode)
        ended = onvm(OUT)
        judge(f"an old file of permissions {mode:o}", ended, 0, bytes_of(OUT) == EMITTED,
              stat.S_IMODE(os.stat(OUT).st_mode) == mode, left() == ["out.pcap"])
    clear()
    other = os.path.join(FOLDER, "other")
    write(OUT, OLD)
    os.link(OUT, other)
    judge("a file of two names", onvm(OUT), 0, bytes_of(OUT) == EMITTED, bytes_of(other) == OLD)
    clear()
    long = os.path.join(FOLDER, "n" * 255)
    judge("the longest name", onvm(long), 0, bytes_of(long) == EMITTED, left() == ["n" * 255])
    clear()
    write(os.path.join(FOLDER, "onvm-0.part"), OLD)
    judge("a part of another run is there", onvm(OUT), 0, bytes_of(OUT) == EMITTED,
          bytes_of(os.path.join(FOLDER, "onvm-0.part")) == OLD, left() == ["onvm-0.part", "out.pcap"])
    part = os.path.join(FOLDER, "onvm-0.part")
    judge("OUT has a part's name", onvm(part), 0, bytes_of(part) == EMITTED, left() == ["onvm-0.part", "out.pcap"])


def try_links():
    """Links lead to the file that is replaced, or that is made, and stay links."""
    for old in (OLD, None):
        clear()
        os.mkdir(os.path.join(FOLDER, "in"))
        target = os.path.join(FOLDER, "in", "file")
        if old is not None:
            write(target, old)
        os.symlink("in/file", os.path.join(FOLDER, "relative"))
        os.symlink(os.path.join(FOLDER, "relative"), OUT)
        name = "a link to a link to " + ("a file" if old else "nothing")
        judge(name, onvm(OUT), 0, os.path.islink(OUT), bytes_of(target) == EMITTED,
              left() == ["in", "out.pcap", "relative"], os.listdir(os.path.join(FOLDER, "in")) == ["file"])
    clear()
    os.symlink("/dev/null", OUT)
    judge("a link to a device", onvm(OUT), 0, os.path.islink(OUT), left() == ["out.pcap"])


def try_open_files():
    """A file that the caller has open is written as it is, whatever its name is or was."""
    clear()
    for name in ("a file", "a file without a name"):
        with open(OUT, "w+b") as file:
            if name != "a file":
                remove(OUT)
            os.set_inheritable(file.fileno(), True)
            for folder in ("/dev/fd", "/proc/self/fd"):
                file.truncate(0)
                words = ["--serial", PLAN, f"{folder}/{file.fileno()}", FRAME]
                process = os.posix_spawn(PROGRAM, [PROGRAM, *words], os.environ,
                                         file_actions=[(os.POSIX_SPAWN_OPEN, 1, os.path.join(ROOM, "said"), os.O_CREAT | os.O_WRONLY, 0o600)])
                status = os.waitstatus_to_exitcode(os.waitpid(process, 0)[1])
                file.seek(0)
                tally.judge(f"{name}, open as {folder}", status == 0 and file.read() == EMITTED, (status, left()))
    tally.judge("nothing came beside it", left() == [], left())


def try_inputs():
    """The script refuses to put the capture over what it is made of; the program replaces that at its end alone."""
    clear()
    plan, capture = os.path.join(FOLDER, "plan"), os.path.join(FOLDER, "capture")
    hard, link = os.path.join(FOLDER, "hard"), os.path.join(FOLDER, "link")
    shutil.copy(PLAN, plan)
    shutil.copy(FRAME, capture)
    before = bytes_of(plan), bytes_of(capture)
    for which, file in (("chain file", plan), ("capture", capture)):
        os.link(file, hard)
        os.symlink(file, link)
        for out in (file, hard, link, os.path.join(FOLDER, "..", "folder", os.path.basename(file))):
            ended = onvm(out, capture, plan, ("--serial", "--"), command=["./onvm"])
            said = f"onvm: OUT is the same file as {file}\n"
            judge(f"OUT is the {which}, as {os.path.basename(out)}", ended, 2, ended.said == "", ended.complaint == said,
                  (bytes_of(plan), bytes_of(capture)) == before, left() == sorted(["plan", "capture", "hard", "link"]))
        remove(hard)
        remove(link)
    judge("a device is OUT and the chain file", onvm("/dev/null", capture, "/dev/null", command=["./onvm"]), 3)
    write(capture, bytes_of(FRAME)[:-1])
    judge("a faulty capture is OUT too", onvm(capture, capture), 4, bytes_of(capture) == bytes_of(FRAME)[:-1])
    shutil.copy(FRAME, capture)
    judge("a good capture is OUT too", onvm(capture, capture), 0, bytes_of(capture) == EMITTED, left() == ["capture", "plan"])


def try_users():
    """What who runs may not write stays as it is, and an owner is kept where who runs may say so."""
    if os.geteuid() != 0:
        print("output: skipped, only root can be several users")
        return
    clear()
    write(OUT, OLD)
    os.chown(OUT, NOBODY, NOBODY)
    judge("another's file", onvm(OUT), 0, bytes_of(OUT) == EMITTED, (os.stat(OUT).st_uid, os.stat(OUT).st_gid) == (NOBODY, NOBODY))
    clear()
    os.chmod(ROOM, 0o755)
    program = shutil.copy(PROGRAM, os.path.join(ROOM, "program"))
    shutil.copy(PLAN, os.path.join(ROOM, "plan"))
    shutil.copy(FRAME, os.path.join(ROOM, "capture"))
    os.chmod(FOLDER, 0o777)
    nobody = ["setpriv", f"--reuid={NOBODY}", f"--regid={NOBODY}", "--clear-groups", program]
    for who, mode, status in ((0, 0o644, 6), (NOBODY, 0o444, 6), (0, 0o666, 0)):
        write(OUT, OLD)
        os.chown(OUT, who, who)
        os.chmod(OUT, mode)
        ended = onvm(OUT, os.path.join(ROOM, "capture"), os.path.join(ROOM, "plan"), command=nobody)
        judge(f"a file of user {who} with permissions {mode:o}, as another user", ended, status,
              bytes_of(OUT) == (OLD if status else EMITTED), stat.S_IMODE(os.stat(OUT).st_mode) == mode, left() == ["out.pcap"])
        remove(OUT)
    write(OUT, OLD)
    os.chmod(OUT, 0o666)
    os.chmod(FOLDER, 0o755)
    ended = onvm(OUT, os.path.join(ROOM, "capture"), os.path.join(ROOM, "plan"), command=nobody)
    judge("a folder where nothing may be made", ended, 6, bytes_of(OUT) == OLD, left() == ["out.pcap"])


def try_kills():
    """Killed at random moments: OUT is what it was, or whole, and a part may lie beside it."""
    word = "gen:7:30000"
    clear()
    begin = time.monotonic()
    onvm(OUT, word, options=())
    span = time.monotonic() - begin
    emitted = bytes_of(OUT)
    chance = random.Random(7)
    old_ones = parts = 0
    for number in range(KILLS):
        clear()
        old = OLD if number % 2 else None
        if old is not None:
            write(OUT, old)
        run = Run([*(["--serial"] if number % 4 < 2 else []), PLAN, OUT, word], ROOM)
        run.end(chance.uniform(0, span))
        there = bytes_of(OUT)
        beside = [name for name in left() if name != "out.pcap"]
        old_ones += there == old
        parts += len(beside)
        tally.judge(f"killed, {number}", there in (old, emitted) and beside in ([], ["onvm-0.part"]), (left(), len(there or b"")))
    print(f"output: of {KILLS} killed runs {old_ones} left what was there, and {parts} a part beside it")
    judge("a run behind them", onvm(OUT), 0, bytes_of(OUT) == EMITTED)


def try_two_at_once():
    """Two runs onto one file: each is done, and the file is of one of them."""
    clear()
    words = ("gen:7:3000", "gen:8:3000")
    whole = []
    for word in words:
        onvm(OUT, word)
        whole.append(bytes_of(OUT))
    rooms = [os.path.join(ROOM, name) for name in ("first", "second")]
    for room in rooms:
        os.mkdir(room)
    for number in range(10):
        runs = [Run(["--serial", PLAN, OUT, word], room) for word, room in zip(words, rooms)]
        ended = [run.end(SECONDS) for run in runs]
        holds = [one.status for one in ended] == [0, 0] and [one.said for one in ended] == [summary(3000)] * 2
        tally.judge(f"two at once, {number}", holds and bytes_of(OUT) in whole and left() == ["out.pcap"], (left(), *map(str, ended)))


for course in (try_files, try_links, try_open_files, try_inputs, try_users, try_kills, try_two_at_once):
    course()
sys.exit(tally.end())
