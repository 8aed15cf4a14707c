"""Replays captures and chain files that change while they are read: pipes that are fed slowly or end early, files that grow,
shrink or are replaced, files of /proc and devices. Each answer has to be the whole run or the fault that follows from the
bytes that were there when they were read. Prints what is wrong, and how many checks passed.
"""
import fcntl
import os
import select
import signal
import struct
import sys
import termios
import threading
import time

from runs import Run, Tally, bytes_of, is_report, remove, summary, write

ROOM = sys.argv[1]
OUT = os.path.join(ROOM, "out.pcap")
PIPE = os.path.join(ROOM, "pipe")
PLAN = "examples/01-one-frame/chain.json"
CHAIN = bytes_of(PLAN)
FRAME = "examples/01-one-frame/one-frame.pcap"
CAPTURE = bytes_of(FRAME)
EMITTED = bytes_of("examples/01-one-frame/expected.pcap")
HEADER = EMITTED[:24]
# A record has a head of 16 bytes. Nanoseconds low byte first, so that records are emitted just as they are read.
LENGTH = 1000
RECORD = 16 + LENGTH
MANY = 600
SECONDS = 20
MODES = ((["--serial"], "serial"), ([], "beside each other"))
tally = Tally("changing")


def record(number, mark):
    return struct.pack("<IIII", 1, number, LENGTH, LENGTH) + bytes([mark]) * LENGTH


def records(count, mark, begin=0):
    return b"".join(record(number, mark) for number in range(begin, begin + count))


def answer_to(content, port):
    """What the reading of these bytes is: the records, or else the line. Fractions are right in all that is read here."""
    if len(content) < 24:
        return None, f"fault capture {port} torn 0\n"
    if content[:24] != HEADER:
        return None, f"fault capture {port} magic\n"
    place = 24
    while place < len(content):
        if len(content) < place + 16:
            return None, f"fault capture {port} torn {place}\n"
        included = struct.unpack_from("<I", content, place + 8)[0]
        if included > 262144:
            return None, f"fault capture {port} too-long {place} {included}\n"
        if len(content) < place + 16 + included:
            return None, f"fault capture {port} torn {place}\n"
        place += 16 + included
    return content[24:], None


def ended_so(ended, serial, status, line=None, out=None, frames=1):
    """Whether a run ended so: with a line and no OUT, or with the report of so many frames and this OUT."""
    holds = ended.status == status and ended.complaint == "" and bytes_of(OUT) == out
    return holds and (ended.said == line if status else is_report(ended.said, frames, serial))


def judge(name, ended, serial, status, line=None, out=None, frames=1):
    """A run has to end so."""
    tally.judge(name, ended_so(ended, serial, status, line, out, frames), f"{ended}; wanted {status} {line or frames}")


class Feeder:
    """The writing end of a pipe that a run reads."""

    def __init__(self):
        remove(PIPE)
        os.mkfifo(PIPE)

    def open(self):
        deadline = time.monotonic() + SECONDS
        while True:
            try:
                self.file = os.open(PIPE, os.O_WRONLY | os.O_NONBLOCK)
                break
            except OSError:
                if time.monotonic() > deadline:
                    raise
                time.sleep(0.0005)
        os.set_blocking(self.file, True)

    def feed(self, piece):
        """Writes a piece, and waits until all of it was read, or nobody reads any more."""
        try:
            os.write(self.file, piece)
        except BrokenPipeError:
            return
        ends = select.poll()
        ends.register(self.file, 0)
        deadline = time.monotonic() + SECONDS
        while self.waiting() and not ends.poll(0) and time.monotonic() < deadline:
            time.sleep(0.0002)

    def waiting(self):
        """How many bytes nobody has read yet."""
        return struct.unpack("i", fcntl.ioctl(self.file, termios.FIONREAD, b"\0\0\0\0"))[0]

    def close(self):
        os.close(self.file)


def fed(options, chain, capture, pieces):
    """A run whose chain file or capture is the pipe, which gets these pieces."""
    remove(OUT)
    feeder = Feeder()
    run = Run([*options, chain, OUT, capture], ROOM)
    feeder.open()
    for piece in pieces:
        if piece:
            feeder.feed(piece)
    feeder.close()
    return run.end(SECONDS)


def try_slow_pipes():
    """In two pieces, cut at each place, and a byte at a time."""
    for at in range(len(CAPTURE) + 1):
        options, mode = MODES[at % 2]
        ended = fed(options, PLAN, PIPE, [CAPTURE[:at], CAPTURE[at:]])
        judge(f"a capture in a pipe, {at} bytes and the rest, {mode}", ended, at % 2 == 0, 0, out=EMITTED)
    for at in range(len(CHAIN) + 1):
        options, mode = MODES[at % 2]
        ended = fed(options, PIPE, FRAME, [CHAIN[:at], CHAIN[at:]])
        judge(f"a chain file in a pipe, {at} bytes and the rest, {mode}", ended, at % 2 == 0, 0, out=EMITTED)
    for options, mode in MODES:
        ended = fed(options, PLAN, PIPE, [bytes([byte]) for byte in CAPTURE])
        judge(f"a capture byte by byte, {mode}", ended, bool(options), 0, out=EMITTED)
        ended = fed(options, PIPE, FRAME, [bytes([byte]) for byte in CHAIN])
        judge(f"a chain file byte by byte, {mode}", ended, bool(options), 0, out=EMITTED)


def try_short_pipes():
    """Pipes that end before all was written."""
    for at in range(len(CAPTURE)):
        options, mode = MODES[at % 2]
        ended = fed(options, PLAN, PIPE, [CAPTURE[:at]])
        name = f"a capture's pipe ends behind {at} bytes, {mode}"
        if at == 24:
            judge(name, ended, True, 0, out=HEADER, frames=0)
        else:
            judge(name, ended, True, 4, f"fault capture 0 torn {24 if at > 24 else 0}\n")
    for at in range(len(CHAIN)):
        options, mode = MODES[at % 2]
        ended = fed(options, PIPE, FRAME, [CHAIN[:at]])
        judge(f"a chain file's pipe ends behind {at} bytes, {mode}", ended, True, 3, "fault plan json file\n")


# What becomes of a file of `MANY` records, of which `read` bytes were read: each changes the file, and tells the bytes
# that a reader then gets who had got so many.


def grow(path, read, old):
    more = records(50, 3, MANY)
    with open(path, "ab") as file:
        file.write(more)
    return old + more


def grow_by_half(path, read, old):
    more = records(50, 3, MANY)[: -RECORD // 2]
    with open(path, "ab") as file:
        file.write(more)
    return old + more


def shrink_to(count):
    def shrink(path, read, old):
        length = count(read)
        os.truncate(path, length)
        return old[: max(read, length)]

    return shrink


def shrink_and_grow(path, read, old):
    """As a shell's `>` does it: a shorter capture instead of the one that was there."""
    with open(path, "wb") as file:
        file.write(HEADER + records(MANY // 2, 4))
    return old[:read] + (HEADER + records(MANY // 2, 4))[read:]


def write_over(content):
    def over(path, read, old):
        with open(path, "r+b") as file:
            file.write(content)
        return old[:read] + content[read:]

    return over


def take_away(path, read, old):
    os.remove(path)
    return old


def put_another(path, read, old):
    write(path + ".new", HEADER + records(3, 5))
    os.rename(path + ".new", path)
    return old


def forbid(path, read, old):
    os.chmod(path, 0)
    return old


HALF = 24 + MANY // 2 * RECORD
CHANGES = {
    "grows": grow,
    "grows by half a record": grow_by_half,
    "shrinks to half of its records": shrink_to(lambda read: HALF),
    "shrinks to half a record": shrink_to(lambda read: HALF + RECORD // 2),
    "shrinks to a byte of a head": shrink_to(lambda read: HALF + 1),
    "shrinks to what was read": shrink_to(lambda read: read),
    "shrinks to less than what was read": shrink_to(lambda read: max(0, read - 10)),
    "shrinks to a byte more than what was read": shrink_to(lambda read: read + 1),
    "shrinks to nothing": shrink_to(lambda read: 0),
    "becomes a shorter one": shrink_and_grow,
    "is written over with other frames": write_over(HEADER + records(MANY, 6)),
    "is written over with bytes of no capture": write_over(b"\xff" * (24 + MANY * RECORD)),
    "is taken away": take_away,
    "is replaced": put_another,
    "may not be read any more": forbid,
}


def place_of(pid, path):
    """How far a process has read a file that it has open: once it rests there."""
    last, since, begin = None, time.monotonic(), time.monotonic()
    while time.monotonic() - begin < SECONDS:
        try:
            files = [name for name in os.listdir(f"/proc/{pid}/fd") if os.readlink(f"/proc/{pid}/fd/{name}") == path]
            place = int(bytes_of(f"/proc/{pid}/fdinfo/{files[0]}").split()[1]) if files else None
        except (FileNotFoundError, TypeError):
            place = None
        if place != last:
            last, since = place, time.monotonic()
        if last is not None and time.monotonic() - since > 0.02:
            return last
        time.sleep(0.001)
    return None


def try_change(plan, name, change, options, mode, count):
    """The run waits for frames of port 0, which come through a pipe, when the capture of port 1 changes."""
    remove(OUT)
    path = os.path.realpath(write(os.path.join(ROOM, "changing.pcap"), HEADER + records(MANY, 2)))
    os.chmod(path, 0o600)
    feeder = Feeder()
    run = Run([*options, plan, OUT, PIPE, path], ROOM)
    feeder.open()
    feeder.feed(HEADER + records(count, 1))
    read = place_of(run.pid, path)
    old = bytes_of(path)
    contents = [change(path, read or 0, old)]
    # Beside the receive role that waits, the other one may have met the end of its file before it changed.
    if not options and read == len(old):
        contents.append(old)
    feeder.feed(records(100 - count, 1, count))
    feeder.close()
    ended = run.end(SECONDS)
    name = f"a capture {name} behind {count} frames of another and {read} bytes of its own, {mode}"
    holds = read is not None and any(is_answer(ended, bool(options), content) for content in contents)
    tally.judge(name, holds, ended)


def is_answer(ended, serial, content):
    """Whether the run read these bytes from port 1: all their records were emitted, or their fault is told."""
    kept, line = answer_to(content, 1)
    if kept is None:
        return ended_so(ended, serial, 4, line)
    return ended_so(ended, serial, 0, out=HEADER + records(100, 1) + kept, frames=100 + len(kept) // RECORD)


def try_changes():
    plan = write(os.path.join(ROOM, "two-ports.json"), b'{"version":1,"ports":2,"ring":1024,"functions":[{"name":"f","service":1,'
                 b'"core":0,"kind":"forward","weight":4096}],"chains":[{"name":"a","steps":[{"to":1},{"out":0}]}],"default":"a"}')
    for name, change in CHANGES.items():
        for count in (0, 40, 99):
            for options, mode in MODES:
                try_change(plan, name, change, options, mode, count)


def try_stops():
    """The program is stopped and goes on while it waits for a pipe."""
    for options, mode in MODES * 2:
        remove(OUT)
        feeder = Feeder()
        run = Run([*options, PLAN, OUT, PIPE], ROOM)
        feeder.open()
        for piece in (CAPTURE[:10], CAPTURE[10:30], CAPTURE[30:45], CAPTURE[45:]):
            feeder.feed(piece)
            os.kill(run.pid, signal.SIGSTOP)
            time.sleep(0.005)
            os.kill(run.pid, signal.SIGCONT)
        feeder.close()
        judge(f"stopped and gone on, {mode}", run.end(SECONDS), bool(options), 0, out=EMITTED)


def alternate(path, contents, over):
    """Writes one content after the other into a file, a half at a time, until it is told to end."""
    while not over.is_set():
        for content in contents:
            with open(path, "wb") as file:
                file.write(content[: len(content) // 2])
                file.flush()
                file.write(content[len(content) // 2 :])


def try_alternating():
    """A second process writes the file again and again. What the run gets is any mixture of two contents, and may end early."""
    path = os.path.join(ROOM, "alternating")
    other = CHAIN.replace(b'"kind":"forward"', b'"kind":"ttl"')
    captures = [HEADER + records(200, 7), HEADER + records(150, 8)]
    for what, contents, words in (("a chain file", [CHAIN, other], (path, OUT, FRAME)), ("a capture", captures, (PLAN, OUT, path))):
        over = threading.Event()
        write(path, contents[0])
        writer = threading.Thread(target=alternate, args=(path, contents, over))
        writer.start()
        try:
            for number in range(20):
                remove(OUT)
                options, mode = MODES[number % 2]
                ended = Run([*options, *words], ROOM).end(SECONDS)
                tally.judge(f"{what} that alternates, {mode}", is_explained(ended, options, what), ended)
        finally:
            over.set()
            writer.join()


def is_explained(ended, options, what):
    out = bytes_of(OUT)
    if ended.status:
        kind, status = ("plan", 3) if what == "a chain file" else ("capture 0 torn", 4)
        return ended.status == status and ended.said.startswith(f"fault {kind} ") and ended.said.count("\n") == 1 and out is None
    if ended.status is None or out is None:
        return False
    frames = 1 if what == "a chain file" else (len(out) - 24) // RECORD
    if what == "a chain file":
        well = out == EMITTED
    else:
        marks = [out[24 + RECORD * number + 16 :][:LENGTH] for number in range(frames)]
        well = len(out) == 24 + RECORD * frames and all(set(mark) <= {7, 8} for mark in marks)
    return well and is_report(ended.said, frames, bool(options))


# Each name with its status and line where it is the capture, and where it is the chain file.
SPECIAL = {
    "/dev/null": (4, "fault capture 0 torn 0", 3, "fault plan json file"),
    "/dev/zero": (4, "fault capture 0 magic", 3, "fault plan limit file"),
    "/dev/full": (4, "fault capture 0 magic", 3, "fault plan limit file"),
    "/proc": (5, "fault read 0", 5, "fault read chain"),
    "/proc/self/mem": (5, "fault read 0", 5, "fault read chain"),
    "/proc/self/maps": (4, "fault capture 0 magic", 3, "fault plan json file"),
    "/proc/self/status": (4, "fault capture 0 magic", 3, "fault plan json file"),
    "/proc/self/cmdline": (4, "fault capture 0 magic", 3, "fault plan json file"),
    "/proc/version": (4, "fault capture 0 magic", 3, "fault plan json file"),
    "/proc/self/oom_score_adj": (4, "fault capture 0 torn 0", 3, "fault plan shape top"),
    "/proc/self/fd/77": (5, "fault read 0", 5, "fault read chain"),
}


def try_special():
    for name, (status, line, chain_status, chain_line) in SPECIAL.items():
        for options, mode in MODES:
            remove(OUT)
            judge(f"{name} as a capture, {mode}", Run([*options, PLAN, OUT, name], ROOM).end(SECONDS), True, status, line + "\n")
            ended = Run([*options, name, OUT, FRAME], ROOM).end(SECONDS)
            judge(f"{name} as a chain file, {mode}", ended, True, chain_status, chain_line + "\n")


def try_endless():
    """Inputs that never end: they end with their limit."""
    for options, mode in MODES:
        for what, shell, words, status, line in (
                ("records of no byte", f"(head -c 24 {FRAME}; cat /dev/zero) >'{PIPE}'", (PLAN, OUT, PIPE), 4, "fault capture 0 too-many"),
                ("white space", f"(cat {PLAN}; tr '\\0' ' ' </dev/zero) >'{PIPE}'", (PIPE, OUT, FRAME), 3, "fault plan limit file")):
            remove(OUT)
            Feeder()
            writer = os.spawnlp(os.P_NOWAIT, "sh", "sh", "-c", f"{shell} 2>'{ROOM}/writer'")
            ended = Run([*options, *words], ROOM).end(SECONDS)
            judge(f"{what} without an end, {mode}", ended, True, status, line + "\n")
            if ended.status is None:
                os.kill(writer, signal.SIGTERM)
            os.waitpid(writer, 0)


try_slow_pipes()
try_short_pipes()
try_changes()
try_stops()
try_alternating()
try_special()
try_endless()
assert is_report(summary(1), 1)
sys.exit(tally.end())
