"""Runs of the program for checks in Python: with limits, a deadline, and a count of what passed.

A check's script reads begin.sh, which names the program in ONVM_PROGRAM, and hands its folder over as the first word.
"""
import os
import resource
import signal
import subprocess
import sys
import threading
import time

sys.dont_write_bytecode = True
TOP = os.path.join(os.path.dirname(os.path.abspath(__file__)), "..")
os.chdir(TOP)
PROGRAM = os.environ.get("ONVM_PROGRAM", "")
OUTCOMES = ("frames", "sent", "asked", "chain-end", "no-service", "no-port", "hops", "throttled", "ring-full", "pool-empty")
COUNTS = ("posts", "ticks", "lost", "yields")


class Ended:
    """How a run ended: its status, negative for a signal, or None past the deadline; what it said; seconds; peak in KiB."""

    def __init__(self, status, said, complaint, seconds, peak):
        self.status, self.said, self.complaint, self.seconds, self.peak = status, said, complaint, seconds, peak

    def __str__(self):
        return f"status {self.status}, said {self.said[:200]!r}, complained {self.complaint[:200]!r}"

    def counts(self):
        """The numbers of the report's summary by their words."""
        lines = [line.split() for line in self.said.splitlines()]
        return {line[0]: int(line[1]) for line in lines if len(line) == 2 and line[1].isdigit()}


class Run:
    """A run that was begun. Standard output and error go to files, so that nothing has to read them meanwhile; or standard
    output goes to a pipe, which takes what a summary or a line is, and has no limit as files have."""

    def __init__(self, words, room, limits=(), environment=None, command=None, piped=False):
        self.said, self.complaint = os.path.join(room, "said"), os.path.join(room, "complaint")

        def prepare():
            # as the script onvm does it
            signal.signal(signal.SIGXFSZ, signal.SIG_IGN)
            for kind, most in limits:
                resource.setrlimit(kind, (most, most))

        with open(self.said, "wb") as said, open(self.complaint, "wb") as complaint:
            self.begin = time.monotonic()
            self.process = subprocess.Popen(
                [*(command or [PROGRAM]), *words], stdin=subprocess.DEVNULL, stdout=subprocess.PIPE if piped else said,
                stderr=complaint, env={**os.environ, **(environment or {})}, preexec_fn=prepare)
        self.pid = self.process.pid

    def end(self, deadline):
        """Waits so many seconds for the end, and kills the run behind them."""
        late = threading.Event()

        def stop():
            late.set()
            os.kill(self.pid, signal.SIGKILL)

        timer = threading.Timer(max(0.0, self.begin + deadline - time.monotonic()), stop)
        timer.start()
        _, wait, usage = os.wait4(self.pid, 0)
        timer.cancel()
        seconds = time.monotonic() - self.begin
        status = None if late.is_set() else os.waitstatus_to_exitcode(wait)
        self.process.returncode = status
        if self.process.stdout:
            with self.process.stdout as pipe:
                write(self.said, pipe.read())
        return Ended(status, text_of(self.said), text_of(self.complaint), seconds, usage.ru_maxrss)


def text_of(path):
    with open(path, "rb") as file:
        return file.read().decode("utf-8", "replace")


def bytes_of(path):
    """What a file holds, or None where it isn't there."""
    try:
        with open(path, "rb") as file:
            return file.read()
    except FileNotFoundError:
        return None


def write(path, content):
    with open(path, "wb") as file:
        file.write(content)
    return path


def remove(path):
    if os.path.lexists(path):
        os.remove(path)


def summary(frames):
    """The report of a serial run of so many frames that were all sent, with one tick."""
    numbers = {"frames": frames, "sent": frames, "ticks": 1}
    return "".join(f"{word} {numbers.get(word, 0)}\n" for word in OUTCOMES + COUNTS)


def is_report(said, frames, serial=True):
    """Whether a report is that one; without --serial what stands behind the outcomes may differ from run to run."""
    if serial:
        return said == summary(frames)
    lines, wanted = said.splitlines(), summary(frames).splitlines()
    return lines[:10] == wanted[:10] and [line.split()[0] for line in lines[10:]] == list(COUNTS)


class Tally:
    """What passed and what is wrong, by one check after the other."""

    def __init__(self, name):
        self.name, self.passed, self.wrong = name, 0, 0

    def judge(self, what, holds, told):
        if holds:
            self.passed += 1
        else:
            self.wrong += 1
            print(f"{what}: {told}")

    def end(self):
        """The last line; the status tells whether all passed, and at least one did."""
        print(f"{self.name}: {self.passed} passed, {self.wrong} failed", flush=True)
        return 0 if self.passed > 0 and self.wrong == 0 else 1
