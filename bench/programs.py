"""The programs of the race: how each is called for a case, how it is run, and whether it gave what is due."""
import json
import os
import shutil
import signal
import subprocess
import time

HERE = os.path.dirname(os.path.abspath(__file__))
TOP = os.path.dirname(HERE)
SCRIPT = os.path.join(TOP, "onvm")
BASELINES = {"c-copy": "copy", "c-keep-all": "keep_all", "c-rings": "rings"}
HEAD = 24
# A run that takes longer hangs.
SECONDS = 120
PORTION = 1 << 20
# What the script sets for our program, for a C program too: what is won by that alone.
MALLOC = "glibc.malloc.hugetlb=1:glibc.malloc.top_pad=67108864"


class Program:
    """What is called for a case. `due` says what has to come out: "captured", the capture as it is; "records", its
    records behind whatever head; "emitted", what the C programs give too; or "size", as many bytes."""

    def __init__(self, name, words, due, told=None):
        self.name, self.words, self.due, self.told = name, words, due, told


class Run:
    """One run: seconds, peak memory in bytes, page faults, status, and how many bytes came out."""

    def __init__(self, seconds, used, status, written):
        self.seconds, self.status, self.written = seconds, status, written
        self.peak, self.faults = used.ru_maxrss * 1024, used.ru_minflt
        self.user, self.system = used.ru_utime, used.ru_stime


def build_baselines(folder):
    """Compiles the C programs; without a compiler there are none."""
    if not shutil.which("gcc"):
        return {}
    built = {}
    for name, source in BASELINES.items():
        path = os.path.join(folder, source)
        text = os.path.join(HERE, "baselines", f"{source}.c")
        subprocess.run(["gcc", "-std=gnu11", "-O2", "-pthread", "-o", path, text], check=True)
        built[name] = path
    return built


def write_plan(case, folder, keys):
    path = os.path.join(folder, f"{case.name}.json")
    with open(path, "w") as file:
        json.dump({**case.plan, **keys}, file)
    return path


def own_programs(case, onvm, plan, written):
    """The program by the script, and where the case says so without it, so with malloc as the system sets it."""
    told = {**os.environ, "ONVM_PROGRAM": onvm}
    read = case.captures()
    found = []
    for suffix, command in [("", SCRIPT)] + [(", plain", onvm)] * case.plain:
        found.append(Program(f"serial{suffix}", [command, "--serial", plan, written, *read], "emitted", told))
        found.append(Program(f"threads{suffix}", [command, plan, written, *read], "emitted", told))
    return found


def programs_of(case, onvm, plan, written, baselines):
    """All that are there, and the names of those that are not."""
    read = case.captures()
    found, missing = own_programs(case, onvm, plan, written), []
    for name in BASELINES:
        if name == "c-keep-all" or len(read) == 1:
            if name in baselines:
                found.append(Program(name, [baselines[name], written, case.works, *read], "emitted"))
            else:
                missing.append(name)
    if case.plain and "c-keep-all" in baselines:
        words = [baselines["c-keep-all"], written, case.works, *read]
        found.append(Program("c-keep-all, tuned", words, "emitted", {**os.environ, "GLIBC_TUNABLES": MALLOC}))
    for name, words in case.others.items():
        if shutil.which(name):
            found.append(Program(name, words(read[0], written), "records" if case.copies else "size"))
        else:
            missing.append(name)
    if case.copies:
        found.append(Program("cp", ["cp", read[0], written], "captured"))
    return found, missing


def run(program, written):
    if os.path.exists(written):
        os.remove(written)
    null = open(os.devnull, "r+b")
    begin = time.monotonic()
    started = subprocess.Popen(program.words, stdin=null, stdout=null, stderr=null, env=program.told)
    signal.signal(signal.SIGALRM, lambda *_: started.kill())
    signal.alarm(SECONDS)
    _, status, used = os.wait4(started.pid, 0)
    seconds = time.monotonic() - begin
    signal.alarm(0)
    null.close()
    started.returncode = os.waitstatus_to_exitcode(status)
    size = os.path.getsize(written) if os.path.exists(written) else 0
    return Run(seconds, used, started.returncode, size)


def due_bytes(case):
    """No function of a case changes the length of a frame, so as many bytes are due as the captures have, with one head."""
    return HEAD + sum(os.path.getsize(path) - HEAD for path in case.captures())


def same(one, other, begin):
    """Whether two files are the same from this byte on."""
    if os.path.getsize(one) != os.path.getsize(other):
        return False
    with open(one, "rb") as first, open(other, "rb") as second:
        first.seek(begin)
        second.seek(begin)
        while True:
            portion = first.read(PORTION)
            if portion != second.read(PORTION):
                return False
            if not portion:
                return True


def wrong(case, program, done, written, emitted):
    """What is wrong with what came out, or None. `emitted` is what another program emitted, or None."""
    if done.status:
        return f"status {done.status}"
    if done.written != due_bytes(case):
        return f"{done.written} bytes of {due_bytes(case)}"
    wanted = {"captured": (case.captures()[0], 0), "records": (case.captures()[0], HEAD), "emitted": (emitted, 0)}
    other, begin = wanted.get(program.due, (None, 0))
    if other and not same(other, written, begin):
        return "other bytes"
    return None
