"""The captures of the race, in memory, made once and kept for later races."""
import hashlib
import os
import shutil
import traceback

import frames

HERE = os.path.dirname(os.path.abspath(__file__))
SHARED_MEMORY = "/dev/shm"


def room():
    """A folder in memory, or else the system's folder for temporary files."""
    if os.path.isdir(SHARED_MEMORY) and os.access(SHARED_MEMORY, os.W_OK):
        return SHARED_MEMORY
    return "/tmp"


def kept():
    """Where captures are kept: another folder for another rule of the frames, so that none is taken that is old."""
    with open(os.path.join(HERE, "frames.py"), "rb") as rule:
        mark = hashlib.sha256(rule.read()).hexdigest()[:12]
    return os.path.join(room(), f"onvm-captures-{os.getuid()}-{mark}")


def capture(recipe, seed, count):
    """The path of a capture in microseconds, which is made where it isn't there yet."""
    folder = kept()
    os.makedirs(folder, exist_ok=True)
    path = os.path.join(folder, f"{recipe}-{seed}-{count}.pcap")
    if not os.path.exists(path):
        unfinished = f"{path}.{os.getpid()}"
        in_a_child(frames.write_capture, unfinished, recipe, seed, count, True)
        os.rename(unfinished, path)
    return path


def in_a_child(call, *given):
    """A child makes the call, so that this process stays small: the peak memory of a program that it starts begins with its own."""
    child = os.fork()
    if child == 0:
        try:
            call(*given)
            os._exit(0)
        except BaseException:
            traceback.print_exc()
            os._exit(1)
    if os.waitpid(child, 0)[1]:
        raise OSError("the capture wasn't made")


def forget():
    """Removes the captures of every rule."""
    for name in os.listdir(room()):
        if name.startswith(f"onvm-captures-{os.getuid()}-"):
            shutil.rmtree(os.path.join(room(), name))
