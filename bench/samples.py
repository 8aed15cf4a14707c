#!/usr/bin/env python3
"""Adds up what perf sampled: what each kind of work and each function takes of the processors' time.

perf script -F comm,pid,tid,ip,sym,dso | samples.py PROGRAM TOP

A sample in the kernel counts for what it was asked: a read, a write, a fault of memory, waiting. Where samples of more than one
thread are there, those of the main thread, in which the first receive role runs and the run begins and ends, stand beside the others'.
"""
import collections
import re
import sys

# What the kernel was asked, by a function on its stack; the first that is there counts.
ASKED = [
    ("write", "ksys_write"), ("read", "ksys_read"), ("page faults", "exc_page_fault"), ("waits: yield", "sched_yield"),
    ("waits: sleep", "nanosleep"), ("waits: for a thread", "futex"), ("opens and closes files", "openat|sys_close|do_truncate|__fput"),
    ("maps and unmaps memory", "sys_brk|sys_mmap|sys_munmap|sys_mremap|sys_madvise|sys_mprotect"), ("begins and ends", "execve|exit_group|do_exit|clone"),
]
FRAME = re.compile(r"\s+[0-9a-f]+ (.*) \(([^()]*)\)$")


class Sample:
    def __init__(self, lines):
        self.command, ids = lines[0].rsplit(None, 1)
        self.is_main = len(set(ids.split("/"))) == 1
        self.stack = [found.groups() for found in map(FRAME.match, lines[1:]) if found]

    def kind(self, program):
        if self.command.strip() != program:
            return "before the program: the script"
        symbol, library = self.stack[0] if self.stack else ("unknown", "")
        if "kernel" in library:
            names = " ".join(name for name, _ in self.stack)
            return "kernel: " + next((kind for kind, asked in ASKED if re.search(asked, names)), "other")
        if "libc" in library:
            return "libc: " + of_libc(symbol)
        found = re.match(r"[a-z_0-9]+(?=::)", symbol)
        return f"crate {found.group()}" if found else f"{library.rsplit('/', 1)[-1]}: {symbol}"

    def function(self):
        symbol, library = self.stack[0] if self.stack else ("unknown", "")
        return re.sub(r"::<#[0-9a-f]*>", "", symbol) + (" (kernel)" if "kernel" in library else "")


def of_libc(symbol):
    if re.search("mem(move|cpy|set)", symbol):
        return "copies and clears bytes"
    if re.search("alloc|free|unlink_chunk|request2size", symbol):
        return "takes and gives memory"
    if re.search("yield|nanosleep", symbol):
        return "waits"
    return "other"


def samples(lines):
    """The samples, each of which ends with an empty line."""
    block = []
    for line in lines:
        if line.strip():
            block.append(line.rstrip())
        elif block:
            yield Sample(block)
            block = []


def table(title, counts, total, top):
    """`counts` has a count of the main thread and of the others for each name."""
    alone = not any(others for _, others in counts.values())
    print(f"{title}, in % of the processors' time{'' if alone else ': of the main thread, and of the others'}")
    for name, (main, others) in sorted(counts.items(), key=lambda item: -sum(item[1]))[:top]:
        if (main + others) * 500 >= total:
            cells = [main] if alone else [main, others]
            print(" ".join(f"{100 * cell / total:6.1f}" for cell in cells), "", name)


def main(program, top):
    kinds, functions = collections.defaultdict(lambda: [0, 0]), collections.defaultdict(lambda: [0, 0])
    total = 0
    for sample in samples(sys.stdin):
        if sample.command.strip() in (program, "onvm"):
            total += 1
            kinds[sample.kind(program)][not sample.is_main] += 1
            functions[sample.function()][not sample.is_main] += 1
    if not total:
        sys.exit("samples.py: no sample is of the program")
    table("by kind of work", kinds, total, 40)
    table("by function", functions, total, top)


if __name__ == "__main__":
    main(sys.argv[1], int(sys.argv[2]))
