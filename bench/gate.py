#!/usr/bin/env python3
"""gate.py: the merge gate. It checks whether docs/TRUSTED.md lists what has to be believed, runs `rt ci`, that is every proof
that has not passed on this machine before, the tests and the edits that must fail, then plays the rows against the program as both compilers build it, edits random documents in it and
compares its answers with those about the same texts opened anew, counts what requests and changes allocate in a short and in a long text,
plays sessions while memory is refused to it, does to it what a machine does to a process, and prints what all of it took. The last line counts
all of this: 'N passed, M failed'."""

import os
import re
import resource
import subprocess
import sys
import time

import trusted

ROOT = os.path.join(os.path.dirname(os.path.realpath(__file__)), "..")
COUNT = re.compile(r"(\d+) passed, (\d+) failed$")

# What is played after `rt ci`, against the program that it built.
BEHIND = (
    ("rows", "rows/play.py"),
    ("rows of the checker", "rows/check.py"),
    ("sessions of random edits", "bench/edits.py"),
    ("allocations of requests and changes", "bench/allocations.py"),
    ("refused memory", "bench/memory.py"),
    ("devices, signals, sizes and depth", "bench/process.py"),
)

# What one check takes of memory at most, in bytes.
A_CHECK = 5 << 30


def lanes():
    """How many crates are proved at a time, by one process each: several processes for one crate would load its libraries several times."""
    memory = os.sysconf("SC_PAGE_SIZE") * os.sysconf("SC_PHYS_PAGES")
    return max(1, min(len(os.sched_getaffinity(0)), memory // A_CHECK))


def counted(words):
    """Runs the words and passes on what they print, but for the last line, which counts; returns the counts."""
    passed, failed, last = 0, 1, None
    with subprocess.Popen(words, cwd=ROOT, stdout=subprocess.PIPE, text=True, errors="replace") as run:
        for line in run.stdout:
            if last is not None:
                print(last, end="", flush=True)
            last = line
    found = COUNT.match((last or "").strip())
    if found:
        passed, failed = int(found[1]), int(found[2])
    elif last:
        print(last, end="", flush=True)
    if run.returncode and not failed:
        failed = 1
    return passed, failed


def main():
    start = time.monotonic()
    listed = (0, 1) if trusted.wrong() else (1, 0)
    os.environ.setdefault("RT_JOBS", str(lanes()))
    proofs = counted(["rt", "ci"])
    print(f"proofs, tests and edits: {proofs[0]} right, {proofs[1]} wrong", flush=True)
    counts = [listed, proofs]
    for name, script in BEHIND:
        middle = time.monotonic()
        counts.append(counted([sys.executable, f"{ROOT}/{script}"]))
        print(f"{name}: {counts[-1][0]} right, {counts[-1][1]} wrong, in {time.monotonic() - middle:.0f} s", flush=True)
    used = resource.getrusage(resource.RUSAGE_CHILDREN)
    print(f"{(time.monotonic() - start) / 60:.0f} minutes, {(used.ru_utime + used.ru_stime) / 60:.0f} of processor time")
    passed, failed = map(sum, zip(*counts))
    print(f"{passed} passed, {failed} failed")
    return 1 if failed else 0


if __name__ == "__main__":
    sys.exit(main())
