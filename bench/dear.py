#!/usr/bin/env python3
"""dear.py [--anew] [NAME..]: runs `rt ci` with these words, and prints the minutes of processor time that it took for each crate's proof, tests
and wrong edits, and the twenty costliest functions of the proofs.

A crate is proved by one process, which puts each checked module into a file of its own, so the gap before a file is what its module took. A
function stands for all modules that are made of it, and a cycle of functions for one. These are seconds by the clock, which other work on
the machine lengthens. What `rt ci` passed before, in any copy of the
crates, it does not prove again unless with --anew, and then it proves all that was named and what that stands on.
"""

import collections
import glob
import os
import re
import subprocess
import sys
import tempfile
import time

ROOT = os.path.join(os.path.dirname(os.path.realpath(__file__)), "..")
TICKS = os.sysconf("SC_CLK_TCK")
MODULE = re.compile(r"^Rattle[-.](\w+)[-.](?:specs\.contracts|proofs)\.")
PART = re.compile(r"\.(Lts|Proof|Answers|Goals|Tie|Kinds|Layout|Key|Mir|Code)\b.*")


class Process:
    """A process of the prover: its crate, what it is for, its seconds so far, and when it wrote each module."""

    def __init__(self, pid, words):
        self.crate = words[words.index("--crate-name") + 1]
        is_edit = os.path.basename(os.readlink(f"/proc/{pid}/cwd")).startswith("rt-edit-")
        self.task = "edits" if is_edit else "tests" if "--test" in words else "proof"
        self.seconds, self.written = 0, {}

    def look(self, pid, room):
        with open(f"/proc/{pid}/stat", encoding="utf-8") as it:
            words = it.read().rpartition(")")[2].split()
        self.seconds = (int(words[11]) + int(words[12])) / TICKS
        for folder in glob.glob(f"{room}/rattle-logic-built-*-{pid}-*/"):
            for it in os.scandir(folder):
                if it.name.endswith(".oantt") and it.name not in self.written:
                    self.written[it.name] = it.stat().st_mtime


def provers(session):
    """The words of each process of the prover in this session, by its number."""
    for pid in filter(str.isdigit, os.listdir("/proc")):
        try:
            with open(f"/proc/{pid}/cmdline", encoding="utf-8", errors="replace") as it:
                words = it.read().split("\0")
            if "--crate-name" in words and os.getsid(int(pid)) == session:
                yield int(pid), words
        except OSError:
            pass


def watched(words):
    """Runs `rt ci` with these words; returns the processes of the prover that it started, and its exit status."""
    found = {}
    with tempfile.TemporaryDirectory(prefix="dear-") as room:
        os.chmod(room, 0o711)
        with subprocess.Popen(["rt", "ci", *words], cwd=ROOT, env={**os.environ, "TMPDIR": room}, start_new_session=True) as run:
            while run.poll() is None:
                for pid, said in provers(run.pid):
                    try:
                        if pid not in found:
                            found[pid] = Process(pid, said)
                        found[pid].look(pid, room)
                    except OSError:
                        pass
                time.sleep(1)
    return found.values(), run.returncode


def functions(process):
    """The seconds of each function of the crate, by the times at which its modules were written."""
    seconds = collections.Counter()
    written = sorted((when, file.removesuffix(".oantt")) for file, when in process.written.items())
    for (before, _), (after, module) in zip(written, written[1:]):
        own = MODULE.match(module)
        if own and own[1] == process.crate:
            module = module[own.end() :]
            part = PART.search(module)
            seconds[f"{process.crate}::{(module[: part.start()] if part else module).replace('.', '::')}"] += after - before
    return seconds


def report(processes):
    minutes, dearest = collections.defaultdict(collections.Counter), collections.Counter()
    for it in processes:
        minutes[it.crate][it.task] += it.seconds / 60
        if it.task == "proof":
            dearest += functions(it)
    print("minutes of processor time:   proof   tests   edits")
    for name, tasks in sorted(minutes.items(), key=lambda it: -sum(it[1].values())):
        print(f"{name:26}" + "".join(f"{tasks[it]:8.1f}" for it in ("proof", "tests", "edits")))
    print("the costliest functions, in seconds:")
    for name, seconds in dearest.most_common(20):
        print(f"{seconds:6.1f}  {name}")


def main():
    processes, status = watched(sys.argv[1:])
    report(processes)
    return status


if __name__ == "__main__":
    sys.exit(main())
