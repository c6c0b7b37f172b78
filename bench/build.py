#!/usr/bin/env python3
"""build.py: proves the crates that the programs stand on, side by side, and builds them; says how far it is and how long is left.

Each crate is proved once those below it are, those with the longest chain above them first. The one with the longest chain gets as many
processes as there are processors, but no more than four, and one for each five minutes that it takes, since each process reads the libraries
anew; the others get one, and a crate waits while there are more processes than processors. The libraries hold statements alone, as in the
gate, which is all that those above them cite. `rt` locks what a crate stands on, so those that stand on one crate wait for each other. What
was built before and has not changed is not built again.
"""

import concurrent.futures
import os
import subprocess
import sys
import time

PROGRAMS = ("lam_server", "lam_check")
ROOT = os.path.join(os.path.dirname(os.path.realpath(__file__)), "..")
# Minutes of processor time that each crate took here from nothing, on two processors of 2.5 GHz.
MINUTES = {
    "lam_token": 2, "lam_text": 2, "lam_frame": 3, "lam_rpc": 2, "lam_rules": 7, "lam_sub": 3, "lam_lattice": 3, "lam_syntax": 7,
    "lam_scope": 24, "lam_typing": 15, "lam_query": 35, "lam_session": 18, "lam_server": 9, "lam_check": 27,
}


def crates():
    """Each crate of crates.txt with the crates of this repository that it stands on."""
    below = {}
    with open(f"{ROOT}/crates.txt", encoding="utf-8") as it:
        for line in it:
            name, colon, words = line.partition("#")[0].partition(":")
            if colon:
                below[name.split()[0]] = words.split()
    return {name: [it for it in words if it in below] for name, words in below.items()}


def needed(below, tops=PROGRAMS):
    """These crates and all that they stand on, the lowest first."""
    found = []

    def add(name):
        for it in below[name]:
            add(it)
        if name not in found:
            found.append(name)

    for it in tops:
        add(it)
    return found


def chains(below, work):
    """For each crate how long it is, with the longest chain of crates from it up to a program."""
    length = {}
    for name in reversed(needed(below)):
        length[name] = work[name] + max((length[it] for it in work if name in below[it]), default=0)
    return length


def prove(name, jobs):
    """Proves a crate by that many processes; returns the minutes of processor time, or None where it fails, and prints then what it said."""
    words = ["rt", "run", "--jobs", str(jobs), "--", "--help"] if name in PROGRAMS else ["rt", "lib", "--jobs", str(jobs), "--statements"]
    with subprocess.Popen(words, cwd=f"{ROOT}/crates/{name}", stdout=subprocess.PIPE, stderr=subprocess.STDOUT, text=True, errors="replace") as run:
        said = run.stdout.read()
        _, status, used = os.wait4(run.pid, 0)
        run.returncode = os.waitstatus_to_exitcode(status)
    if run.returncode:
        print(said[-6000:], file=sys.stderr)
        return None
    return (used.ru_utime + used.ru_stime) / 60


def processes(name, cores):
    """How many processes prove the crate with the longest chain."""
    return max(1, min(4, cores, MINUTES[name] // 5))


def seconds_left(below, done, cores):
    """A guess, by how long the crates that are done took here: the time that the processors need for all that are left, or their processes
    for the longest chain of these, with both programs, which wait for each other. Two take three quarters of the time of one, and four half."""
    pace = sum(done.values()) / sum(MINUTES[it] for it in done) if any(done.values()) else 1
    work = {it: 0 if it in done else MINUTES[it] for it in needed(below)}
    jobs = {it: processes(it, cores) for it in work}
    chain = {it: work[it] / jobs[it] + (work[it] / 4 if jobs[it] > 1 else 0) for it in work}
    first, last = PROGRAMS
    in_turn = {**below, last: [*below[last], first]}
    return 60 * pace * max(sum(work.values()) / cores, *chains(in_turn, chain).values())


def clock(seconds):
    return f"{seconds / 60:.0f} min" if seconds >= 90 else f"{seconds:.0f} s"


def main():
    below, start = crates(), time.monotonic()
    left, cores = needed(below), len(os.sched_getaffinity(0))
    done, running, count = {}, {}, len(left)
    length = chains(below, MINUTES)
    left.sort(key=length.get, reverse=True)
    print(f"{count} crates to prove on {cores} processors, about {clock(seconds_left(below, done, cores))} from nothing", flush=True)
    with concurrent.futures.ThreadPoolExecutor(count) as pool:
        while left or running:
            longest = max(length[it] for it in [*left, *(name for name, _ in running.values())])
            for name in [it for it in left if all(under in done for under in below[it])]:
                if sum(jobs for _, jobs in running.values()) > cores:
                    break
                jobs = processes(name, cores) if length[name] == longest else 1
                left.remove(name)
                running[pool.submit(prove, name, jobs)] = name, jobs
            for it in concurrent.futures.wait(running, return_when=concurrent.futures.FIRST_COMPLETED).done:
                (name, _), minutes = running.pop(it), it.result()
                if minutes is None:
                    sys.exit(f"{name} is not proved")
                done[name] = minutes
                rest = seconds_left(below, done, cores)
                ahead = f", about {clock(rest)} left" if rest else ""
                print(f"{name} is proved, {minutes:.1f} min of one processor: {len(done)} of {count} crates, {clock(time.monotonic() - start)}{ahead}", flush=True)


if __name__ == "__main__":
    main()
