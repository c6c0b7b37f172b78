#!/usr/bin/env python3
"""memory.py [--program PATH] [ROWS..]: plays sessions against the built program while memory is refused to it.

First the sessions of rows/hostile.rows, or of the row files that are named: each allocation of a session is refused in turn, once alone and
once with all later ones, by the allocator of refuse.c. Then a text of 16 MB is opened under ten limits of the address space, between what
an empty text takes and what this one takes, and under one that is ample. Each time the program must end with the status and the line for
memory that was refused, or answer as with ample memory. What it wrote must be whole frames, the first of those that it writes with
ample memory, and no signal may end it.

A session counts once, however often it is played, but each wrong end of it counts; each limit counts once. The last line is
'N passed, M failed'.
"""

import argparse
import collections
import concurrent.futures
import itertools
import os
import resource
import subprocess
import sys
import tempfile
import time

import make_document

HERE = os.path.dirname(os.path.realpath(__file__))
ROWS = os.path.join(HERE, "..", "rows")
sys.path.insert(0, ROWS)

from client import SECONDS, Script, framed, ran
from play import built, plays
from read import Block, Row
from running import Running

# The two ends of a run that are right; any other is told in words of its own.
REFUSED = "ended with status 5 and F7 Memory"
ANSWERED = "answered as with ample memory"

# The ways in which an allocation is refused, each with the last one that is refused; the second way ends later than any allocation.
WAYS = (("alone", lambda number: number), ("with all later ones", lambda number: 1 << 62))

# How many wrong ends of one session are told.
TOLD = 5

# So many commands are a text of 16 MB.
COMMANDS = 340_000
LIMITS = 10


def answer_of(script):
    """All that must be written."""
    return b"".join(framed(it.body) for it in script.wanted)


def borders_of(script):
    """How many bytes of it have been written before the first answer, after the first one, and so on to the last."""
    return set(itertools.accumulate((len(framed(it.body)) for it in script.wanted), initial=0))


def end_of(program, script, **started):
    """How the run ends that is started so: REFUSED, ANSWERED, or what is wrong."""
    try:
        done = ran(program, script, b"".join(frame for frame, _ in script.sent), **started)
    except subprocess.TimeoutExpired:
        return f"no end after {SECONDS} seconds"
    answer, told = answer_of(script), done.stderr.decode(errors="replace")
    if not answer.startswith(done.stdout) or len(done.stdout) not in borders_of(script):
        return f"wrote {len(done.stdout)} bytes that are no frames of the answers, at their end {done.stdout[-80:]!r}"
    if (done.returncode, told) == (5, "lam_server: F7 Memory\n"):
        return REFUSED
    if (done.returncode, told, done.stdout) == (script.status, script.says, answer):
        return ANSWERED
    return f"ended with status {done.returncode} after {len(done.stdout)} of {len(answer)} bytes, and said {told!r}"


# Allocations are refused.


def compiled(folder):
    """The library that refuses allocations."""
    library = os.path.join(folder, "refuse.so")
    subprocess.run(["cc", "-O2", "-shared", "-fPIC", "-o", library, os.path.join(HERE, "refuse.c")], check=True)
    return library


def end_and_count(program, script, library, first, last):
    """How the run ends in which the allocations from the first to the last are refused, and how many it makes."""
    told, tells = os.pipe()
    numbers = {"REFUSE_FROM": first, "REFUSE_TO": last, "REPORT_TO": tells}
    environment = {**os.environ, "LD_PRELOAD": library, **{name: str(it) for name, it in numbers.items()}}
    with open(told, "rb") as report:
        with open(tells, "wb"):
            end = end_of(program, script, env=environment, pass_fds=[tells])
        return end, int(report.read() or 0)


def end_of_refused(program, script, library, first, last):
    """How the run ends in which these allocations are refused; it is wrong too where it makes none of them."""
    end, count = end_and_count(program, script, library, first, last)
    return f"{end}, but made {count} allocations only" if count < first and end in (REFUSED, ANSWERED) else end


def refuse_each(program, script, library):
    """Refuses each allocation of the session in turn; prints how the runs end, and returns how many end wrongly."""
    end, count = end_and_count(program, script, library, 0, 0)
    if end != ANSWERED or not count:
        print(f"  with ample memory: {end}, {count} allocations")
        return 1
    wrong = 0
    for way, last in WAYS:
        start, numbers = time.monotonic(), range(1, count + 1)
        with concurrent.futures.ThreadPoolExecutor(len(os.sched_getaffinity(0))) as pool:
            ends = list(pool.map(lambda it: end_of_refused(program, script, library, it, last(it)), numbers))
        others = [(number, it) for number, it in zip(numbers, ends) if it not in (REFUSED, ANSWERED)]
        for number, it in others[:TOLD]:
            print(f"  allocation {number} refused {way}: {it}")
        counts = collections.Counter(ends)
        told = ", ".join(f"{counts[it]} {it}" for it in (REFUSED, ANSWERED))
        print(f"  {count} allocations refused, each {way}: {told}, {len(others)} wrong, in {time.monotonic() - start:.1f} s", flush=True)
        wrong += len(others)
    return wrong


def play_refused(programs, files):
    """Plays the sessions of the files; returns how many are right, and how many ends are wrong."""
    played = [plays(os.path.relpath(it)) for it in files]
    mistakes = [it for _, told in played for it in told]
    for it in mistakes:
        print(it)
    right, wrong = 0, len(mistakes)
    with tempfile.TemporaryDirectory(prefix="memory-") as folder:
        library = compiled(folder)
        for program, script in itertools.product(programs, [it for ways, _ in played for it in ways]):
            print(f"{os.path.relpath(program)}: {script.row.title} ({script.row.file}:{script.row.line})")
            failed = refuse_each(program, script, library)
            right, wrong = right + (not failed), wrong + failed
    return right, wrong


# The address space is limited.


def opening(text):
    """The session that opens a text without faults, and ends."""
    block = Block(0, "open", "file:///a", given=text)
    return Script(Row("memory.py", 0, "a text is opened", steps=[block]), "1", "utf-16")


def address_space(program, script):
    """The most address space, in bytes, that the program takes until all of the session is answered."""
    with Running(program, script) as run:
        run.give(b"".join(frame for frame, _ in script.sent[:-1]))
        run.take(len(answer_of(script)))
        return 1024 * int(run.status("VmPeak"))


def end_under(program, script, limit):
    """How the program ends under this limit of its address space, in bytes."""
    return end_of(program, script, preexec_fn=lambda: resource.setrlimit(resource.RLIMIT_AS, (limit, limit)))


def limit_each(program, script):
    """Plays the session under each limit; prints how the runs end, and returns how many end rightly and how many wrongly."""
    least, most = address_space(program, opening("")), address_space(program, script)
    print(f"  address space that an empty text takes: {least / 1e6:.1f} MB, that this one takes: {most / 1e6:.1f} MB")
    limits = [(least + (most - least) * step // (LIMITS + 1), REFUSED) for step in range(1, LIMITS + 1)]
    wrong = 0
    for limit, wanted in [*limits, (2 * most, ANSWERED)]:
        start = time.monotonic()
        end = end_under(program, script, limit)
        wrong += end != wanted
        print(f"  limit {limit / 1e6:.1f} MB: {end}{'' if end == wanted else ' (WRONG)'}, in {time.monotonic() - start:.1f} s", flush=True)
    return len(limits) + 1 - wrong, wrong


def play_limited(programs):
    """Opens the large text; returns how many limits are right and how many wrong."""
    script, right, wrong = opening(make_document.document(COMMANDS)), 0, 0
    size = sum(len(frame) for frame, _ in script.sent)
    for program in programs:
        print(f"{os.path.relpath(program)}: a text of {COMMANDS:,} commands is opened, in a session of {size / 1e6:.1f} MB")
        counts = limit_each(program, script)
        right, wrong = right + counts[0], wrong + counts[1]
    return right, wrong


def main():
    words = argparse.ArgumentParser(description=__doc__)
    words.add_argument("--program", action="append", help="a program to play against (else those that the gate built)")
    words.add_argument("rows", nargs="*", help="row files (else rows/hostile.rows)")
    given = words.parse_args()
    start, programs = time.monotonic(), built(given.program)
    refused = play_refused(programs, given.rows or [os.path.join(ROWS, "hostile.rows")])
    limited = play_limited(programs)
    print(f"{time.monotonic() - start:.0f} s")
    right, wrong = refused[0] + limited[0], refused[1] + limited[1]
    print(f"{right} passed, {wrong} failed")
    return 1 if wrong or not right else 0


if __name__ == "__main__":
    sys.exit(main())
