#!/usr/bin/env python3
"""process.py [--program PATH] [--stacks]: does to the built program what a machine does to a process, and looks how it ends.

Its standard output is closed, full or slow, or its reader goes away; its standard input is closed, ends anywhere or cannot be read; it is
interrupted while it waits, works and writes. It is given the greatest message and a greater one, 10,000 documents, 100,000 changes, a line
of 16 MB and 5,000 comments in one another, and each production of the grammar as deep as it goes, with a stack of 8 MiB and of 4 MiB.
Each time it must end with its own status and line on standard error, and by no signal but the one that is sent from here. What it wrote
must be what an undisturbed run writes, or whole frames that begin this, or where it can write no more, any front of this.

A case has one line, which tells how its runs ended, and counts once. The last line is 'N passed, M failed'. With --stacks there are no
cases: a table is printed of how much stack the deep texts need.
"""

import argparse
import collections
import functools
import os
import resource
import signal
import socket
import subprocess
import sys
import time
from dataclasses import dataclass

import make_document

HERE = os.path.dirname(os.path.realpath(__file__))
sys.path.insert(0, os.path.join(HERE, "..", "rows"))

import deep
from asking import Session
from client import SECONDS, Script, command_line, framed, ran, span
from memory import answer_of, borders_of
from play import built
from running import Running

URI = "file:///a"

# A status, and what stands on standard error.
ENDED = (0, "")
LEFT = (1, "")
TOO_LONG = (3, "lam_server: F3 TooLong\n")
TRUNCATED = (3, "lam_server: F5 Truncated\n")
DEVICE = (4, "lam_server: F6 Device\n")

# How much of the answer must have been written.
ALL, FRAMES, FRONT = "all", "whole frames", "a front"

# The greatest body, the least room of a pipe, the room of a stack that is ample for all, and those with which the deep texts are answered.
BODY = 64 << 20
ROOM = 4096
AMPLE = 64 << 20
STACKS = (8 << 20, 4 << 20)

# A signal that is to come while the program works may come too late if others work at the same time: it is tried so often.
TRIES = 10


@dataclass
class Seen:
    """How a run ended, and how it should have."""

    script: Script
    status: int
    told: str
    written: bytes
    wanted: tuple
    extent: str = FRAMES
    note: str = ""
    is_odd: bool = False

    def is_right(self):
        answer, length = answer_of(self.script), len(self.written)
        if self.is_odd or (self.status, self.told) != self.wanted or not answer.startswith(self.written):
            return False
        return {ALL: length == len(answer), FRAMES: length in borders_of(self.script), FRONT: True}[self.extent]

    def shown(self):
        """The end in a few words; of a wrong one also how much was written."""
        ended = f"status {self.status}" if self.status >= 0 else signal.Signals(-self.status).name
        told = self.told.strip().removeprefix("lam_server: ") or "no line"
        if not self.is_right():
            return f"{ended}, {told}, {len(self.written):,} bytes, where the answer has {len(answer_of(self.script)):,}"
        return f"{ended}, {told}, {self.extent + ' of the answer' if self.written else 'nothing written'}"


def given_to(script, messages=None):
    """What is sent in all, or in so many messages."""
    return b"".join(frame for frame, _ in script.sent[:messages])


def answer_to(script, messages):
    """What must be written where only so many messages are sent."""
    return b"".join(framed(it.body) for it in script.wanted[: script.sent[messages - 1][1]]) if messages else b""


def seen_of(script, done, wanted, extent=FRAMES, **more):
    """What was seen of a run of subprocess that is over."""
    return Seen(script, done.returncode, done.stderr.decode(errors="replace"), done.stdout, wanted, extent, **more)


def undisturbed(script, program, note="", **started):
    """A run to which nothing is done."""
    return seen_of(script, ran(program, script, given_to(script), **started), ENDED, ALL, note=note)


@functools.lru_cache(None)
def talk():
    """A session of 200 hovers, whose answer is longer than a pipe of the least room."""

    def ask(session):
        session.open(URI, "x = {a=0}; x")
        for _ in range(200):
            session.hover(URI, 11, span((0, 11), (0, 12)), "{a:Nat}")

    return Session("200 hovers", ask)


# Standard input and output.


def closes(*descriptors):
    """What the new process does before the program starts: it closes these."""
    return lambda: [os.close(it) for it in descriptors]


def opens(descriptor, path, flags):
    """What the new process does before the program starts: it opens the path as this descriptor."""
    return lambda: os.dup2(os.open(path, flags), descriptor)


def broken(breaks, wanted, program):
    """A device that is broken before the program starts."""
    done = ran(program, talk(), given_to(talk()), preexec_fn=breaks)
    yield seen_of(talk(), done, wanted, is_odd=bool(done.stdout))


def slow(program):
    """A reader that takes one byte at a time."""
    with Running(program, talk(), room=ROOM) as run:
        run.give(given_to(talk()))
        written = run.take(len(answer_of(talk())), piece=1)
        rest, status, told = run.end()
    yield Seen(talk(), status, told, written + rest, ENDED, ALL)


def gone(program):
    """A reader that stops behind any byte, and goes away when the program can write no more; the system's signal is heeded or not."""
    for number, length in enumerate(range(0, len(answer_of(talk())) - 2 * ROOM, 331)):
        with Running(program, talk(), room=ROOM, restore_signals=bool(number % 2)) as run:
            run.give(given_to(talk()))
            written = run.take(length)
            run.settle()
            run.process.stdout.close()
            _, status, told = run.end()
        yield Seen(talk(), status, told, written, DEVICE, FRONT, is_odd=len(written) != length)


def cut(messages, part, program):
    """An input that ends so many messages later and in this part of the next one, behind each byte of the part."""
    start, script = len(given_to(talk(), messages)), talk()
    header, body = (len(it) for it in script.sent[messages][0].split(b"\r\n\r\n"))
    lengths = {"border": [0], "header": range(1, header + 4), "body": range(header + 4, header + 4 + body)}[part]
    for length in lengths:
        done = ran(program, script, given_to(script)[: start + length])
        wanted = LEFT if part == "border" else TRUNCATED
        yield seen_of(script, done, wanted, is_odd=done.stdout != answer_to(script, messages))


def one_by_one(program):
    """Each message is sent when the one before it is answered: a program that reads on before it answers waits for ever."""
    script, written = talk(), b""
    with Running(program, script) as run:
        for number, (frame, _) in enumerate(script.sent, 1):
            run.give(frame)
            written += run.take(len(answer_to(script, number)) - len(written))
        rest, status, told = run.end()
    yield Seen(script, status, told, written + rest, ENDED, ALL)


def reset(program):
    """A socket as standard input, which is reset behind any number of whole messages: its client left unread what was sent to it."""
    for messages in range(len(talk().sent)):
        here, there = socket.socketpair()
        there.send(b"never read")
        here.sendall(given_to(talk(), messages))
        here.close()
        with there:
            done = subprocess.run(command_line(program, talk()), stdin=there, capture_output=True, timeout=SECONDS, check=False)
        yield seen_of(talk(), done, DEVICE, is_odd=done.stdout != answer_to(talk(), messages))


def device_cases():
    """The cases of standard input and output."""
    read, write = os.O_RDONLY, os.O_WRONLY
    return [
        ("standard output closed", functools.partial(broken, closes(1), DEVICE)),
        ("standard output closed, and standard error", functools.partial(broken, closes(1, 2), (4, ""))),
        ("standard output full", functools.partial(broken, opens(1, "/dev/full", write), DEVICE)),
        ("standard output that cannot be written", functools.partial(broken, opens(1, "/dev/null", read), DEVICE)),
        ("standard output taken by single bytes", slow),
        ("standard output whose reader stops and goes", gone),
        ("standard input closed", functools.partial(broken, closes(0), DEVICE)),
        ("standard input that is a directory", functools.partial(broken, opens(0, "/", read), DEVICE)),
        ("standard input that cannot be read", functools.partial(broken, opens(0, "/dev/null", write), DEVICE)),
        ("standard input by single messages, each sent when the one before it is answered", one_by_one),
        ("standard input that fails behind any number of messages", reset),
        ("standard input that ends at once", functools.partial(cut, 0, "border")),
        ("standard input that ends behind a message", functools.partial(cut, 2, "border")),
        ("standard input that ends in a header", functools.partial(cut, 2, "header")),
        ("standard input that ends in a body", functools.partial(cut, 2, "body")),
    ]


# Signals.


def heed():
    """In the new process: the signals have their own effect, whatever the parent does with them."""
    for number in (signal.SIGINT, signal.SIGTERM):
        signal.signal(number, signal.SIG_DFL)


def stopped(run, script, number, written, extent=FRAMES):
    """Sends the signal to the run, which has written this before: it must write no more, but for what is in its pipe."""
    run.process.send_signal(number)
    rest, status, told = run.end()
    return Seen(script, status, told, written + rest, (-number, ""), extent, is_odd=bool(rest) != (extent == FRONT))


def while_it_waits(number, program):
    """All that it was given is answered."""
    with Running(program, talk(), preexec_fn=heed) as run:
        run.give(given_to(talk(), 5))
        written = run.take(len(answer_to(talk(), 5)))
        run.settle()
        yield stopped(run, talk(), number, written)


@functools.lru_cache(None)
def work():
    """A session with a text of 3.5 MB, of which nothing is asked."""
    return Session("500,000 commands", lambda session: session.open(URI, 500_000 * "x = 0; "))


def while_it_works(number, program):
    """It has read the text, and does not tell its faults yet; where the signal comes too late for that, it is tried again."""
    for _ in range(TRIES):
        with Running(program, work(), preexec_fn=heed) as run:
            run.give(given_to(work(), 2))
            written = run.take(len(answer_to(work(), 1)))
            run.wait_for_feeder()
            seen = stopped(run, work(), number, written)
        if not seen.is_odd:
            break
    yield seen


def while_it_writes(number, program):
    """Its reader takes nothing, and the pipe is full."""
    with Running(program, talk(), room=ROOM, preexec_fn=heed) as run:
        run.give(given_to(talk()))
        run.settle()
        yield stopped(run, talk(), number, b"", FRONT)


def signal_cases():
    scenes = (("waits", while_it_waits), ("works", while_it_works), ("writes", while_it_writes))
    numbers = (signal.SIGINT, signal.SIGTERM)
    return [(f"{it.name} while it {name}", functools.partial(scene, it)) for it in numbers for name, scene in scenes]


# Sizes.


def once(session, program):
    """One run of a session to which nothing is done."""
    yield undisturbed(session(), program)


@functools.lru_cache(None)
def greatest_body():
    """A session that opens a comment, in a message of just the greatest length, and asks for a type in it."""

    def ask(letters, session):
        session.open(URI, f"/*{letters * 'a'}*/")
        session.hover(URI, 2)

    empty = Session("a comment", functools.partial(ask, 0))
    length = len(empty.sent[1][0].partition(b"\r\n\r\n")[2])
    return Session("the greatest body", functools.partial(ask, BODY - length))


def too_great_body(program):
    """A header that tells one byte more than the greatest body has, behind a message. No body is sent, and the input does not end."""
    with Running(program, talk()) as run:
        run.give(given_to(talk(), 1) + b"Content-Length: %d\r\n\r\n" % (BODY + 1))
        run.process.wait()
        rest, status, told = run.end()
    yield Seen(talk(), status, told, rest, TOO_LONG, is_odd=rest != answer_to(talk(), 1))


@functools.lru_cache(None)
def many_documents():
    """10,000 documents, and a type in the first and in the last one."""

    def ask(session):
        for number in range(10_000):
            session.open(f"file:///{number}", f"x = {{a{number}=0}}; x")
        for number in (0, 9_999):
            end = len(f"x = {{a{number}=0}}")
            session.hover(f"file:///{number}", 4, span((0, 4), (0, end)), f"{{a{number}:Nat}}")

    return Session("10,000 documents", ask)


@functools.lru_cache(None)
def long_line():
    """A line of 16 MB, with 10,000 commands and umlauts in comments between them; a fault and a type at its end."""

    def ask(session):
        lines = make_document.document(10_000).splitlines()
        text = "".join(f"{it} /*{770 * 'ä'}*/ " for it in lines)
        at = len(text)
        session.open(URI, text + "succ true; 0", [((0, at), (0, at + 9), "E6")])
        session.hover(URI, at + 11, span((0, at + 11), (0, at + 12)), "Nat")
        session.becomes(URI, 2, span((0, at + 5), (0, at + 9)), "0")

    return Session("a line of 16 MB", ask)


@functools.lru_cache(None)
def comments(closed):
    """5,000 comments in one another, which are closed, with a term behind them, or stay open."""

    def ask(session):
        text = 5_000 * "/*" + closed * 5_000 * "*/"
        faults = [] if closed else [((0, 0), (0, len(text)), "B2")]
        session.open(URI, text + closed * "0", faults)
        place = span((0, len(text)), (0, len(text) + 1))
        session.hover(URI, len(text), place if closed else None, "Nat")

    return Session("5,000 comments", ask)


@functools.lru_cache(None)
def changes():
    """100,000 changes of a short document."""

    def ask(session):
        session.open(URI, "x = 0; x")
        for version in range(2, 100_002):
            is_y = version % 2 == 0
            session.becomes(URI, version, span((0, 7), (0, 8)), "xy"[is_y], [((0, 7), (0, 8), "E1")] if is_y else [])

    return Session("100,000 changes", ask)


def flat(program):
    """The peak of the resident memory behind 100,000 changes is at most a tenth above that behind 1,000."""
    script, written, peaks = changes(), b"", []
    with Running(program, script) as run:
        for first, last in ((0, 1_002), (1_002, 100_002)):
            run.give(b"".join(frame for frame, _ in script.sent[first:last]))
            written += run.take(len(answer_to(script, last)) - len(written))
            peaks.append(int(run.status("VmHWM")))
        run.give(b"".join(frame for frame, _ in script.sent[100_002:]))
        rest, status, told = run.end()
    note = f"VmHWM {peaks[0]:,} kB behind 1,000, {peaks[1]:,} kB behind all"
    yield Seen(script, status, told, written + rest, ENDED, ALL, note, 10 * peaks[1] > 11 * peaks[0])


def size_cases():
    """The cases of great inputs."""
    return [
        ("a body of 64 MiB", functools.partial(once, greatest_body)),
        ("a body of one byte more", too_great_body),
        ("10,000 documents", functools.partial(once, many_documents)),
        ("100,000 changes of one document", flat),
        ("a line of 16 MB", functools.partial(once, long_line)),
        ("5,000 comments in one another", functools.partial(once, functools.partial(comments, True))),
        ("5,000 comments that stay open", functools.partial(once, functools.partial(comments, False))),
    ]


# Depth.


def limited(stack):
    """In the new process: the stack has so many bytes at most."""
    return lambda: resource.setrlimit(resource.RLIMIT_STACK, (stack, stack))


def deep_texts():
    return deep.terms() + deep.types() + deep.subtypings() + deep.faults()


def within_stacks(text, program):
    """The text is opened, each question asked about it, and it is changed."""
    script = Session(text.title, text.ask, text.dialect)
    for stack in STACKS[: 1 if text.title in deep.LARGE else None]:
        yield undisturbed(script, program, f"{stack >> 20} MiB of stack", preexec_fn=limited(stack))


def deep_cases():
    return [(f"{it.title}, {it.depth:,} levels", functools.partial(within_stacks, it)) for it in deep_texts()]


def stack_of(text, program):
    """How many KiB of stack the program has used when all is answered about the text, and its environment is empty."""
    script = Session(text.title, text.ask, text.dialect)
    with Running(program, script, seconds=600, env={}, preexec_fn=limited(AMPLE)) as run:
        run.give(given_to(script, -1))
        if run.take(len(answer_of(script))) != answer_of(script):
            return "answered otherwise"
        return run.status("VmStk")


def print_stacks(programs):
    """Prints how much stack each deep text needs, and that with the deepest types of all."""
    for program in programs:
        print(f"{os.path.relpath(program)}:\n\n| production | levels | KiB of stack |\n|---|---|---|")
        for text in [*deep_texts(), deep.deepest_subtyping()]:
            print(f"| {text.title} | {text.depth:,} | {stack_of(text, program)} |", flush=True)


def line_of(seen):
    """How these runs ended, in a few words."""
    ends = collections.Counter(it.shown() for it in seen)
    words = "; ".join(f"{count} times {end}" if count > 1 else end for end, count in ends.items())
    notes = ", ".join(it.note for it in seen if it.note)
    return f"{words} ({notes})" if notes else words


def is_right(title, runs, program):
    """Plays a case, up to its first wrong run, and prints its line: of that run, else of all."""
    seen = []
    try:
        for it in runs(program):
            seen.append(it)
            if not it.is_right():
                print(f"  {title}: WRONG: {line_of([it])}", flush=True)
                return False
    except subprocess.TimeoutExpired:
        print(f"  {title}: WRONG: no end after {SECONDS} seconds", flush=True)
        return False
    print(f"  {title}: {line_of(seen)}", flush=True)
    return True


def count_right(programs):
    """Plays all cases; returns how many are right and how many wrong."""
    cases, right = device_cases() + signal_cases() + size_cases() + deep_cases(), 0
    for program in programs:
        print(os.path.relpath(program) + ":")
        right += sum(is_right(title, runs, program) for title, runs in cases)
    return right, len(programs) * len(cases) - right


def main():
    words = argparse.ArgumentParser(description=__doc__)
    words.add_argument("--program", action="append", help="a program to play against (else those that the gate built)")
    words.add_argument("--stacks", action="store_true", help="print how much stack the deep texts need")
    given = words.parse_args()
    start, programs = time.monotonic(), built(given.program)
    if given.stacks:
        print_stacks(programs)
        return 0
    right, wrong = count_right(programs)
    print(f"{time.monotonic() - start:.0f} s")
    print(f"{right} passed, {wrong} failed")
    return 1 if wrong or not right else 0


if __name__ == "__main__":
    sys.exit(main())
