#!/usr/bin/env python3
"""allocations.py [--program PATH]: counts the allocations that a request or a change makes in a short text and in a long one.

Each is made in a text of 200 commands and in one of 2,000, and touches one command. The allocator of refuse.c counts the allocations of
the whole session; those of the same session without it are taken off. In the long text it may make at most a tenth more than in the short one,
and four more for buffers that grow: so a request that reads the whole text again, or a change that types other commands again, is seen.

The last line is 'N passed, M failed'.
"""

import argparse
import os
import subprocess
import sys
import tempfile

sys.path.insert(0, os.path.join(os.path.dirname(os.path.realpath(__file__)), "..", "rows"))

from memory import compiled
from play import built
from session import URI, frame_of

SHORT, LONG = 200, 2_000
# In the text the line with this number, in the middle, is the one that is touched; the derivation is of the first line.
LINE = {count: count // 2 for count in (SHORT, LONG)}


def text_of(count):
    """A text of so many commands, each on a line of its own; the one in the middle uses the one before it."""
    lines = [f"x{number} = lambda r:{{a:Nat}}. succ r.a;" for number in range(count)]
    middle = LINE[count]
    lines[middle - 1] = "point = {a=0, b=true};"
    lines[middle] = "y = point.a;"
    return "\n".join(lines) + "\n"


def at(line, character):
    return {"textDocument": {"uri": URI}, "position": {"line": line, "character": character}}


def request(method, line, character):
    return {"id": 1, "method": method, "params": at(line, character)}


def change(line, first, last, text):
    """A change of the characters from the first to the last of a line."""
    ends = {"start": {"line": line, "character": first}, "end": {"line": line, "character": last}}
    edit = {"range": ends, "text": text}
    params = {"textDocument": {"uri": URI, "version": 2}, "contentChanges": [edit]}
    return {"method": "textDocument/didChange", "params": params}


# What is made, by the number of the line in the middle.
MADE = {
    "a hover": lambda line: request("textDocument/hover", line, 5),
    "a completion after a dot": lambda line: request("textDocument/completion", line, 10),
    "a derivation in the first command": lambda line: request("fullsub/derivation", 0, 30),
    "a blank": lambda line: change(line, 3, 3, " "),
    "a letter in a name that no other command uses": lambda line: change(line, 1, 1, "y"),
    "another type of a name that one other command uses": lambda line: change(line - 1, 11, 12, "{c=1}"),
    "a command cut in two": lambda line: change(line, 4, 4, "1; "),
}


def session(count, made):
    """The frames of a session that opens the text of so many commands, and makes this, or nothing."""
    opened = {"uri": URI, "languageId": "fullsub", "version": 1, "text": text_of(count)}
    messages = [
        {"id": 0, "method": "initialize", "params": {"capabilities": {}}},
        {"method": "initialized", "params": {}},
        {"method": "textDocument/didOpen", "params": {"textDocument": opened}},
        *([made(LINE[count])] if made else []),
        {"id": 2, "method": "shutdown"},
        {"method": "exit"},
    ]
    return b"".join(map(frame_of, messages))


def allocations(program, library, frames):
    """How many allocations the program makes for these frames."""
    told, tells = os.pipe()
    environment = {**os.environ, "LD_PRELOAD": library, "REPORT_TO": str(tells)}
    with open(told, "rb") as report:
        with open(tells, "wb"):
            subprocess.run([program], input=frames, stdout=subprocess.DEVNULL, env=environment, pass_fds=[tells], check=True)
        return int(report.read())


def added(program, library, count, made):
    """How many allocations this adds to the session in the text of so many commands."""
    return allocations(program, library, session(count, made)) - allocations(program, library, session(count, None))


def main():
    words = argparse.ArgumentParser(description=__doc__)
    words.add_argument("--program", action="append", help="a program to play against (else those that the gate built)")
    programs, right, wrong = built(words.parse_args().program), 0, 0
    with tempfile.TemporaryDirectory(prefix="allocations-") as folder:
        library = compiled(folder)
        for program in programs:
            print(f"{os.path.relpath(program)}: allocations in a text of {SHORT} commands, and in one of {LONG:,}")
            for name, made in MADE.items():
                short, long = (added(program, library, count, made) for count in (SHORT, LONG))
                is_right = 0 < short and long <= short + short // 10 + 4
                right, wrong = right + is_right, wrong + (not is_right)
                print(f"  {name}: {short}, {long}{'' if is_right else ' (WRONG)'}")
    print(f"{right} passed, {wrong} failed")
    return 1 if wrong or not right else 0


if __name__ == "__main__":
    sys.exit(main())
