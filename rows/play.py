#!/usr/bin/env python3
"""Plays row files against the built program as a client would, and compares every byte. README.md beside it says how rows are written."""

import argparse
import concurrent.futures
import glob
import os
import subprocess
import sys

from client import SECONDS, Failed, Script, checked
from read import Reader
from recordings import check_recording
from texts import Mistake

HERE = os.path.dirname(os.path.realpath(__file__))
BUILT = os.path.join(HERE, "..", "crates", "lam_server", "out", "lam_server")
EXAMPLES = os.path.join(HERE, "..", "examples")
PAGE = os.path.join(HERE, "..", "docs", "LANGUAGE.md")


def built(named):
    """The programs that were named, else those that the gate built."""
    programs = named or [it for it in (BUILT, BUILT + ".by-rattle") if os.path.isfile(it)]
    if not programs:
        sys.exit("there is no program to play against: run make, or name one by --program")
    for it in programs:
        if not os.path.isfile(it):
            sys.exit(f"there is no program {it}")
    return programs


def plays(file):
    """Each way in which the file's rows are to be played, and its mistakes as complaints."""
    rows, mistakes = Reader(file).read()
    complaints = [f"{file}:{line}: the row file is wrong: {why}" for line, why in mistakes]
    ways = []
    for row in rows:
        for dialect in row.dialects:
            for encoding in row.encodings:
                try:
                    ways.append(Script(row, dialect, encoding))
                except (Mistake, ValueError, IndexError) as mistake:
                    complaints.append(f"{file}:{row.line}: {row.title}: the row is wrong: {mistake}")
    return ways, complaints


def unplayed(files):
    """The texts of examples/ that no row of these files names."""
    steps = [step for file in files for row in Reader(file).read()[0] for step in row.steps]
    named = {os.path.realpath(it.file) for it in steps if getattr(it, "file", None)}
    texts = sorted(glob.glob(f"{EXAMPLES}/**/*.fsub", recursive=True))
    return [os.path.relpath(it) for it in texts if os.path.realpath(it) not in named]


def complaint_of(program, script):
    """What is wrong where the row is played so, or nothing."""
    row = script.row
    try:
        (check_recording if script.recording else checked)(program, script)
    except Failed as failed:
        return f"{row.file}:{row.line}: {row.title} (dialect {script.dialect}, {script.encoding})\n{failed}"
    except subprocess.TimeoutExpired:
        return f"{row.file}:{row.line}: {row.title}: no end after {SECONDS} seconds"
    return None


def count_right(programs, files):
    """Plays the files; prints what is wrong, and returns how many plays were right and how many wrong."""
    scripts, complaints = [], []
    for file in files:
        ways, told = plays(file)
        scripts += ways
        complaints += told
    right = 0
    pairs = [(program, script) for program in programs for script in scripts]
    with concurrent.futures.ThreadPoolExecutor(os.cpu_count()) as pool:
        for told in pool.map(lambda pair: complaint_of(*pair), pairs):
            complaints += [told] if told else []
            right += not told
    for complaint in complaints:
        print(complaint, flush=True)
    return right, len(complaints)


def count_refused(program, files):
    """Plays the files of which each must be refused, with the words that its first line has behind '# told: '."""
    right = 0
    for file in files:
        with open(file, encoding="utf-8") as it:
            words = it.readline().rstrip("\n").removeprefix("# told: ")
        ways, complaints = plays(file)
        complaints += [it for it in (complaint_of(program, script) for script in ways) if it]
        if any(words in it for it in complaints):
            right += 1
        else:
            print(f"{file}:1: a wrong row that is not refused with these words: {words}", flush=True)
    return right, len(files) - right


def main():
    words = argparse.ArgumentParser(description=__doc__)
    words.add_argument("--program", action="append", help="a program to play against (else those that the gate built)")
    words.add_argument("--show", action="store_true", help="print the files that were played, too")
    words.add_argument("rows", nargs="*", help="row files, or pages with examples (else all of this folder, docs/LANGUAGE.md, and the wrong ones of wrong/, which must fail)")
    given = words.parse_args()
    programs = built(given.program)
    files = given.rows or [*sorted(glob.glob(f"{HERE}/*.rows")), PAGE]
    right, wrong = count_right(programs, [os.path.relpath(it) for it in files])
    for file in files if given.show else []:
        with open(file, encoding="utf-8") as it:
            print(it.read())
    if not given.rows:
        refused = count_refused(programs[0], [os.path.relpath(it) for it in sorted(glob.glob(f"{HERE}/wrong/*.rows"))])
        left = unplayed(files)
        for text in left:
            print(f"{text}:1: no row names this text", flush=True)
        right, wrong = right + refused[0], wrong + refused[1] + len(left)
    print(f"{right} passed, {wrong} failed")
    return 1 if wrong or not right else 0


if __name__ == "__main__":
    sys.exit(main())
