#!/usr/bin/env python3
"""manual.py PROGRAM FOLDER: writes the manual pages of both programs to the folder. That of the language server, which is PROGRAM, is made from what
`PROGRAM --help` prints and from lam_server.1.in beside this script.

What the server says of itself, its options and its exit status stands in its help alone, so page and program agree. A line of the help
that is not understood is an error. The page of the checker says more than its help, and is lam_check.1.in as it stands, with the version
put in. package.py takes from here the completion for bash too, of both programs.
"""

import os
import re
import subprocess
import sys

HERE = os.path.dirname(os.path.realpath(__file__))
HELP = re.compile(r"(?P<about>.+?)\n\nUsage: (?P<name>\w+) (?P<usage>.*?)\n\n(?:Arguments:\n.+?\n\n)?Options:\n(?P<options>.+?)\n\nExit status: (?P<statuses>.+)\.\n", re.S)
OPTION = re.compile(r" +(?:(-\w), )?(--[\w-]+)(?: <([\w:]+)>)? {2,}(\S.*)")
STATUS = re.compile(r"(\d+) (.+?)(?:, (?=\d)|$)")
VALUES = re.compile(r"\[possible values: (.+?)\]")


def version():
    """The version, and its date."""
    with open(f"{HERE}/../VERSION", encoding="utf-8") as it:
        return it.read().split()


def read_help(program):
    """The parts of the program's help. An option is a letter or none, its name, its value's name or none, and a text."""
    said = subprocess.run([program, "--help"], stdout=subprocess.PIPE, encoding="utf-8", check=True).stdout
    found = HELP.fullmatch(said)
    rows = [OPTION.fullmatch(line) for line in found["options"].split("\n")] if found else []
    statuses = STATUS.findall(found["statuses"]) if found else []
    if not found or not all(rows) or ", ".join(map(" ".join, statuses)) != found["statuses"]:
        sys.exit(f"the help of {program} has a form that is not known here:\n{said}")
    return {**found.groupdict(), "options": [row.groups() for row in rows], "statuses": statuses}


def roff(text):
    """The text for a manual page, where a sign that would be an order of the page stands for itself."""
    return text.replace("\\", "\\e").replace("-", "\\-").replace("'", "\\(aq")


def spelled(option):
    """The option as it is typed, with its value in italics."""
    letter, name, value, _ = option
    both = [f"\\fB{roff(word)}\\fR" for word in (letter, name) if word]
    return ", ".join(both) + (f" \\fI{value}\\fR" if value else "")


def checker_manual():
    """The manual page of the checker, which stands in lam_check.1.in whole but for the version and its date."""
    number, date = version()
    with open(f"{HERE}/lam_check.1.in", encoding="utf-8") as it:
        return it.read().replace("@VERSION@", number).replace("@DATE@", date)


def manual(program):
    """The manual page."""
    parts = read_help(program)
    number, date = version()
    first, _, rest = parts["about"].partition(". ")
    with open(f"{HERE}/lam_server.1.in", encoding="utf-8") as it:
        page = it.read()
    for word, text in {
        "VERSION": number,
        "DATE": date,
        "WHAT": roff(first[2:]),
        "SYNOPSIS": "\n".join(f"[{spelled((None, *it[1:]))}]" for it in parts["options"]),
        "ABOUT": roff(rest),
        "OPTIONS": "\n".join(f".TP\n{spelled(it)}\n{roff(it[3])}" for it in parts["options"]),
        "STATUSES": "\n".join(f".TP\n.B {status}\n{roff(when)}" for status, when in parts["statuses"]),
    }.items():
        page = page.replace(f"@{word}@", text)
    return page


def completion(program):
    """What bash needs to complete the options, and a value where it is one of a few; names of files, where the program takes them."""
    parts = read_help(program)
    takes_files = "FILE" in parts["usage"]
    cases = []
    for _, name, value, text in parts["options"]:
        values = VALUES.search(text)
        if value:
            cases.append(f"    {name}) words='{values[1].replace(',', '') if values else ''}' ;;\n")
    names = f"words='{' '.join(it[1] for it in parts['options'])}' ;;"
    # Without a word of ours bash completes as it does by default, by the names of files.
    cases.append(f"    *) case $2 in -*) {names} esac ;;\n" if takes_files else f"    *) {names}\n")
    return (
        f"_{parts['name']}() {{\n  local words\n  case $3 in\n{''.join(cases)}"
        f'  esac\n  COMPREPLY=($(compgen -W "$words" -- "$2"))\n}}\n'
        f"complete {'-o default ' if takes_files else ''}-F _{parts['name']} {parts['name']}\n"
    )


def main(program, folder):
    """Writes the manual pages."""
    os.makedirs(folder, exist_ok=True)
    for name, page in (("lam_server", manual(program)), ("lam_check", checker_manual())):
        with open(f"{folder}/{name}.1", "w", encoding="utf-8") as it:
            it.write(page)


if __name__ == "__main__":
    main(*sys.argv[1:])
