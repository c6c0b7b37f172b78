#!/usr/bin/env python3
"""corners.py SERVER: times each request on texts that are made to be expensive, each at a size and at twice that size.

Prints a table of milliseconds. What takes more than three times as long at twice the size grows faster than the text, and is marked;
so is what takes over two seconds.
"""

import sys

from session import Client

# What is asked of each text, besides that it is opened, and what the request needs besides a position.
QUESTIONS = {
    "textDocument/hover": {},
    "textDocument/definition": {},
    "textDocument/references": {"context": {"includeDeclaration": True}},
    "textDocument/rename": {"newName": "fresh"},
    "textDocument/completion": {},
}
# This is asked last, behind the peak of memory, since its answer may be far longer than the text.
DERIVATION = "fullsub/derivation"
TIMES = 3
# Milliseconds under which a ratio says nothing, and over which a request is too slow.
NOTHING = 20
TOO_SLOW = 2000


def fields(count, each, backwards=False):
    """That many fields, in the one order or the other."""
    numbers = range(count - 1, -1, -1) if backwards else range(count)
    return ", ".join(each.format(number) for number in numbers)


def opposite(count):
    """A function that takes a record of that many fields, and records with the fields in reverse order."""
    call = f"f {{{fields(count, 'l{}=0', backwards=True)}}}"
    return f"f = lambda r:{{{fields(count, 'l{}:Nat')}}}. r;\n" + 19 * f"{call};\n" + call


def labels(count):
    """A projection from a record of that many fields."""
    return f"r = {{{fields(count, 'l{}=0')}}};\nr.l0"


def lets(count):
    """Lets in lets."""
    return 20 * (count * "let x = 0 in " + "x;\n") + "x = 0;\nx"


def uses(count):
    """A name and its uses."""
    return "x = 0;\n" + count * "x;\n" + "x"


def faults(count):
    """A diagnostic in each command."""
    return count * "x;\n" + "x = 0;\nx"


def shadowings(count):
    """A name that shadows the previous one, again and again."""
    return "x = 0;\n" + count * "x = x;\n" + "x"


def abbreviation(count):
    """Uses of an abbreviation of nearly the maximum number of nodes."""
    head = "T0 = {a:Nat, b:Nat};\n" + "".join(f"T{n} = {{a:T{n - 1}, b:T{n - 1}}};\n" for n in range(1, 11))
    return head + count * "lambda r:T10. r;\n" + "x = 0;\nx"


def arrows(count):
    """Arrows in arrows."""
    return 20 * f"f : {count * 'Nat->'}Nat;\n" + "f"


def doubled(count):
    """Types that double."""
    return "x0 = {a=0, b=0};\n" + "".join(f"x{n} = {{a=x{n - 1}, b=x{n - 1}}};\n" for n in range(1, count)) + "x0"


def chain(count):
    """Names that each use the one before."""
    return "x0 = 0;\n" + "".join(f"x{n} = succ x{n - 1};\n" for n in range(1, count)) + "x0"


def records(count):
    """As many types as names."""
    return "".join(f"x{n} = {{l{n}=0}};\n" for n in range(count)) + "x0"


def below(count):
    """A record type below another, with records in records."""
    lines = ["A0 = {a:Nat, b:Nat};", "B0 = {a:Nat};"]
    for n in range(1, count):
        lines += [f"A{n} = {{r:A{n - 1}}};", f"B{n} = {{r:B{n - 1}}};"]
    return "\n".join([*lines, f"s : A{count - 1};", f"s as B{count - 1}"])


def comments(count):
    """Comments in comments."""
    return count * "/*" + count * "*/" + "x = 0;\nx"


def semicolons(count):
    """Pieces without a token."""
    return count * ";" + "x = 0;\nx"


def numerals(count):
    """Commands of the maximum number of tokens, none of which has a type."""
    return count * ("0 " + 1998 * "0 " + ";\n") + "x = 0;\nx"


# Each with a size, at which the text is of moderate length.
CORNERS = [
    (opposite, 120), (labels, 240), (lets, 190), (uses, 20_000), (faults, 20_000), (shadowings, 20_000), (abbreviation, 200),
    (arrows, 450), (doubled, 20), (chain, 10_000), (records, 10_000), (comments, 100_000), (semicolons, 200_000), (numerals, 50), (below, 500),
]  # fmt: skip


def measured(program, text):
    """Milliseconds of each request, the quickest of some, by its name; it is asked at the last character of the text."""
    client = Client(program)
    taken = {"open": client.open(text)[0]}
    line = text.count("\n")
    column = len(text) - text.rfind("\n") - 2
    taken["a key"] = min(client.keys(line, 2 * TIMES))
    where = {"textDocument": {"uri": "file:///made.fsub"}, "position": {"line": line, "character": column}}
    for method, more in QUESTIONS.items():
        taken[named(method)] = min(client.timed(client.request(method, {**where, **more}))[0] for _ in range(TIMES))
    taken["memory"] = client.peak() / len(text)
    taken[named(DERIVATION)] = min(client.timed(client.request(DERIVATION, where))[0] for _ in range(TIMES))
    client.close()
    return taken


def named(method):
    """What a request is called in the table."""
    return method.rpartition("/")[2]


def told(name, once, twice):
    """A cell of the table: both times, and a mark where the second is too long."""
    if name == "memory":
        return f"{once:.0f}, {twice:.0f}"
    marks = "!" if twice > NOTHING and twice > 3 * once else ""
    return f"{once:.1f}, {twice:.1f}{marks}{' slow' if twice > TOO_SLOW else ''}"


def main():
    program = sys.argv[1]
    names = ["open", "a key", *map(named, QUESTIONS), "memory", named(DERIVATION)]
    print("| " + " | ".join(["text", "size", "bytes", *names]) + " |")
    print("|" + (len(names) + 3) * "---|")
    for make, size in CORNERS:
        once, twice = measured(program, make(size)), measured(program, make(2 * size))
        cells = [told(name, once[name], twice[name]) for name in names]
        print("| " + " | ".join([make.__doc__.rstrip("."), f"{size:,}", f"{len(make(2 * size)):,}", *cells]) + " |", flush=True)


if __name__ == "__main__":
    main()
