#!/usr/bin/env python3
"""trusted.py [--check]: prints docs/TRUSTED.md, the definitions on which the contract of `run` rests, in reading order.

It begins with the names in the clauses of `run` and of the devices that it is given, and follows each definition to those that it
names. With --check it prints nothing, and fails where docs/TRUSTED.md says anything else or README.md another count of lines, where a file on the list names one of
this repository that is not on it or a proof, or where two files on it define one word.
"""

import collections
import glob
import itertools
import os
import re
import sys

from build import ROOT, crates, needed

PAGE = "docs/TRUSTED.md"
README = "README.md"
# The files whose contracts are believed to say what the program does.
STARTS = ("lam_server/src/run.rt", "lam_frame/src/device.rt")
OPENING = re.compile(r"(abbrev|unfoldable|pub|record|data|mutual|infix\w*)\b")
NAMED = re.compile(r"\s*(?:(?:abbrev|unfoldable|pub|record|data|mutual|infix\w*)\s+)*([^\s:{(]+)")
DECLARES = re.compile(r"\s*(abbrev|unfoldable|pub|record|data)\b|\s+\S+ :( |$)")
TITLES = re.compile(r"\s*(abbrev|unfoldable|pub|record|data)\b")
RECORD = re.compile(r"(pub )?record\b")
IMPORT = re.compile(r"(?:ghost |pub )?use ([^{}]+?)(?:\.\{(.*)\})?;?$")
NOTE = re.compile(r"(^|\s)--( .*|$)")


def imported(line):
    """The module of an import, the names that it brings with what they are there, and the name that it gives the module itself."""
    module, names = IMPORT.match(line).groups()
    if names is None:
        module, _, alias = module.partition(" as ")
        return module, {}, alias or module.split(".")[-1]
    pairs = (name.strip().partition(" as ")[::2] for name in names.split(","))
    return module, {alias or name: name for name, alias in pairs}, None


class File:
    """A file of definitions: what it imports, and its definitions, each a block of lines with the names that it declares."""

    def __init__(self, path):
        self.path = path
        self.names, self.aliases, self.imports, self.blocks = {}, {}, set(), []
        with open(path, encoding="utf-8") as it:
            lines = it.read().split("\n")
        self.about = " ".join(line.removeprefix("--").strip() for line in itertools.takewhile(lambda it: it.startswith("--"), lines))
        for line in lines:
            self.take(NOTE.sub("", line).rstrip())
        self.where = {name: i for i, block in reversed(list(enumerate(self.blocks))) for name in declared(block)}

    def take(self, line):
        if IMPORT.match(line):
            module, names, alias = imported(line)
            self.imports.add(module)
            self.names.update({local: (module, name) for local, name in names.items()})
            if alias:
                self.aliases[alias] = module
        elif OPENING.match(line) and not (self.blocks and self.blocks[-1][-1].startswith("infix")):
            self.blocks.append([line])
        elif line.strip() and self.blocks:
            self.blocks[-1].append(line)

    def named_in(self, text, module):
        """Each name that a text in this file is about, with its module."""
        words = set(re.findall(r"[^\s(){}\[\],;]+", text))
        parts = words | {part for word in words for part in re.split(r"[.:λ]+", word)}
        known = {**{name: (module, name) for name in self.where}, **self.names}
        found = {known[name] for name in known if ("◌" in name and holds(text, name)) or name in parts}
        for alias, other in self.aliases.items():
            found |= {(other, word[len(alias) + 1:]) for word in words if word.startswith(alias + ".")}
        return found


def declared(block):
    """The names that a block declares: of its definitions and of their cases. A record declares only its own name:
    whoever names a part of it has the record from a definition."""
    lines = block[:1] if RECORD.match(block[0]) else block
    found = (NAMED.match(line) for line in lines if DECLARES.match(line))
    return {it[1] for it in found if it} - {"mutual"}


def holds(text, operator):
    """Whether each sign of an operator stands in a text."""
    return all(sign in text for sign in operator.split("◌") if sign)


def files():
    """All files of definitions, by their modules."""
    found = {}
    for path in glob.glob(f"{ROOT}/crates/*/specs/**/*.antt", recursive=True):
        words = os.path.relpath(path, f"{ROOT}/crates").removesuffix(".antt").split("/")
        found[".".join(["Rattle", *words])] = File(path)
    return found


def starts():
    """What the clauses of the starting files name."""
    for start in STARTS:
        with open(f"{ROOT}/crates/{start}", encoding="utf-8") as it:
            for line in it:
                if line.startswith("ghost use "):
                    module, names, _ = imported(line.strip())
                    yield from ((module, name) for name in names.values())


def reached(known):
    """The blocks on which the contracts rest, by module; and what they name that no file of definitions holds, by module."""
    blocks, others = collections.defaultdict(set), collections.defaultdict(set)
    todo = list(starts())
    while todo:
        module, name = todo.pop()
        file = known.get(module)
        if file is None or name not in file.where:
            others[module].add(name)
            continue
        block = file.where[name]
        if block not in blocks[module]:
            blocks[module].add(block)
            todo += file.named_in("\n".join(file.blocks[block]), module)
    return blocks, others


def in_order(blocks, known):
    """The modules, each behind those of the list that it names; crates from the bottom up, those that the client's side needs last."""
    rank = {name: i for i, name in enumerate(needed(crates()))}
    order = []

    def add(module):
        for other in sorted(known[module].imports & set(blocks)):
            if other not in order:
                add(other)
        if module not in order:
            order.append(module)

    for module in sorted(blocks, key=lambda it: (rank[it.split(".")[1]], it)):
        add(module)
    return sorted(order, key=lambda it: rank[it.split(".")[1]])


def wrong_imports(blocks, known):
    """Each import of a file on the list that brings a file of this repository that is not on it, or a proof."""
    for module in blocks:
        for other in known[module].imports:
            outside = other in known and other not in blocks
            if outside or ".proofs." in other:
                yield f"{known[module].path}: names {other}, which is not on the list"


def doubled(blocks, known):
    """Each word that two files on the list define. The cases of two trees may be called alike."""
    homes = collections.defaultdict(set)
    for module, numbers in blocks.items():
        for i in numbers:
            for name in titles(known[module].blocks[i]):
                homes[name].add(module)
    yield from (f"{name}: defined by {' and '.join(sorted(modules))}" for name, modules in sorted(homes.items()) if len(modules) > 1)


def table(modules, blocks, known):
    """The rows of a crate's files: what each is about, the lines of its definitions on the list, and those that are not on it."""
    yield "| file | what it says | lines | not on the list |"
    yield "|---|---|---|---|"
    for module in modules:
        file = known[module]
        path = os.path.relpath(file.path, ROOT)
        count = sum(len(file.blocks[i]) for i in blocks[module])
        beside = [name for i, block in enumerate(file.blocks) if i not in blocks[module] for name in titles(block)]
        yield f"| [{path.split('/', 2)[2]}](../{path}) | {file.about} | {count} | {', '.join(f'`{it}`' for it in beside)} |"


def titles(block):
    """The names that a block defines, in their order."""
    lines = block[:1] if RECORD.match(block[0]) else block
    found = (NAMED.match(line) for line in lines if TITLES.match(line))
    return [it[1] for it in found if it and it[1] != "mutual"]


def rust_types(others):
    """The enums and structs of Rust that definitions name, each with its file."""
    found = collections.defaultdict(set)
    for module in others:
        words = module.split(".")
        if "declared" in words and words[1].startswith("lam_"):
            place = words.index("declared")
            found[f"crates/{words[1]}/src/{words[place + 1]}.rt"].add(words[place + 2])
    return found


def lines_of(blocks, known):
    """How many lines the definitions on the list have."""
    return sum(len(known[module].blocks[i]) for module in blocks for i in blocks[module])


def text_of(path):
    with open(f"{ROOT}/{path}", encoding="utf-8") as it:
        return it.read()


def page():
    """The lines of the page."""
    known = files()
    blocks, others = reached(known)
    order = in_order(blocks, known)
    yield "# What has to be believed"
    yield ""
    yield "The contract of `run`, in [crates/lam_server/src/run.rt](../crates/lam_server/src/run.rt), is proved, over any source and sink, which"
    yield "[crates/lam_frame/src/device.rt](../crates/lam_frame/src/device.rt) describes (`Source`, `Sink`). Whoever wants to know what it says reads the definitions on which"
    yield f"it rests: {lines_of(blocks, known)} lines in {len(order)} files, without imports and comments, and what is named at the end of this page. Each file comes after those that it"
    yield "names. In the last column are the definitions of a file on which `run` does not rest. [How to read a definition](ARCHITECTURE.md#how-to-read-a-definition) explains the notation. This"
    yield "page is printed by `make trusted`, and the gate fails if the two differ."
    for crate in dict.fromkeys(module.split(".")[1] for module in order):
        yield from ["", f"## {crate}", ""]
        yield from table([module for module in order if module.split(".")[1] == crate], blocks, known)
    yield from ["", "## Types of Rust", "", "Definitions name these enums and structs, which are what their declarations say:", ""]
    yield from (f"- [{path}](../{path}): {', '.join(f'`{it}`' for it in sorted(names))}" for path, names in sorted(rust_types(others).items()))
    yield from ["", "## The toolchain's", ""]
    yield "Definitions name these of the toolchain and of its libraries, which are read along with ours. `std.specs.List` is the file `rattle/std/specs/List.antt` beside the page that"
    yield from ["`rt doc` names, and likewise for the others:", ""]
    kit = {module: names for module, names in others.items() if not module.split(".")[1].startswith("lam_")}
    yield from (f"- `{module.removeprefix('Rattle.')}`: {', '.join(f'`{it}`' for it in sorted(names))}" for module, names in sorted(kit.items()))


def wrong():
    """Says what is wrong with the list, and whether anything is."""
    known = files()
    blocks = reached(known)[0]
    found = [*wrong_imports(blocks, known), *doubled(blocks, known)]
    if text_of(PAGE) != "\n".join(page()) + "\n":
        found.append(f"{PAGE} is not what `make trusted` prints")
    if f"{lines_of(blocks, known)} lines" not in text_of(README):
        found.append(f"{README} does not say that these are {lines_of(blocks, known)} lines")
    for it in found:
        print(it)
    return bool(found)


def main():
    if "--check" in sys.argv[1:]:
        return wrong()
    print("\n".join(page()))
    return 0


if __name__ == "__main__":
    sys.exit(main())
