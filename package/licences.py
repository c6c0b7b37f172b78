"""The licences that the built program stands under, as far as they are known, from the folders of the toolchain's libraries."""

import glob
import os
import re
import shutil
import sys

ROOT = os.path.join(os.path.dirname(os.path.realpath(__file__)), "..")
# The first word of a path in a source: a library, where the toolchain has a folder of that name.
FIRST = re.compile(r"(?<![\w:.])([a-z_0-9]+)::")

HEAD = """Moorbasket: what licences are known

Its repository states no licence for its own files. The program holds code of the
Rattle toolchain's libraries, some of them ports of Rust crates. Below are the licences
in the folders of these libraries, each once, after the libraries that have it. None was
found for {without}.
"""


def libraries():
    """The folder of the toolchain's libraries."""
    rt = shutil.which("rt")
    folder = os.path.join(os.path.dirname(os.path.realpath(rt or "/opt/rattle/bin/rt")), "..", "rattle")
    if not os.path.isdir(folder):
        sys.exit("the licences of the toolchain's libraries are not here: put its rt on the PATH")
    return folder


def used(folder, names):
    """These libraries and all that their sources name."""
    found, left = set(), list(names)
    while left:
        name = left.pop()
        if name in found:
            continue
        found.add(name)
        for file in glob.glob(f"{folder}/{name}/src/**/*.rt", recursive=True):
            with open(file, encoding="utf-8") as it:
                words = set(FIRST.findall(re.sub("//.*", "", it.read())))
            # A module of its own may have the name of a library.
            left += [it for it in words if os.path.isdir(f"{folder}/{it}/src") and not glob.glob(f"{folder}/{name}/src/**/{it}.rt", recursive=True)]
    return found


def named():
    """The libraries that crates.txt names, and std."""
    with open(f"{ROOT}/crates.txt", encoding="utf-8") as it:
        rows = [line.partition("#")[0].replace(":", " ").split() for line in it]
    own = {row[0] for row in rows if row}
    return {"std"} | {word for row in rows for word in row} - own


def licences():
    """The text."""
    folder, having, without = libraries(), {}, []
    for name in sorted(used(folder, named())):
        files = sorted(glob.glob(f"{folder}/{name}/LICENSE*"))
        if not files:
            without.append(name)
        for file in files:
            with open(file, encoding="utf-8") as it:
                having.setdefault(it.read().strip("\n"), []).append(f"{name} ({os.path.basename(file)})")
    parts = [HEAD.format(without=", ".join(without))]
    for text, names in having.items():
        parts.append(f"{'=' * 78}\n{', '.join(names)}\n\n{text}\n")
    return "\n".join(parts)
