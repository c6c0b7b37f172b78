#!/usr/bin/env python3
"""attack.py [NAME..]: tries the wrong bodies of attacks/NAME/*.edit, which the prover must refuse as it refuses those of must-fail/.

The gate does not try them. The tree is copied to a scratch folder, with what is built in it; there the edits take the place of
those of must-fail/, and `rt must-fail` tries them. Without names all crates that have some are tried.
"""

import os
import shutil
import subprocess
import sys
import tempfile

ROOT = os.path.realpath(os.path.join(os.path.dirname(os.path.realpath(__file__)), ".."))


def main():
    names = sys.argv[1:] or sorted(os.listdir(f"{ROOT}/attacks"))
    with tempfile.TemporaryDirectory(prefix="attack-") as room:
        tree = f"{room}/tree"
        shutil.copytree(ROOT, tree, ignore=shutil.ignore_patterns(".git", "incremental", "must-fail"))
        for name in names:
            if not os.path.isdir(f"{tree}/attacks/{name}"):
                sys.exit(f"attacks/{name} is no folder")
            shutil.copytree(f"{tree}/attacks/{name}", f"{tree}/crates/{name}/must-fail")
        os.mkdir(f"{tree}/.git")
        return subprocess.run(["rt", "must-fail", *names], cwd=tree, check=False).returncode


if __name__ == "__main__":
    sys.exit(main())
