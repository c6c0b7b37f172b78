#!/usr/bin/env python3
"""package.py dist|deb [--program PATH]: packs the built program for machines that have no toolchain.

`dist` writes dist/moorbasket-VERSION.tar.gz, which has an install.sh; `deb` writes dist/moorbasket_VERSION_amd64.deb, and needs dpkg-deb.
Both have the same files below bin/ and share/: the programs byte for byte, their manual pages, what the editors need, examples and docs.
The bytes of a package hang on these files and on VERSION alone: each file has the date that stands there and belongs to root. To see that
it is so, the package is made a second time, a second later, in another order and under other settings; if the bytes differ none is written.
"""

import argparse
import calendar
import glob
import gzip
import hashlib
import io
import os
import re
import subprocess
import sys
import tarfile
import tempfile
import time

import licences
import manual

ROOT = os.path.join(os.path.dirname(os.path.realpath(__file__)), "..")
BUILT = f"{ROOT}/crates/lam_server/out/lam_server"
CHECKER = f"{ROOT}/crates/lam_check/out/lam_check"
DOCS = "share/doc/moorbasket"
EMACS = "share/emacs/site-lisp/moorbasket"

CONTROL = """Package: moorbasket
Version: {version}
Architecture: amd64
Maintainer: Moorbasket maintainers <maintainers@users.noreply.moorbasket.example>
Installed-Size: {size}
Depends: libc6 (>= {libc})
Suggests: neovim, emacs, elpa-eglot, vim-ale, kate
Section: devel
Priority: optional
Description: language server for the lambda calculus with records and subtyping
 Shows types, derivations and type errors of texts in the language of Pierce's
 Types and Programming Languages to Neovim, Emacs and other editors that speak
 LSP, and checks files without an editor. The types and type errors that it
 shows are proved to follow from typing rules written after the book's.
"""


def read(path):
    with open(path, "rb") as it:
        return it.read()


def libc_of(program):
    """The oldest C library that the program runs on; an error where it is not for Linux on x86-64 or needs more than that library."""
    code = read(program)
    needed = set(re.findall(rb"\0(lib[\w+-]*\.so[.\d]*)(?=\0)", code))
    if code[:5] != b"\x7fELF\x02" or code[18:20] != b"\x3e\0" or needed != {b"libc.so.6"}:
        sys.exit(f"{program} is no program for Linux on x86-64 that needs the C library alone")
    return max((tuple(map(int, it.split(b"."))) for it in re.findall(rb"\0GLIBC_(\d+\.\d+)", code)))


def editors():
    """What the editors need: for each file where it is installed, and where it stands here."""
    shared = [f"vim/{name}" for name in ("autoload", "ftdetect", "ftplugin", "indent", "syntax")]
    folders = [
        *((f"share/nvim/site/pack/fullsub/start/fullsub/{name[4:]}", name) for name in shared),
        ("share/nvim/site/pack/fullsub/start/fullsub", "neovim"),
        ("share/vim/vimfiles/pack/fullsub/start/fullsub", "vim"),
        (EMACS, "emacs"),
    ]
    return {
        **{f"{target}/{os.path.relpath(it, f'{ROOT}/editors/{name}')}": it for target, name in folders for it in files_below(f"editors/{name}")},
        "share/org.kde.syntax-highlighting/syntax/fullsub.xml": f"{ROOT}/editors/kate/fullsub.xml",
        "share/katepart5/script/indentation/fullsub.js": f"{ROOT}/editors/kate/fullsub.js",
        # The servers that Kate starts are a user's own setting.
        f"{DOCS}/kate/settings.json": f"{ROOT}/editors/kate/settings.json",
    }


def files_below(folder):
    """The files in a folder of the repository and in its folders."""
    return [it for it in glob.glob(f"{ROOT}/{folder}/**", recursive=True) if os.path.isfile(it)]


def installed(program, checker):
    """What either package installs: the bytes of each file by its path."""
    files = {
        "bin/lam_server": read(program),
        "bin/lam_check": read(checker),
        "share/man/man1/lam_server.1": manual.manual(program).encode(),
        "share/man/man1/lam_check.1": manual.checker_manual().encode(),
        "share/bash-completion/completions/lam_server": manual.completion(program).encode(),
        "share/bash-completion/completions/lam_check": manual.completion(checker).encode(),
        **{path: read(source) for path, source in editors().items()},
        f"{DOCS}/copyright": licences.licences().encode(),
    }
    pages = [f"{ROOT}/docs/{name}" for name in ("EDITORS.md", "LANGUAGE.md", "CHECKER.md", "derivation-html.png", "derivation-latex.png")]
    for path in [*pages, *files_below("examples")]:
        files[f"{DOCS}/{os.path.relpath(path, ROOT)}"] = read(path)
    return files


def mode_of(path):
    return 0o755 if path.endswith((".sh", "bin/lam_server", "bin/lam_check")) else 0o644


def folders_of(files):
    """All folders that the files stand in, the upper ones first."""
    return sorted({path[:at] for path in files for at in range(len(path)) if path[at] == "/"})


def dist(files, libc, number, seconds, _):
    """The tar file's bytes."""
    top = f"moorbasket-{number}"
    script = read(f"{ROOT}/package/install.sh").replace(b"@LIBC@", libc.encode())
    files = {f"{top}/{path}": code for path, code in {**files, "install.sh": script}.items()}
    packed = io.BytesIO()
    with tarfile.open(fileobj=packed, mode="w", format=tarfile.USTAR_FORMAT) as tar:
        for path in folders_of(files) + sorted(files):
            entry = tarfile.TarInfo(path)
            entry.uname = entry.gname = "root"
            entry.mtime = seconds
            if path in files:
                entry.mode, entry.size = mode_of(path), len(files[path])
            else:
                entry.mode, entry.type = 0o755, tarfile.DIRTYPE
            tar.addfile(entry, io.BytesIO(files.get(path, b"")))
    return gzip.compress(packed.getvalue(), mtime=0)


def deb(files, libc, number, seconds, backwards):
    """The Debian package's bytes."""
    files = {f"usr/{path}": code for path, code in files.items()}
    for page in ("usr/share/man/man1/lam_server.1", "usr/share/man/man1/lam_check.1"):
        files[f"{page}.gz"] = gzip.compress(files.pop(page), mtime=0)
    start = "etc/emacs/site-start.d/50moorbasket.el"
    files[start] = read(f"{ROOT}/package/50moorbasket.el")
    control = CONTROL.format(version=number, libc=libc, size=sum(map(len, files.values())) // 1024 + 1)
    sums = "".join(f"{hashlib.md5(files[path]).hexdigest()}  {path}\n" for path in sorted(files) if path != start)
    files.update({"DEBIAN/control": control.encode(), "DEBIAN/conffiles": f"/{start}\n".encode(), "DEBIAN/md5sums": sums.encode()})
    with tempfile.TemporaryDirectory() as room:
        tree = f"{room}/tree"
        for path in sorted(files, reverse=backwards):
            os.makedirs(os.path.dirname(f"{tree}/{path}"), exist_ok=True)
            with open(f"{tree}/{path}", "wb") as it:
                it.write(files[path])
            os.chmod(f"{tree}/{path}", mode_of(path))
        for path in ["", *folders_of(files)]:
            os.chmod(f"{tree}/{path}", 0o755)
        for path in [*files, *folders_of(files), ""]:
            os.utime(f"{tree}/{path}", (seconds, seconds))
        # One thread, since the bytes of xz hang on their number.
        settings = {**os.environ, "SOURCE_DATE_EPOCH": str(seconds), "DPKG_DEB_THREADS_MAX": "1"}
        words = ["dpkg-deb", "-Zxz", "--root-owner-group", "--build", tree, f"{room}/made.deb"]
        subprocess.run(words, env=settings, stdout=subprocess.DEVNULL, check=True)
        return read(f"{room}/made.deb")


def main():
    words = argparse.ArgumentParser(description=__doc__.partition(":")[0])
    words.add_argument("kind", choices=["dist", "deb"])
    words.add_argument("--program", default=BUILT, help="the built program; where none is named, that of `make`")
    words.add_argument("--checker", default=CHECKER, help="the built checker; where none is named, that of `make`")
    asked = words.parse_args()
    for built in (asked.program, asked.checker):
        if not os.path.isfile(built):
            sys.exit(f"there is no program {built}: run make, or name one by --program or --checker")
    number, date = manual.version()
    seconds = calendar.timegm(time.strptime(date, "%Y-%m-%d"))
    make, name = {"dist": (dist, f"moorbasket-{number}.tar.gz"), "deb": (deb, f"moorbasket_{number}_amd64.deb")}[asked.kind]
    made = []
    for umask, zone, backwards in ((0o022, "UTC", False), (0o077, "Asia/Tokyo", True)):
        os.umask(umask)
        os.environ["TZ"] = zone
        time.tzset()
        libc = ".".join(map(str, max(map(libc_of, (asked.program, asked.checker)))))
        made.append(make(installed(asked.program, asked.checker), libc, number, seconds, backwards))
        time.sleep(1.1)
    if made[0] != made[1]:
        sys.exit(f"{name} made twice does not have the same bytes")
    os.umask(0o022)
    os.makedirs(f"{ROOT}/dist", exist_ok=True)
    with open(f"{ROOT}/dist/{name}", "wb") as it:
        it.write(made[0])
    print(f"dist/{name}: {len(made[0])} bytes, sha256 {hashlib.sha256(made[0]).hexdigest()}, the same when made twice")


if __name__ == "__main__":
    main()
