#!/usr/bin/env python3
"""Copies what each editor needs into the user's folders, and says what it did.

`install.py` does it for each editor that is on the PATH, `install.py NAME ..` for these. A file that is there already and the
same is left alone, so doing it twice does no harm. Nothing is deleted, and of the user's own files only Kate's list of servers
is changed, which gets an entry.
"""

import json
import os
import shutil
import sys

HERE = os.path.dirname(os.path.realpath(__file__))
HOME = os.path.expanduser("~")
DATA = os.environ.get("XDG_DATA_HOME") or f"{HOME}/.local/share"
CONFIG = os.environ.get("XDG_CONFIG_HOME") or f"{HOME}/.config"


def copy(source, target):
    """Copies a file, or what a folder holds, and says for each file whether it was new."""
    if os.path.isdir(source):
        for name in sorted(os.listdir(source)):
            copy(f"{source}/{name}", f"{target}/{name}")
        return
    with open(source, "rb") as file:
        content = file.read()
    was_there = os.path.exists(target)
    if was_there:
        with open(target, "rb") as file:
            if file.read() == content:
                print(f"  unchanged   {target}")
                return
    os.makedirs(os.path.dirname(target), exist_ok=True)
    with open(target, "wb") as file:
        file.write(content)
    print(f"  {'updated' if was_there else 'copied'}   {target}")


def emacs_folder():
    """Emacs's own folder: the newer one, if it is there and the older one is not."""
    is_newer = os.path.isdir(f"{CONFIG}/emacs") and not os.path.isdir(f"{HOME}/.emacs.d")
    return f"{CONFIG}/emacs" if is_newer else f"{HOME}/.emacs.d"


def install_vim():
    copy(f"{HERE}/vim", f"{HOME}/.vim/pack/fullsub/start/fullsub")
    print("  still to do: ~/.vimrc needs the lines `source $VIMRUNTIME/defaults.vim` and `packadd! ale`")


def install_neovim():
    target = f"{DATA}/nvim/site/pack/fullsub/start/fullsub"
    for name in ("autoload", "ftdetect", "ftplugin", "indent", "syntax"):
        copy(f"{HERE}/vim/{name}", f"{target}/{name}")
    copy(f"{HERE}/neovim", target)


def install_emacs():
    copy(f"{HERE}/emacs", f"{emacs_folder()}/elpa/fullsub-1.0")
    print("  for lsp-mode in place of eglot, the init file needs `(setq fullsub-client 'lsp-mode)`")


def install_kate():
    copy(f"{HERE}/kate/fullsub.xml", f"{DATA}/org.kde.syntax-highlighting/syntax/fullsub.xml")
    copy(f"{HERE}/kate/fullsub.js", f"{DATA}/katepart5/script/indentation/fullsub.js")
    add_server(f"{HERE}/kate/settings.json", f"{CONFIG}/kate/lspclient/settings.json")


def add_server(source, target):
    """Puts our server into Kate's list of servers, and leaves an entry that is there as it is."""
    if not os.path.exists(target) or not os.path.getsize(target):
        copy(source, target)
        return
    try:
        with open(source, encoding="utf-8") as file:
            ours = json.load(file)
        with open(target, encoding="utf-8") as file:
            settings = json.load(file)
        servers = settings.setdefault("servers", {})
        is_new = "fullsub" not in servers
        servers.setdefault("fullsub", ours["servers"]["fullsub"])
    except (ValueError, AttributeError) as error:
        print(f"  not changed, because it could not be read ({error}): {target}\n  add to it by hand what is in {source}")
        return
    if is_new:
        with open(target, "w", encoding="utf-8") as file:
            json.dump(settings, file, indent=4, ensure_ascii=False)
            file.write("\n")
    print(f"  {'added fullsub to' if is_new else 'unchanged: fullsub is in'}   {target}")


# Neovim by its program's name too.
ALIASES = {"nvim": "neovim"}
EDITORS = {"neovim": ("nvim", install_neovim), "vim": ("vim", install_vim), "emacs": ("emacs", install_emacs), "kate": ("kate", install_kate)}


def main():
    asked = [ALIASES.get(name, name) for name in sys.argv[1:]]
    wrong = [name for name in asked if name not in EDITORS]
    if wrong:
        sys.exit(f"unknown editor: {', '.join(wrong)}. Known are {', '.join(EDITORS)}; for VS Code see docs/EDITORS.md")
    for name, (program, install) in EDITORS.items():
        if name in asked or not asked and shutil.which(program):
            print(f"{name}:")
            install()
        elif not asked:
            print(f"{name}: `{program}` is not on the PATH, so nothing was copied (`make editors EDITORS={name}` copies anyway)")
    if not shutil.which("lam_server"):
        print("`lam_server` is not on the PATH, so the editors will not find it (`make install` puts it into ~/.local/bin)")
    print("docs/EDITORS.md has the keys.")


main()
