"""record.py SERVER [NAME[=AS] ..]: types into real editors, and writes what they sent to rows/recordings/.

It needs Neovim, Emacs with eglot and lsp-mode, Vim with ALE, and the built server. Each editor
runs in a terminal of its own with what `make editors` copies, opens a file, edits it as a person
would, saves it, closes it and ends. Of each session there are two files: the bodies that came to
the server, byte for byte, one a line (as a string of JSON where line ends are in it), and the text
that was saved, with the line ends that the editor sent. rows/recordings.rows plays them.

Without names all sessions are played, with the editors of Debian 12. With `neovim-lf=neovim-0.12` the
session neovim-lf is played, and its files are named neovim-0.12. So the newer versions were recorded, in
a folder that held another release of Debian (by debootstrap and chroot): neovim-0.10 in Debian 13, the
others in unstable, in the autumn of 2026.
"""

import json
import os
import re
import shutil
import sys

from terminal import FILE, ROOM, SENT, Terminal, prepare

RECORDINGS = os.path.join(os.path.dirname(os.path.realpath(__file__)), "..", "..", "rows", "recordings")

START = """/* Grüße an 😀 */
T = {a:Nat, b:Bool};
x = {b=true, a=0};
y = x.a;
"""

# What is pasted from outside, as a terminal brackets it.
PASTED = "\x1b[200~f = lambda 😀n:Nat. succ n;\rß = f y; /* 👩‍🔬 */\r\x1b[201~"

ESCAPE = "\x1b"
F2 = "\x1bOQ"

# Keys for Neovim, a pause after each.
NEOVIM_KEYS = [
    "4Gfx", "gd", "4Gfx", "gr", ":cclose\r",  # where a name comes from, and who uses it
    "3G0", F2, "\x15größe\r", "u", "\x12",  # gives it a new name, undoes it and does it again
    "2G0", F2, "\x15t\r",  # which a type name can't have
    "Go", "z = succ y;", " /* äöü 😀 */", ESCAPE,  # types a line at the end
    "u", "\x12",  # undoes it and does it again
    "gg", "f😀", "a é😀", ESCAPE, "x", "u",  # types behind the emoji
    "3Gyy", "p", "j", "J",  # copies a line, joins two
    "u", "dd", "kP",  # moves a line
    ":%s/Nat/Bool/g\r", "u",  # replaces in many places
    "Go", PASTED, ESCAPE,
    "gg", "f😀", "xp",  # swaps the emoji and its neighbor
    "Gdk", "u", "u", "\x12",
    "Gop = {b=true, a=0};", ESCAPE, "ov = p.;", "\x1b[D", "\x18\x0f", "\x0e\x19", ESCAPE,  # takes what is listed behind a dot
    "Go", "w = f", "\x18\x0f", ESCAPE,
    "4Gf.", "gy", "q",  # why a term has its type
]
NEOVIM_END = [":w\r", ":bdelete\r", ":q\r"]

# Keys for Emacs, a pause after each.
EMACS_KEYS = [
    "\x0e\x0e\x0e\x06\x06\x06\x06", "\x1b.", "\x1b,", "\x1b?", "q",  # where a name comes from, and who uses it
    "\x10\x01", "\x1bxeglot-rename\r", "größe\r", "\x1f", "\x07\x1f",  # gives it a new name, undoes it and does it again
    "\x1b<\x0e", "\x1bxeglot-rename\r", "t\r",  # which a type name can't have
    "\x1b>", "z = succ y;", " /* äöü 😀 */\r",  # types a line at the end
    "\x1f", "\x07\x1f",  # undoes it and does it again
    "\x1b<", "\x13😀\r", " é😀", "\x7f",  # types behind the emoji
    "\x0e\x01\x0b\x0b", "\x19\x19", "\x10\x05\x04",  # cuts a line, puts it back twice, joins two
    "\x1f",
    "\x1b<", "\x1b%Nat\rBool\r!",  # replaces in many places
    "\x1f",
    "\x1b>\r", PASTED,
    "\x1b<", "\x13😀\r", "\x14",  # swaps the emoji and its neighbor
    "\x1b>\x10", "\x1b;", "ümlaut", "\x0b", "\x1f",
    "\x1b>p = {b=true, a=0};\rv = p.;", "\x02", "\x1b\t", "\x181", "b\x05\r",  # lists what can stand behind a dot
    "w = f", "\x1b\t", "\x181", "\r",
    "\x1b<\x0e\x0e\x0e\x06\x06\x06\x06\x06", "\x03\x17", "q",  # why a term has its type
]
EMACS_END = ["\x18\x13", "\x18k\r", "\x1bxeglot-shutdown-all\r", "\x18\x03"]


def for_lsp_mode(keys):
    """The keys where lsp-mode talks to the server: it asks which folder the file belongs to, which name's uses are meant, and
    offers the old name as the new one."""
    changed = ["i", "", "", ""]  # pauses, since the server is only then started
    for piece in keys:
        changed += [piece, "\r"] if piece == "\x1b?" else [piece, "\x01\x0b"] if piece == "\x1bxeglot-rename\r" else [piece]
    return [it.replace("eglot-rename", "lsp-rename") for it in changed]


def plain(text):
    """The text without characters of four bytes, behind which lsp-mode 8 sends wrong positions."""
    return text.replace("😀", "→").replace("👩‍🔬", "→")


# Keys for Vim, a pause after each.
VIM_KEYS = [
    "4Gfx", "K", "gd", "4Gfx", "gr", "\x17z",  # what a name is, where it comes from, and who uses it
    "3G0", F2, "\x15größe\r", "u", "\x12",  # gives it a new name, undoes it and does it again
    "2G0", F2, "\x15t\r",  # which a type name can't have
    "Go", "z = succ y;", " /* äöü 😀 */", ESCAPE,  # types a line at the end
    "gg", "f😀", "a é😀", ESCAPE, "x", "u",  # types behind the emoji
    "3Gyy", "p", "j", "J", "u", "dd", "kP",
    ":%s/Nat/Bool/g\r", "u",  # replaces in many places
    "Go", PASTED, ESCAPE,
    "Gop = {b=true, a=0};", ESCAPE, "ov = p.;", "\x1b[D", "\x18\x0f", "\x0e\x19", ESCAPE,  # takes what is listed behind a dot
    "Go", "w = f", "\x18\x0f", ESCAPE,
    "3GVjgc", "3GVjgc", "4Ggcc",  # makes two lines a comment, undoes it the same way, and makes one line a comment
]
VIM_END = [":w\r", ":bdelete\r", ":q\r"]

# lsp-mode tells the server of its end only where a file is open.
LSP_MODE_END = ["\x18\x13", "\x18k\r", f"\x18\x06\x01\x0b{ROOM}/b.fsub\r", "\x18\x03"]
LSP_MODE = "(setq fullsub-client 'lsp-mode)"
VIM = ["vim", "-i", "NONE", "-n", FILE]

SESSIONS = [
    ("neovim-lf", START, ["nvim", "-i", "NONE", FILE], NEOVIM_KEYS, NEOVIM_END, ""),
    ("neovim-cr-lf", START.replace("\n", "\r\n"), ["nvim", "-i", "NONE", FILE], NEOVIM_KEYS, NEOVIM_END, ""),
    ("emacs-lf", START, ["emacs", "-nw", FILE], EMACS_KEYS, EMACS_END, ""),
    ("emacs-cr-lf", START.replace("\n", "\r\n"), ["emacs", "-nw", FILE], EMACS_KEYS, EMACS_END, ""),
    ("emacs-lsp-mode", plain(START), ["emacs", "-nw", FILE], list(map(plain, for_lsp_mode(EMACS_KEYS))), LSP_MODE_END, LSP_MODE),
    ("vim-ale", START, VIM, VIM_KEYS, VIM_END, ""),
]

# Played only where it is named: lsp-mode 10 sends right positions behind all characters.
NEWER = [
    ("emacs-30-lsp-mode", START, ["emacs", "-nw", FILE], for_lsp_mode(EMACS_KEYS), LSP_MODE_END, LSP_MODE),
]


def drive(command, keys):
    editor = Terminal(command)
    for piece in keys:
        if not editor.type(piece) or not editor.wait(0.9):
            break
    return editor.close()


def bodies(sent):
    """The bodies of these frames, each of which has the one field that editors send."""
    found = []
    while sent:
        head = re.match(rb"Content-Length: ([0-9]+)\r\n\r\n", sent)
        end = head.end() + int(head[1])
        found.append(sent[head.end() : end].decode())
        sent = sent[end:]
    return found


def write(name, messages, text):
    """The two files of a session."""
    lines = [json.dumps(it, ensure_ascii=False) if "\n" in it else it for it in messages]
    for ending, content in ((".jsonl", "".join(it + "\n" for it in lines)), (".fsub", text)):
        with open(os.path.join(RECORDINGS, name + ending), "w", encoding="utf-8", newline="") as file:
            file.write(content)


def main():
    server = os.path.abspath(sys.argv[1])
    # The name of a session's files, by the name of the session.
    chosen = {it.split("=")[0]: it.split("=")[-1] for it in sys.argv[2:]}
    for name, text, command, keys, end, init in SESSIONS + (NEWER if chosen else []):
        if chosen and name not in chosen:
            continue
        prepare(server, text, init)
        status = drive(command, keys + end)
        with open(SENT, "rb") as file:
            messages = bodies(file.read())
        with open(FILE, newline="") as file:
            saved = file.read()
        print(f"{name}: status {status}, {len(messages)} messages")
        line_end = "\r\n" if "\\r\\n" in "".join(messages) else "\n"
        write(chosen.get(name, name), messages, saved.replace("\r\n", line_end))
    shutil.rmtree(ROOM)


if __name__ == "__main__":
    main()
