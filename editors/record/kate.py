"""kate.py SERVER [NAME]: types into Kate on a screen of its own, and writes what it sent to rows/recordings/, as record.py does.

The files are named NAME, without it kate.

It needs Kate, Xvfb, openbox (a dialog gets no keys without a window manager) and xdotool.
"""

import os
import shutil
import subprocess
import sys
import time

from record import START, bodies, write
from terminal import ENVIRONMENT, FILE, ROOM, SENT, prepare

# By the number of its key: in newer keyboard layouts xdotool finds F2 with a modifier too, and presses that.
F2 = "<68>"

# What is typed, a pause after each: keys in angle brackets, else letters.
TYPED = [
    "<alt+y>",  # yes, the server may be started
    "<ctrl+g>", "4", "<Return>", "<Right> <Right> <Right> <Right>", "<alt+l>", "<Return>",  # where a name comes from
    "<ctrl+alt+l>", "<Escape>",  # who uses it
    "<ctrl+g>", "3", "<Return>", F2, "<ctrl+a>", "größe", "<Return>", "<ctrl+z>", "<ctrl+shift+z>",
    "<ctrl+g>", "2", "<Return>", F2, "<ctrl+a>", "t", "<Return>",  # which a type name can't have
    "<ctrl+End>", "z = succ y;", " /* äöü */", "<Return>", "<ctrl+z>", "<ctrl+shift+z>",
    "<ctrl+Home>", "<End>", "<Left> <Left> <Left>", " é", "<BackSpace>",  # types behind the emoji
    "<ctrl+g>", "3", "<Return>", "<shift+Down>", "<ctrl+c>", "<ctrl+v>", "<ctrl+v>",  # copies a line
    "<ctrl+g>", "4", "<Return>", "<End>", "<Delete>", "<ctrl+z>",  # joins two
    "<ctrl+End>", "p = {b=true, a=0};", "<Return>", "v = p.;", "<Left>", "<ctrl+space>", "<Down>", "<Return>", "<End>", "<Return>",
    "w = p", "<Escape>", "<ctrl+space>", "<Return>", "<Escape>",
    "<ctrl+g>", "4", "<Return>", "<ctrl+slash>", "<ctrl+slash>",  # makes a line a comment, and undoes it
    "<ctrl+s>", "<ctrl+w>", "<ctrl+q>",
]


def typed(piece, environment):
    words = ["key", *piece.replace("<", "").replace(">", "").split()] if piece.startswith("<") else ["type", "--delay", "60", piece]
    subprocess.run(["xdotool", *words], env=environment, check=True)
    time.sleep(0.9)


def main():
    server = os.path.abspath(sys.argv[1])
    prepare(server, START)
    read, write_end = os.pipe()
    screen = subprocess.Popen(["Xvfb", "-displayfd", str(write_end), "-screen", "0", "1100x760x24"], pass_fds=[write_end], stderr=subprocess.DEVNULL)
    environment = {**ENVIRONMENT, "DISPLAY": ":" + os.read(read, 16).decode().strip(), "XDG_RUNTIME_DIR": f"{ROOM}/home"}
    manager = subprocess.Popen(["openbox"], env=environment, stderr=subprocess.DEVNULL)
    kate = subprocess.Popen(["dbus-run-session", "kate", "-n", "-b", FILE], env=environment, stderr=subprocess.DEVNULL, cwd=ROOM)
    time.sleep(10)
    for piece in TYPED:
        typed(piece, environment)
    status = kate.wait(20)
    manager.terminate()
    screen.terminate()
    with open(SENT, "rb") as file:
        messages = bodies(file.read())
    with open(FILE, newline="") as file:
        saved = file.read()
    print(f"kate: status {status}, {len(messages)} messages")
    write(sys.argv[2] if len(sys.argv) > 2 else "kate", messages, saved)
    shutil.rmtree(ROOM)


main()
