"""An editor in a terminal of its own, with an empty home and a server that is listened to."""

import json
import os
import pty
import select
import shutil
import subprocess
import sys
import time

HERE = os.path.dirname(os.path.abspath(__file__))
ROOM = "/tmp/fullsub"
FILE = f"{ROOM}/a.fsub"
SENT = f"{ROOM}/sent"

ENVIRONMENT = {
    "PATH": f"{ROOM}/bin:{os.environ['PATH']}",
    "HOME": f"{ROOM}/home",
    "LANG": "C.UTF-8",
    "TERM": "xterm-256color",
}

# Both editors listen to what the scripts ask of them.
NEOVIM = ["nvim", "-i", "NONE", "--listen", f"{ROOM}/socket", FILE]
EMACS = ["emacs", "-nw", FILE]
EMACS_INIT = f'(require \'server) (setq server-socket-dir "{ROOM}/home" server-name "socket") (server-start)'


def said(words):
    """What a command says, as JSON."""
    answer = subprocess.run(words, env=ENVIRONMENT, capture_output=True, text=True, check=True)
    # Neovim 0.7 says it on standard error; Emacs prints a literal.
    value = json.loads(answer.stdout or answer.stderr)
    return json.loads(value) if isinstance(value, str) else value


def said_by_neovim(expression):
    """What Neovim says of an expression of its script that gives JSON."""
    return said(["nvim", "--server", f"{ROOM}/socket", "--remote-expr", expression.replace("\n", " ")])


def said_by_emacs(expression):
    """What Emacs says of a Lisp expression that gives JSON."""
    return said(["emacsclient", "-s", f"{ROOM}/home/socket", "-e", expression])


def prepare(server, text, init=""):
    """The home with what `make editors` puts there, the file, and a server whose input is kept in SENT."""
    shutil.rmtree(ROOM, ignore_errors=True)
    os.makedirs(f"{ROOM}/home/.emacs.d")
    os.makedirs(f"{ROOM}/bin")
    # Emacs takes no requests in a folder that others may read.
    os.chmod(f"{ROOM}/home", 0o700)
    install = [sys.executable, f"{HERE}/../install.py", "neovim", "vim", "emacs", "kate"]
    subprocess.run(install, env=ENVIRONMENT, stdout=subprocess.DEVNULL, check=True)
    with open(f"{ROOM}/home/.emacs.d/init.el", "w") as file:
        file.write(f"(setq inhibit-startup-screen t make-backup-files nil native-comp-async-report-warnings-errors nil)\n{init}\n")
    with open(f"{ROOM}/home/.vimrc", "w") as file:
        file.write("source $VIMRUNTIME/defaults.vim\npackadd! ale\n")
    program = f"{ROOM}/bin/lam_server"
    with open(program, "w") as script:
        script.write(f'#!/bin/sh\nexec {sys.executable} {HERE}/tee.py {SENT} {server} "$@"\n')
    os.chmod(program, 0o755)
    with open(FILE, "w", newline="") as file:
        file.write(text)


class Terminal:
    """A running editor, and the keyboard in front of it."""

    def __init__(self, command):
        self.child, self.end = pty.fork()
        if self.child == 0:
            os.chdir(ROOM)
            os.execvpe(command[0], command, ENVIRONMENT)
        self.wait(4)

    def wait(self, seconds):
        """Reads what is drawn, so that the editor never waits for us. False once it has ended."""
        until = time.time() + seconds
        while (left := until - time.time()) > 0:
            if select.select([self.end], [], [], left)[0]:
                try:
                    if not os.read(self.end, 65536):
                        return False
                except OSError:
                    return False
        return True

    def type(self, keys):
        """Types letters one by one, but a terminal's own sequence or a command in one write."""
        whole = keys.startswith("\x1b[") or len(keys) < 4
        for part in [keys] if whole else keys:
            os.write(self.end, part.encode())
            if not self.wait(0.06):
                return False
        return True

    def close(self):
        """The status that the editor ended with."""
        self.wait(3)
        os.close(self.end)
        return os.waitstatus_to_exitcode(os.waitpid(self.child, 0)[1])
