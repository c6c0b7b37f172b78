"""tee.py FILE PROGRAM WORD..: runs the program, and keeps what its client sends in the file."""

import os
import subprocess
import sys


def main():
    # Emacs kills its server right behind the `exit`, which is still to be read: what reads is no
    # part of the group that is killed.
    reader = os.fork()
    if reader:
        return os.waitstatus_to_exitcode(os.waitpid(reader, 0)[1])
    os.setsid()
    server = subprocess.Popen(sys.argv[2:], stdin=subprocess.PIPE)
    kept = os.open(sys.argv[1], os.O_WRONLY | os.O_CREAT | os.O_APPEND, 0o644)
    while piece := os.read(0, 65536):
        os.write(kept, piece)
        try:
            server.stdin.write(piece)
            server.stdin.flush()
        except BrokenPipeError:
            break
    try:
        server.stdin.close()
    except BrokenPipeError:
        pass
    return server.wait()


sys.exit(main())
