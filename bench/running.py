"""The built program at work: its client decides when it is given something, when it is read, and when it is left alone."""

import contextlib
import fcntl
import os
import subprocess
import threading
import time

from client import SECONDS, command_line

# The operation of fcntl that gives a pipe its room; Python has a name for it from 3.10 on.
F_SETPIPE_SZ = 1031

# How much is read at once, and how often in a row a process must be found asleep.
PIECE = 1 << 16
CALM = 5


class Running:
    """A run of the program, in the dialect of the script. It is killed where it takes longer than it may."""

    def __init__(self, program, script, room=None, seconds=SECONDS, **started):
        """Starts the program with a pipe of so much room as its output; `started` are words of subprocess."""
        pipes = {name: subprocess.PIPE for name in ("stdin", "stdout", "stderr")}
        self.process = subprocess.Popen(command_line(program, script), bufsize=0, **pipes, **started)
        if room:
            fcntl.fcntl(self.process.stdout, F_SETPIPE_SZ, room)
        self.feeder = None
        self.watch = threading.Timer(seconds, self.process.kill)
        self.watch.start()

    def __enter__(self):
        return self

    def __exit__(self, *_):
        self.watch.cancel()
        self.process.kill()
        self.wait_for_feeder()
        for pipe in (self.process.stdin, self.process.stdout, self.process.stderr):
            pipe.close()
        self.process.wait()

    def give(self, given):
        """Gives it these bytes, beside whatever comes next, so that neither side waits for the other."""
        self.wait_for_feeder()
        self.feeder = threading.Thread(target=self.write, args=(given,))
        self.feeder.start()

    def write(self, given):
        left = memoryview(given)
        with contextlib.suppress(BrokenPipeError):
            while left:
                left = left[os.write(self.process.stdin.fileno(), left) :]

    def wait_for_feeder(self):
        """Waits until all that it was given is in its pipe."""
        if self.feeder:
            self.feeder.join()

    def take(self, length, piece=PIECE):
        """The next bytes that it writes, so many or up to their end, read in pieces of this size."""
        parts = []
        while length and (part := os.read(self.process.stdout.fileno(), min(length, piece))):
            parts.append(part)
            length -= len(part)
        return b"".join(parts)

    def status(self, name):
        """What the system says of the process under this name; 0 where it says nothing, as of one that has ended."""
        with open(f"/proc/{self.process.pid}/status", encoding="utf-8") as status:
            return next((line.split()[1] for line in status if line.startswith(name + ":")), "0")

    def settle(self):
        """Waits until it has been given all and sleeps: for more, or for room in its output."""
        self.wait_for_feeder()
        calm = 0
        while calm < CALM and (state := self.status("State")) not in "ZX":
            calm = calm + 1 if state == "S" else 0
            time.sleep(0.001)

    def close_input(self):
        self.wait_for_feeder()
        with contextlib.suppress(OSError):
            self.process.stdin.close()

    def end(self):
        """Ends its input; the rest that it writes, and how it ends: its status, below 0 by a signal, and what it says."""
        closer = threading.Thread(target=self.close_input)
        closer.start()
        rest = b"" if self.process.stdout.closed else self.process.stdout.read()
        told = self.process.stderr.read().decode(errors="replace")
        closer.join()
        return rest, self.process.wait(), told
