"""session.py SERVER: measures the built program by the frames that an editor sends.

Prints a table: opening texts of 400 KB and 1 MB, a key in the middle of the first one to its
published faults, hovers, the peak of the resident memory, and how fast the machine is.
"""

import json
import statistics
import subprocess
import sys
import time

import make_document

URI = "file:///made.fsub"
KEYS = 200
RUNS = 9


def frame_of(message):
    """A message as it is sent, header and body."""
    body = json.dumps({"jsonrpc": "2.0", **message}, ensure_ascii=False).encode()
    return b"Content-Length: %d\r\n\r\n%b" % (len(body), body)


class Client:
    """One run of the program, and what it is told."""

    def __init__(self, program):
        self.server = subprocess.Popen([program], stdin=subprocess.PIPE, stdout=subprocess.PIPE)
        self.asked = 0
        self.version = 0
        self.ask("initialize", {"capabilities": {}})
        self.tell("initialized", {})

    def send(self, frame):
        self.server.stdin.write(frame)
        self.server.stdin.flush()

    def receive(self):
        """The next body, not yet read as JSON."""
        length = int(self.server.stdout.readline().removeprefix(b"Content-Length: "))
        self.server.stdout.readline()
        return self.server.stdout.read(length)

    def tell(self, method, params):
        self.send(frame_of({"method": method, "params": params}))

    def request(self, method, params):
        self.asked += 1
        return {"id": self.asked, "method": method, "params": params}

    def ask(self, method, params):
        self.send(frame_of(self.request(method, params)))
        return json.loads(self.receive())["result"]

    def timed(self, message):
        """Milliseconds from the first byte of the message's frame to the last of the answer, and the answer's body."""
        frame = frame_of(message)
        start = time.perf_counter()
        self.send(frame)
        body = self.receive()
        return 1000 * (time.perf_counter() - start), body

    def open(self, text):
        """Milliseconds from the frame to the published faults, and how many there are."""
        document = {"uri": URI, "languageId": "fullsub", "version": 0, "text": text}
        taken, published = self.timed({"method": "textDocument/didOpen", "params": {"textDocument": document}})
        return taken, len(json.loads(published)["params"]["diagnostics"])

    def key(self, line, end, text):
        """Milliseconds from a change at the front of a line to the published faults."""
        self.version += 1
        places = {"start": {"line": line, "character": 0}, "end": {"line": line, "character": end}}
        change = {
            "textDocument": {"uri": URI, "version": self.version},
            "contentChanges": [{"range": places, "text": text}],
        }
        return self.timed({"method": "textDocument/didChange", "params": change})[0]

    def keys(self, line, count):
        """So many letters, each typed in front of a line's name and taken away again."""
        taken = []
        for _ in range(count // 2):
            taken += [self.key(line, 0, "x"), self.key(line, 1, "")]
        return taken

    def question(self, method, line, column, **more):
        """Milliseconds from the frame to the answer, which must be neither null, nor an empty list, nor a refusal."""
        where = {"textDocument": {"uri": URI}, "position": {"line": line, "character": column}, **more}
        taken, body = self.timed(self.request(f"textDocument/{method}", where))
        if json.loads(body).get("result") in (None, []):
            sys.exit(f"{method}: nothing is answered in line {line}, column {column}")
        return taken

    def hover(self, line, column):
        return self.question("hover", line, column)

    def keys_and_hovers(self, line, column, count):
        """So many blanks, each typed in front of a line and taken away again, with a hover behind each."""
        taken = []
        for _ in range(count // 2):
            taken.append(self.key(line, 0, " ") + self.hover(line, column + 1))
            taken.append(self.key(line, 1, "") + self.hover(line, column))
        return taken

    def peak(self):
        """The peak of the resident memory, in bytes."""
        with open(f"/proc/{self.server.pid}/status") as status:
            for line in status:
                if line.startswith("VmHWM:"):
                    return 1024 * int(line.split()[1])
        return 0

    def close(self):
        self.ask("shutdown", None)
        self.tell("exit", None)
        return self.server.wait()


def open_alone(program, text):
    """Milliseconds from the frame that opens the text to its published faults, in a run that does nothing else."""
    client = Client(program)
    taken, _ = client.open(text)
    if client.close() != 0:
        sys.exit("the program did not end with status 0")
    return taken


def additions():
    """Milliseconds of a million additions here, which tell how fast the machine is just then."""
    start = time.perf_counter()
    total = 0
    for number in range(1_000_000):
        total += number
    return 1000 * (time.perf_counter() - start)


def row(name, figure):
    print(f"| {name} | {figure} |")


def spread(taken, places=1):
    least, most = min(taken), max(taken)
    return f"{statistics.median(taken):.{places}f} ms, from {least:.{places}f} to {most:.{places}f} ms"


def main():
    program = sys.argv[1]
    text = make_document.document(10_000)
    middle = text.count("\n") // 2
    term = text.splitlines()[middle].index("=") + 2
    print("| measure | figure |\n|---|---|")

    client = Client(program)
    taken, faults = client.open(text)
    row(f"open {len(text):,} bytes, {faults} faults", f"{taken:.1f} ms")
    client.keys(middle, 10)
    after_ten = client.peak()
    row(f"a key in the middle, {KEYS} times", spread(client.keys(middle, KEYS)))
    row("a key and a hover behind it", spread(client.keys_and_hovers(middle, term, 20)))
    row("a hover on a quiet document", spread([client.hover(middle, term) for _ in range(200)], places=3))
    client.keys(middle, 1000)
    peak = client.peak()
    row("peak of memory after ten keys", f"{after_ten / len(text):.1f} times the text")
    row("peak of memory after 1,220 more", f"{peak / len(text):.1f} times the text")
    row("a definition in the middle", spread([client.question("definition", middle, 0) for _ in range(20)]))
    row("all references of the first name", spread([client.question("references", 0, 0) for _ in range(20)]))
    row("a rename in the middle", spread([client.question("rename", middle, 0, newName="fresh") for _ in range(20)]))
    row("a rename of the first name", spread([client.question("rename", 0, 0, newName="fresh") for _ in range(20)]))
    row("peak of memory with all three", f"{client.peak() / len(text):.1f} times the text")
    line = next(at for at, it in enumerate(text.splitlines()) if at > 9_900 and ".a" in it)
    dot = text.splitlines()[line].index(".a") + 1
    row("what is listed behind a dot near the end", spread([client.question("completion", line, dot) for _ in range(20)]))
    row("peak of memory with that too", f"{client.peak() / len(text):.1f} times the text")
    row("the program's status", client.close())

    client = Client(program)
    client.open("x = 0;\n" + 10_000 * "x;\n")
    row("a rename of a name that is used 10,000 times", spread([client.question("rename", 0, 0, newName="fresh") for _ in range(20)]))
    client.close()

    client = Client(program)
    names = [f"x{number} = {number};\n" for number in range(10_000)]
    client.open("".join(names) + "x0")
    row("10,000 names that are listed on a variable", spread([client.question("completion", 10_000, 0) for _ in range(20)]))
    client.close()

    text = make_document.document(22_950)
    opened = [open_alone(program, text) for _ in range(RUNS)]
    row(f"open {len(text):,} bytes, each in a run of its own, {RUNS} times", spread(opened))
    row("for comparison, a million additions in Python", spread([additions() for _ in range(RUNS)]))


if __name__ == "__main__":
    main()
