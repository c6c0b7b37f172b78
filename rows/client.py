"""A client that plays rows: what it sends, what must come, and what came."""

import collections
import json
import os
import re
import subprocess

from read import Block, counted, quoted
from texts import Mistake, edited, expanded

SECONDS = 60

FAULT = re.compile(r"[BPLYE]\d$")
HEADER = re.compile(rb"Content-Length: (\d+)\r\n\r\n")
STEP = re.compile(r"(\d+) +([ST]-\w+) +(.*?)(?: from ([\d ]+))?$")
RENAME = re.compile(r'("(?:[^"\\]|\\.)*"|\S+) (at|refused) (.+)$')
MESSAGES = {
    "B1": "character not allowed",
    "B2": "comment not closed",
    "P1": "unexpected token",
    "P2": "command ends too early",
    "L1": "type of more than 4096 nodes",
    "L2": "command of more than 2000 tokens",
    "Y1": "unbound type name",
    "Y2": "label used twice in a record type",
    "E1": "unbound name",
    "E2": "not a function",
    "E3": "argument does not fit the parameter",
    "E4": "no such field",
    "E5": "condition is not Bool",
    "E6": "operand is not Nat",
    "E7": "term does not have the written type",
    "E8": "fix needs a function whose result fits its parameter",
    "E9": "label used twice in a record",
}
REFUSALS = {
    "new name is not a name": -32602,
    "some command does not parse": -32803,
    "no bound name here": -32803,
    "new name is of the wrong kind": -32602,
    "binding would change": -32803,
}
# How the marks are written that ask or change something.
SIGNS = {
    "hover": r"~*\^~*",
    "why": r"~*\^~*",
    "becomes": r"\^+",
    "inserts": r"\^",
    "as": r"~+",
    "definition": r"\^",
    "references": r"\^",
    "rename": r"\^",
    "labels": r"\^",
    "names": r"\^",
    "lists": r"\^",
}
CUT_SHORT = "lam_server: F5 Truncated"

# What was asked in which line of the row file, and the body that must come.
Wanted = collections.namedtuple("Wanted", "line asked body")


class Failed(Exception):
    """What the program did, and what it should have done."""


def compact(value):
    """The value as the server writes it: members in the order of their names, no blanks."""
    return json.dumps(value, sort_keys=True, separators=(",", ":"), ensure_ascii=False)


def framed(body):
    """The frame of a body, a text or bytes."""
    body = body.encode() if isinstance(body, str) else body
    return b"Content-Length: %d\r\n\r\n%b" % (len(body), body)


def location(mark, uri, called, name):
    """The place in the text that is called so."""
    if name not in called:
        raise Mistake(f"line {mark.line}: no place is called {name!r}: 'as {name}' under ~ calls one so")
    return {"uri": uri, "range": called[name]}


def position(place):
    return {"line": place[0], "character": place[1]}


def span(start, end):
    return {"start": position(start), "end": position(end)}


def reply(number, result):
    return compact({"id": number, "jsonrpc": "2.0", "result": result})


def refusal(number, code, message):
    return compact({"error": {"code": code, "message": message}, "id": number, "jsonrpc": "2.0"})


def published(uri, version, faults):
    """The notice of these faults, each with start, end and code."""
    items = [
        {"code": code, "message": MESSAGES[code], "range": span(start, end), "severity": 1, "source": "fullsub"}
        for start, end, code in sorted(faults)
    ]
    params = {"diagnostics": items, "uri": uri}
    if version is not None:
        params["version"] = version
    return compact({"jsonrpc": "2.0", "method": "textDocument/publishDiagnostics", "params": params})


def check_signs(mark, wanted):
    if not mark.is_counted and not re.fullmatch(wanted, mark.signs):
        raise Mistake(f"line {mark.line}: {mark.signs!r} is no mark for {mark.verb!r}")


def told(mark, start, end):
    """The faults that a mark stands for: one, or by `E2 repeated 10 every 4` so many of one line."""
    times = re.match(r"repeated (\d+) every (\d+)$", mark.rest)
    count, step = map(int, times.groups()) if times else (1, 0)
    check_signs(mark, r"\^+")
    if mark.rest and not times:
        raise Mistake(f"line {mark.line}: behind a fault's code stands nothing, or 'repeated COUNT every COLUMNS'")
    return [((start[0], start[1] + at * step), (end[0], end[1] + at * step), mark.verb) for at in range(count)]


def parted(text):
    """The text cut at each ', ' outside braces."""
    parts, depth = [""], 0
    for piece in re.split(r"([{}]|, )", text):
        depth += {"{": 1, "}": -1}.get(piece, 0)
        if piece == ", " and not depth:
            parts.append("")
        else:
            parts[-1] += piece
    return parts


def entry(text):
    """An entry of a context, written NAME:TYPE, or NAME:none."""
    name, _, ty = text.partition(":")
    return {"name": name, "type": None if ty == "none" else ty}


def item(text, kind):
    """An entry of a list of completions, written NAME:TYPE, or NAME where no type is told."""
    name, _, ty = text.partition(":")
    return {**({"detail": ty} if ty else {}), "kind": kind, "label": name}


class Script:
    """What a row sends in one dialect and one encoding, and what must come for it."""

    def __init__(self, row, dialect, encoding):
        self.row, self.dialect, self.encoding = row, dialect, encoding
        self.sent, self.wanted, self.changes, self.edits = [], [], [], []
        self.texts, self.versions, self.requests = {}, {}, 0
        self.says, self.parts, self.repeats = "", {"prints": [], "complains": []}, 1
        self.recording, self.saved = None, None
        if not row.steps:
            raise Mistake("the row asks nothing")
        verbs = {getattr(it, "verb", "") for it in row.steps}
        self.is_whole = not verbs & {"send", "plays", "prints", "complains"}
        if self.is_whole:
            self.do_initialize(row.line, "")
        for step in row.steps:
            if isinstance(step, Block):
                self.take_block(step)
            else:
                getattr(self, f"do_{step.verb}")(step.line, step.rest)
        if self.changes:
            raise Mistake("changes without a line 'now' and the text that they leave")
        if bool(self.recording) != bool(self.saved):
            raise Mistake("'plays' and 'leaves' stand together")
        if self.is_whole:
            self.tell(row.line, {"id": "end", "method": "shutdown"}, reply("end", None))
            self.tell(row.line, {"method": "exit"})
        self.status = row.status if row.status is not None else 0 if self.is_whole else None
        if self.status is None:
            raise Mistake("a row that sends bodies itself says by 'status N' how the program ends")

    # What is sent, and what must come.

    def send(self, frame):
        self.sent.append((frame, len(self.wanted)))

    def want(self, line, asked, body):
        self.wanted.append(Wanted(line, asked, body))
        if self.sent:
            self.sent[-1] = (self.sent[-1][0], len(self.wanted))

    def tell(self, line, message, body=None):
        """Sends a message, for which this body must come, if one is given."""
        asked = compact({"jsonrpc": "2.0", **message})
        self.send(framed(asked))
        if body is not None:
            self.want(line, asked, body)

    def notice(self, line, method, params, body):
        self.tell(line, {"method": f"textDocument/{method}", "params": params}, body)

    def ask(self, line, method, place, uri, result, error=None, **more):
        self.requests += 1
        params = {"textDocument": {"uri": uri}, "position": position(place), **more}
        body = refusal(self.requests, REFUSALS[error], error) if error else reply(self.requests, result)
        self.tell(line, {"id": self.requests, "method": method, "params": params}, body)

    # Documents.

    def take_block(self, block):
        """Opens or changes a document, and asks what its marks ask."""
        uri, text = block.uri, block.text(self.row.line_end)
        places = [(mark, *counted(block, mark, self.encoding)) for mark in block.marks]
        faults = [it for mark, start, end, _ in places if FAULT.match(mark.verb) for it in told(mark, start, end)]
        if block.kind == "open":
            self.versions[uri] = 1
            document = {"uri": uri, "languageId": "fullsub", "version": 1, "text": text}
            self.notice(block.line, "didOpen", {"textDocument": document}, published(uri, 1, faults))
        else:
            self.take_changed(block, text, faults)
        self.texts[uri] = text
        self.take_marks(block, places)

    def take_changed(self, block, text, faults):
        uri = block.uri
        if uri not in self.texts:
            raise Mistake("a document that is not open cannot be changed")
        if block.kind == "applied":
            self.apply_edits(uri)
        if block.kind == "whole":
            self.changes.append({"text": text})
        elif not self.changes:
            raise Mistake(f"'{block.kind}' without a change before it")
        elif self.texts[uri] != text:
            raise Mistake(f"the changes leave {self.texts[uri]!r}, and the row says {text!r}")
        if block.kind == "and":
            if any(it.verb not in ("becomes", "inserts") for it in block.marks):
                raise Mistake("a text behind 'and' is not the server's yet, so only its next change can be marked")
            return
        self.versions[uri] += 1
        document = {"uri": uri, "version": self.versions[uri]}
        params = {"textDocument": document, "contentChanges": self.changes}
        self.notice(block.line, "didChange", params, published(uri, self.versions[uri], faults))
        self.changes = []

    def take_marks(self, block, places):
        """Asks and changes as the marks say, one after the other; the steps of a derivation stand behind the mark that asks for it."""
        spans = {id(mark): it for mark, *it in places}
        called = {mark.rest: span(*spans[id(mark)][:2]) for mark in block.marks if mark.verb == "as"}
        left = collections.deque(it for it in block.marks if not FAULT.match(it.verb))
        while left:
            mark = left.popleft()
            if mark.verb not in SIGNS:
                raise Mistake(f"line {mark.line}: nothing is asked by {mark.verb!r}")
            check_signs(mark, SIGNS[mark.verb])
            start, end, cursor = spans[id(mark)]
            if mark.verb == "hover":
                self.hover(mark, block.uri, (start, end), cursor)
            elif mark.verb == "why":
                listed = []
                while left and STEP.match(left[0].says):
                    check_signs(left[0], "~*")
                    listed.append((left[0], spans[id(left.popleft())][:2]))
                self.why(mark, block.uri, cursor, listed)
            elif mark.verb == "definition":
                self.definition(mark, block.uri, cursor, called)
            elif mark.verb == "references":
                self.references(mark, block.uri, cursor, called)
            elif mark.verb == "rename":
                self.rename(mark, block.uri, cursor, called)
            elif mark.verb in ("labels", "names", "lists"):
                self.complete(mark, block.uri, cursor)
            elif mark.verb != "as":
                self.change(block.uri, start, start if mark.verb == "inserts" else end, quoted(mark.rest))

    def hover(self, mark, uri, place, cursor):
        shown = {"contents": {"kind": "plaintext", "value": expanded(mark.rest)}, "range": span(*place)}
        self.ask(mark.line, "textDocument/hover", cursor, uri, None if mark.rest == "nothing" else shown)

    def why(self, mark, uri, cursor, listed):
        """Asks for a derivation, whose context stands behind `in`, and whose steps under the mark."""
        result = None
        if mark.rest != "nothing":
            context = parted(expanded(mark.rest.removeprefix("in "))) if mark.rest else []
            steps = [self.step(at, *it) for at, it in enumerate(listed)]
            result = {"context": [entry(it) for it in context], "steps": steps}
        self.ask(mark.line, "fullsub/derivation", cursor, uri, result)

    def definition(self, mark, uri, cursor, called):
        """Asks where the name comes from: the place that is called so, or nothing."""
        result = None if mark.rest == "nothing" else location(mark, uri, called, mark.rest)
        self.ask(mark.line, "textDocument/definition", cursor, uri, result)

    def references(self, mark, uri, cursor, called):
        """Asks who uses the name: the places that are called so, behind `and definition` with the binder among them; none, or nothing."""
        declared = mark.rest.startswith("and definition")
        words = mark.rest.removeprefix("and definition").strip()
        listed = [location(mark, uri, called, it) for it in words.split() if words not in ("none", "nothing")]
        result = None if words == "nothing" else listed
        self.ask(mark.line, "textDocument/references", cursor, uri, result, context={"includeDeclaration": declared})

    def rename(self, mark, uri, cursor, called):
        """Asks for a new name: it is to stand at the places that are called so, or is refused for a reason."""
        found = RENAME.match(mark.rest)
        if not found:
            raise Mistake(f"line {mark.line}: a rename is 'NAME at PLACES' or 'NAME refused REASON'")
        new, rest = quoted(found[1]), found[3]
        if found[2] == "refused":
            if rest not in REFUSALS:
                raise Mistake(f"line {mark.line}: {rest!r} is none of: {', '.join(REFUSALS)}")
            self.ask(mark.line, "textDocument/rename", cursor, uri, None, rest, newName=new)
            return
        self.edits = [{"newText": new, "range": location(mark, uri, called, it)["range"]} for it in rest.split()]
        self.ask(mark.line, "textDocument/rename", cursor, uri, {"changes": {uri: self.edits}}, newName=new)

    def complete(self, mark, uri, cursor):
        """Asks what can stand there: labels behind a dot, names in sight, or nothing."""
        if mark.verb == "lists" and mark.rest != "nothing":
            raise Mistake(f"line {mark.line}: what is listed is 'labels' or 'names', or 'lists nothing'")
        listed = [] if mark.verb == "lists" else parted(expanded(mark.rest))
        kind = 5 if mark.verb == "labels" else 6
        self.ask(mark.line, "textDocument/completion", cursor, uri, [item(it, kind) for it in listed])

    def apply_edits(self, uri):
        """Changes the text by the edits of the last rename, from the last to the first, so that each finds its place as it was told."""
        for edit in reversed(self.edits):
            start, end = ((it["line"], it["character"]) for it in (edit["range"]["start"], edit["range"]["end"]))
            self.change(uri, start, end, edit["newText"])
        self.edits = []

    def step(self, at, mark, place):
        number, rule, concluded, premises = STEP.match(mark.says).groups()
        if int(number) != at:
            raise Mistake(f"line {mark.line}: step {number} stands where step {at} is due")
        made = {"from": [int(it) for it in (premises or "").split()], "rule": rule}
        if rule.startswith("S-") == bool(mark.signs or mark.is_counted):
            raise Mistake(f"line {mark.line}: a step of typing has its term under ~, one of subtyping has none")
        if rule.startswith("S-"):
            lower, _, upper = expanded(concluded).partition(" <: ")
            return {**made, "lower": lower, "upper": upper}
        return {**made, "range": span(*place), "type": expanded(concluded)}

    def change(self, uri, start, end, new):
        self.texts[uri] = edited(self.texts[uri], ((start, end), new), self.encoding)
        self.changes.append({"range": span(start, end), "text": new})

    # Lines of words.

    def do_initialize(self, line, rest):
        params = {"capabilities": {"general": {"positionEncodings": [self.encoding]}}}
        told = {
            "completionProvider": {"triggerCharacters": ["."]},
            "definitionProvider": True,
            "hoverProvider": True,
            "positionEncoding": self.encoding,
            "referencesProvider": True,
            "renameProvider": True,
            "textDocumentSync": {"change": 2, "openClose": True},
        }
        self.tell(line, {"id": 0, "method": "initialize", "params": params}, reply(0, {"capabilities": told}))

    def do_close(self, line, uri):
        uri = uri or "file:///a"
        self.notice(line, "didClose", {"textDocument": {"uri": uri}}, published(uri, None, []))
        self.texts.pop(uri, None)

    def do_send(self, line, rest):
        self.repeats = 1
        if rest.startswith("bytes "):
            self.send(quoted(rest[6:]).encode("latin-1"))
        elif rest.startswith("each byte "):
            first, _, last = rest[10:].partition("..")
            for byte in range(int(first), int(last) + 1):
                self.send(framed(bytes([byte])))
            self.repeats = int(last) + 1 - int(first)
        else:
            self.send(framed(expanded(rest)))

    def do_get(self, line, rest):
        if rest == "nothing":
            return
        length, _, body = rest.partition(" ") if rest[:1].isdigit() else ("", "", rest)
        if body.startswith("error "):
            number, code, message = body[6:].split(" ", 2)
            body = refusal(json.loads(number), int(code), message)
        body = expanded(body)
        if length and len(body.encode()) != int(length):
            raise Mistake(f"line {line}: the body has {len(body.encode())} bytes, and the row says {length}")
        for _ in range(self.repeats):
            self.want(line, self.sent[-1][0].decode(errors="replace") if self.sent else "nothing", body)

    def do_says(self, line, rest):
        self.says = rest + "\n"

    def do_prints(self, line, rest):
        self.parts["prints"].append(rest)

    def do_complains(self, line, rest):
        self.parts["complains"].append(rest)

    def do_plays(self, line, rest):
        """The file of the bodies that an editor sent, one a line."""
        self.recording = os.path.join(os.path.dirname(self.row.file), rest)

    def do_leaves(self, line, rest):
        """The file of the text that the editor left before it closed the document."""
        self.saved = os.path.join(os.path.dirname(self.row.file), rest)


def command_line(program, script):
    """The words by which the program is started for the script."""
    words = [os.path.abspath(program), *script.row.arguments]
    return [*words, "--dialect", "2"] if script.dialect == "2" else words


def ran(program, script, given, **started):
    """The program's run on this input; `started` are words of subprocess, as the environment in which it is started."""
    return subprocess.run(command_line(program, script), input=given, capture_output=True, timeout=SECONDS, check=False, **started)


def bodies_of(output):
    """The bodies of an output that is frames, and what stands behind the last whole one."""
    bodies, start = [], 0
    while found := HEADER.match(output, start):
        end = found.end() + int(found[1])
        if end > len(output):
            break
        bodies.append(output[found.end() : end].decode(errors="replace"))
        start = end
    return bodies, output[start:]


def compare(script, wanted, output):
    """Holds an output to the bodies that must come."""
    if output == b"".join(framed(it.body) for it in wanted):
        return
    bodies, rest = bodies_of(output)
    for want, came in zip(wanted, [*bodies, *[None] * len(wanted)]):
        if want.body != came:
            raise Failed(f"  line {want.line}: asked {want.asked}\n    wanted {want.body}\n    came   {came or 'nothing'}")
    raise Failed(f"  more came than was wanted: {(bodies[len(wanted):] or [rest])[0]!r}")


def compare_end(script, done, status, says):
    """Holds the status and what stands on standard error to what the row says."""
    if done.returncode != status:
        raise Failed(f"  the program ended with status {done.returncode}, wanted {status}; it said {done.stderr.decode(errors='replace')!r}")
    told = done.stderr.decode(errors="replace")
    if script.parts["complains"]:
        for part in script.parts["complains"]:
            if part not in told:
                raise Failed(f"  standard error has no {part!r}: {told!r}")
    elif told != says:
        raise Failed(f"  standard error has {told!r}, wanted {says!r}")


def checked(program, script):
    """Plays the script, and fails where anything else comes than must."""
    given = b"".join(frame for frame, _ in script.sent)
    done = ran(program, script, given)
    if script.parts["prints"]:
        for part in script.parts["prints"]:
            if part not in done.stdout.decode(errors="replace"):
                raise Failed(f"  standard output has no {part!r}")
    else:
        compare(script, script.wanted, done.stdout)
    compare_end(script, done, script.status, script.says)
    if script.row.is_cut:
        for end in range(len(given)):
            check_cut(program, script, given[:end])


def check_cut(program, script, given):
    """Plays the first bytes alone: what came whole is answered, and a run that ends between two frames has no fault."""
    done, length, wanted = ran(program, script, given), 0, 0
    for frame, answered in script.sent:
        if length + len(frame) > len(given):
            break
        length, wanted = length + len(frame), answered
    try:
        compare(script, script.wanted[:wanted], done.stdout)
        at_border = length == len(given)
        compare_end(script, done, 1 if at_border else 3, "" if at_border else CUT_SHORT + "\n")
    except Failed as failed:
        raise Failed(f"  cut behind {len(given)} bytes:\n{failed}") from failed
