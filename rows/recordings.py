"""Recorded sessions of editors, played again: the text that the changes leave must be answered as the text that was saved, and edits be what the editor made of them."""

import json
import re

from client import Failed, bodies_of, compact, compare_end, framed, ran
from texts import edited, units

SAVED = "file:///saved"


def read(file):
    with open(file, encoding="utf-8", newline="") as it:
        return it.read()


def bodies_in(recording):
    """The bodies that a recording has one a line: as they stand, or as a string of JSON where there are line ends in them."""
    return [json.loads(it) if it.startswith('"') else it for it in recording.split("\n") if it]


def encoding_of(messages):
    """What columns are counted in: the first encoding that the editor offers as it begins, else UTF-16."""
    offered = messages[0]["params"]["capabilities"].get("general", {}).get("positionEncodings")
    return offered[0] if offered else "utf-16"


def hovers(uri, text, name, encoding):
    """Requests for the type at each column of each line of the text."""
    frames = []
    for line, content in enumerate(re.split("\r\n|\n|\r", text)):
        for column in range(units(content, encoding) + 1):
            position = {"line": line, "character": column}
            params = {"textDocument": {"uri": uri}, "position": position}
            frames.append(framed(compact({"id": f"{name} {line}:{column}", "method": "textDocument/hover", "params": params})))
    return frames


def left_by(messages):
    """The text that the opening and the changes among these messages leave, by the player's own reading of the protocol."""
    text, encoding = "", encoding_of(messages)
    for message in messages:
        if message.get("method") == "textDocument/didOpen":
            text = message["params"]["textDocument"]["text"]
        elif message.get("method") == "textDocument/didChange":
            for change in message["params"]["contentChanges"]:
                where = change.get("range")
                places = where and [(where[it]["line"], where[it]["character"]) for it in ("start", "end")]
                text = edited(text, (places, change["text"]), encoding)
    return text


def answers_of(output):
    """What each request was answered, by its id, and the faults that each document had before it was closed."""
    results, faults = {}, {}
    for body in bodies_of(output)[0]:
        answer = json.loads(body)
        if "id" in answer:
            results[answer["id"]] = answer.get("result")
        elif answer["params"]["uri"] not in faults or not any(it.startswith("saved ") for it in map(str, results)):
            faults[answer["params"]["uri"]] = answer["params"]["diagnostics"]
    return results, faults


def check_renames(messages, results):
    """Where a rename was answered with edits, the editor's next changes, at most one for each edit, leave the text that these edits
    leave, put in from the last to the first."""
    for at, message in enumerate(messages):
        answer = message.get("method") == "textDocument/rename" and results.get(message["id"])
        if not answer:
            continue
        text, edits = left_by(messages[:at]), answer["changes"][message["params"]["textDocument"]["uri"]]
        for edit in reversed(edits):
            places = [(edit["range"][it]["line"], edit["range"][it]["character"]) for it in ("start", "end")]
            text = edited(text, (places, edit["newText"]), encoding_of(messages))
        changes = [it for it in range(at, len(messages)) if messages[it].get("method") == "textDocument/didChange"]
        if all(left_by(messages[: it + 1]) != text for it in changes[: len(edits)]):
            raise Failed(f"  the edits of the rename to {message['params']['newName']!r} do not leave the editor's next text")


def check_recording(program, script):
    """Plays the bodies; in front of the one that closes the document, a document with the saved text is opened, and both are asked about each place."""
    bodies, saved = bodies_in(read(script.recording)), read(script.saved)
    messages = [json.loads(body) for body in bodies]
    encoding = encoding_of(messages)
    close = next(at for at, it in enumerate(messages) if it.get("method") == "textDocument/didClose")
    uri = messages[close]["params"]["textDocument"]["uri"]
    if left_by(messages[:close]) != saved:
        raise Failed("  the recorded changes do not leave the saved text")
    document = {"textDocument": {"uri": SAVED, "text": saved}}
    opened = framed(compact({"method": "textDocument/didOpen", "params": document}))
    asked = [*hovers(uri, saved, "edited", encoding), opened, *hovers(SAVED, saved, "saved", encoding)]
    given = [*map(framed, bodies[:close]), *asked, *map(framed, bodies[close:])]
    done = ran(program, script, b"".join(given))
    compare_end(script, done, script.status, "")
    results, faults = answers_of(done.stdout)
    chosen = results[messages[0]["id"]]["capabilities"]["positionEncoding"]
    if chosen != encoding:
        raise Failed(f"  columns are to be counted in {encoding}, and the server counts in {chosen}")
    check_renames(messages, results)
    if faults[uri] != faults[SAVED]:
        raise Failed(f"  the faults of the edited text are {faults[uri]}, those of the saved one {faults[SAVED]}")
    places = [it.removeprefix("saved ") for it in map(str, results) if it.startswith("saved ")]
    if len(places) != len(asked) // 2:
        raise Failed(f"  {len(places)} of {len(asked) // 2} places of the saved text were answered")
    for place in places:
        if results.get(f"edited {place}") != results[f"saved {place}"]:
            raise Failed(f"  at {place} the edited text shows {results.get(f'edited {place}')}, the saved one {results[f'saved {place}']}")
