#!/usr/bin/env python3
"""edits.py [PROGRAM ..] [--checker PROGRAM] [--count N] [--seed N] [--apart N]: makes random edits in random documents, and compares what the built
program answers about the documents with what it answers about the same texts opened anew.

A session has three documents open. Each step edits one of them, or closes it and opens it again, and asks about it, and some steps about another one,
too. The same is asked about the same text in a fourth document, opened for this and closed again, and after some steps each question is asked in
a process of its own, which is given that text and that question alone. Compared are the published diagnostics and, at one place, the type, the
derivation, the definition, the references, a rename and the completions, at five more the type alone, byte for byte. The derivations are verified
against their texts by `lam_check --verify`. Sessions are in both dialects and the three encodings; bench/texts_at_random.py makes the documents.
The same seed makes the same edits.

At the first difference the edit, the question, the texts and both answers are printed. A session counts once. The last line is 'N passed, M failed'.
"""

import argparse
import collections
import json
import os
import re
import subprocess
import sys
import tempfile
import time
from dataclasses import dataclass
from random import Random

HERE = os.path.dirname(os.path.realpath(__file__))
CHECKER = os.path.join(HERE, "..", "crates", "lam_check", "out", "lam_check")
sys.path.insert(0, os.path.join(HERE, "..", "rows"))

from client import SECONDS, bodies_of, compact, framed, position, published, span
from play import built
from texts import ENCODINGS, LINE_END, edited, units
from texts_at_random import NAMES, TOKENS, TYPE_NAMES, Writer, document, doubled, laid_out

# How many edits a session has. In one of so many sessions the first document is long: it is never closed, and has most of the edits, by these
# rates, so that so many commands are typed that its analysis starts from scratch.
LENGTH = 100
LONG = 5
RATES = (8, 1, 1)

# A type is asked for at so many places, everything else at one of them.
PLACES = 6

# After one edit in so many each question is asked in a process of its own, too.
APART = 40

# How likely it is that another document is asked about, too, and that a document is not edited but closed and opened again.
OTHER = 0.25
AGAIN = 1 / 12

# A longer text is given up for another one.
LONGEST = 20_000

# The edited documents are called so in every session; the name of the fourth one is as long.
EDITED, ANEW = ("file:///first", "file:///other", "file:///third"), "file:///fresh"

# The method of a question that nobody has to ask, and the shape of an edit that closes its document and opens it again.
DIAGNOSTICS = "diagnostics"
CLOSED = "closed and opened again"

WORD = re.compile(r"[^\W\d][\w']*")

# The rate of each shape of an edit; two edits in five go back to an earlier text.
BACK = 0.4
SHAPES = {
    "characters put in": 5,
    "characters taken out": 4,
    "characters replaced": 2,
    "semicolons and comments": 8,
    "commands": 12,
    "words exchanged": 10,
    "types at the limit": 7,
    "at the end": 4,
    "rough places": 2,
    "several places": 6,
    "whole text": 10,
}


def place_of(text, at, encoding):
    """The line and the column of this character, as a client counts; of the second one of a line end, those of its first."""
    at -= text[max(at - 1, 0) : at + 1] == "\r\n"
    ends = [found.end() for found in LINE_END.finditer(text[:at])]
    return len(ends), units(text[ends[-1] if ends else 0 : at], encoding)


def ranged(start, end, text):
    return {"range": span(start, end), "text": text}


def between(old, new):
    """Which characters of the old text the new one lacks, and what it has in their place."""
    start = len(os.path.commonprefix([old, new]))
    rest = len(os.path.commonprefix([old[start:][::-1], new[start:][::-1]]))
    return start, len(old) - rest, new[start : len(new) - rest]


@dataclass
class Edit:
    """An edit: its document and shape, the text before it, the changes that a client sends, the text behind it and its version, and the number of
    the answer to it, which is the diagnostics."""

    uri: str
    shape: str
    before: str
    changes: list
    after: str
    version: int
    answer: int = 0


@dataclass
class Question:
    """A question about a document as an edit left it, and the numbers of the answers about that document and about the fourth one."""

    edit: Edit
    method: str
    params: dict
    answer: int
    anew: int = 0


class Editor:
    """Edits one document at random, and knows its earlier texts and its last edit."""

    def __init__(self, uri, random, encoding, is_long):
        self.uri, self.random, self.encoding, self.is_long = uri, random, encoding, is_long
        self.texts = [document(random, is_long)]
        self.last = Edit(uri, "opened", "", [], self.texts[0], 0)
        self.makes = {
            "characters put in": self.put_in,
            "characters taken out": self.take_out,
            "characters replaced": self.replace,
            "semicolons and comments": self.mark,
            "commands": self.commands,
            "words exchanged": self.exchange,
            "types at the limit": self.double,
            "at the end": self.append,
        }

    def edit(self, version):
        """Makes the next edit, or opens the document again: with its own text, an earlier one, or a new one."""
        before, is_too_long = self.texts[-1], len(self.texts[-1]) > LONGEST
        if not self.is_long and self.random.random() < AGAIN:
            after = self.random.choice((before, self.random.choice(self.texts[-20:]), document(self.random)))
            shape, changes = CLOSED, []
        elif not is_too_long and len(self.texts) > 1 and self.random.random() < BACK:
            shape, (changes, after) = "back to an earlier text", self.back(before)
        else:
            shape = "whole text" if is_too_long else self.random.choices(list(SHAPES), SHAPES.values())[0]
            changes, after = self.made(shape, before)
        self.texts.append(after)
        self.last = Edit(self.uri, shape, before, changes, after, version)
        return self.last

    def made(self, shape, text):
        """The changes of an edit of this shape, and the text behind them."""
        if shape == "whole text":
            return self.whole(text)
        if shape == "rough places":
            return self.rough(text)
        if shape == "several places":
            changes = []
            for _ in range(self.random.randrange(2, 5)):
                shapes = {name: rate for name, rate in SHAPES.items() if name != shape}
                more, text = self.made(self.random.choices(list(shapes), shapes.values())[0], text)
                changes += more
            return changes, text
        return self.changed(text, self.makes[shape](text))

    def changed(self, text, spots):
        """The changes of these spots, one after the other, and the text behind them. A spot is two characters' numbers and a new text."""
        changes = []
        for start, end, new in spots:
            places = [place_of(text, at, self.encoding) for at in (start, end)]
            changes.append(ranged(*places, new))
            start, end = (at - (text[max(at - 1, 0) : at + 1] == "\r\n") for at in (start, end))
            text = text[:start] + new + text[end:]
        return changes, text

    # Where edits are, and what they put there.

    def spot(self, text):
        """The number of a character, more often at the border of a word or a command than within."""
        borders = [found.start() for found in re.finditer(r"\b|(?<=;)|(?=;)|$", text)]
        return self.random.choice(borders) if self.random.random() < 0.5 else self.random.randrange(len(text) + 1)

    def some(self):
        """A few tokens or characters."""
        return "".join(self.random.choices(TOKENS, k=self.random.choice((1, 1, 1, 2, 3, 6))))

    def pieces(self, text):
        """From where to where the pieces between semicolons are, those in comments too."""
        ends = [found.end() for found in re.finditer(";", text)] + [len(text)]
        return list(zip([0, *ends], ends))

    def command(self, text):
        """A new command, which may use names of the text."""
        writer = Writer(self.random, faulty=self.random.choice((0, 0, 20)))
        writer.names = {it: writer.some_type() for it in self.random.choices(WORD.findall(text) or NAMES, k=3)}
        return writer.command() + self.random.choice((";", ";", ";\n", ";\r\n", ""))

    # The shapes.

    def put_in(self, text):
        at = self.spot(text)
        return [(at, at, self.some())]

    def take_out(self, text):
        start = self.spot(text)
        length = self.random.choice((1, 1, 1, 2, 3, 8, self.random.randrange(len(text) + 1)))
        return [(start, min(start + length, len(text)), "")]

    def replace(self, text):
        return [(start, end, self.some()) for start, end, _ in self.take_out(text)]

    def mark(self, text):
        """Puts in a semicolon or a comment's sign, or takes one out."""
        found = [it.span() for it in re.finditer(r";|/\*|\*/", text)]
        if found and self.random.random() < 0.5:
            return [(*self.random.choice(found), "")]
        at = self.spot(text)
        return [(at, at, self.random.choice((";", ";", "/*", "*/", "/* ; */", "*/ /*")))]

    def commands(self, text):
        """Puts in a command, takes one out, replaces one, or swaps two."""
        pieces = self.pieces(text)
        start, end = self.random.choice(pieces)
        kind = self.random.randrange(5)
        if kind == 0:
            return [(start, start, self.command(text))]
        if kind == 1:
            return [(start, end, "")]
        if kind == 2:
            return [(start, end, self.command(text))]
        if kind == 3:
            return [(start, start, "".join(self.command(text) for _ in range(self.random.randrange(2, 6))))]
        (first, middle), (last, end) = sorted((self.random.choice(pieces), (start, end)))
        return [(last, end, text[first:middle]), (first, middle, text[last:end])] if middle <= last else []

    def exchange(self, text):
        """Writes another word of the text in place of a word, or exchanges two."""
        found = list(WORD.finditer(text))
        if not found:
            return self.put_in(text)
        one, other = self.random.choice(found), self.random.choice(found)
        if self.random.random() < 0.3 and one.end() <= other.start():
            return [(*other.span(), one[0]), (*one.span(), other[0])]
        likes = [it[0] for it in found if it[0][0].isupper() == one[0][0].isupper()]
        return [(*one.span(), self.random.choice((*likes, self.random.choice(NAMES), self.random.choice(TYPE_NAMES))))]

    def double(self, text):
        """Adds or removes a type that is about as large as types may be."""
        found = [it.span() for it in re.finditer(r"(?<=[=:{,])\s*(T|x)\d+\b", text)]
        at, kind = self.random.choice(self.pieces(text))[0], self.random.randrange(5)
        if not found or kind == 0:
            return [(at, at, laid_out(self.random, doubled(self.random)))]
        (start, end), word = self.random.choice(found), text[slice(*self.random.choice(found))].strip()
        if kind == 1:
            new = "Nat" if word[0] == "T" else "0"
            return [(start, end, new)]
        if kind == 2:
            return [(start, end, word)]
        new = f"{word} = {{a:{word}, b:{word}}};" if word[0] == "T" else f"{word} = {{a={word}, b={word}}};"
        return [(at, at, new)]

    def append(self, text):
        """Edits behind the last semicolon."""
        start, end = self.pieces(text)[-1]
        kind = self.random.randrange(4)
        if kind == 0:
            return [(end, end, self.some())]
        if kind == 1:
            return [(end, end, self.command(text))]
        return [(start, end, "")] if kind == 2 else [(max(end - 1, 0), end, "")]

    def rough(self, text):
        """Changes between any places, behind the ends of lines and within characters too, the first one perhaps behind the other."""
        start, end = self.rough_place(text), self.rough_place(text)
        if self.random.random() < 0.7:
            end = start[0], start[1] + self.random.randrange(4)
        new = self.some()
        return [ranged(start, end, new)], edited(text, ((start, end), new), self.encoding)

    def rough_place(self, text):
        line, column = place_of(text, self.random.randrange(len(text) + 1), self.encoding)
        return line + self.random.choice((0, 0, 0, 1)), column + self.random.choice((0, 1, 1, 2, 300))

    def whole(self, text):
        """Sends a whole text: another one, the same one, this one changed, or none."""
        kind = self.random.randrange(8)
        new = text if kind == 0 else "" if kind == 1 else document(self.random, self.is_long)
        if kind == 2:
            new = self.changed(text, self.commands(text))[1]
        if kind == 3:
            new = self.changed(text, self.mark(text))[1]
        return [{"text": new}], new

    def back(self, text):
        """Goes back to an earlier text, mostly to the last one, by the change between both, or as a whole."""
        earlier = self.texts[-2] if self.random.random() < 0.6 else self.random.choice(self.texts[-20:])
        if self.random.random() < 0.1:
            return [{"text": earlier}], earlier
        start, end, new = between(text, earlier)
        return self.changed(text, [self.whole_line_ends(text, earlier, start, end, new)])

    def whole_line_ends(self, text, earlier, start, end, new):
        """The spot with all of the line ends that it begins or ends in, which have no place within."""
        if text[max(start - 1, 0) : start + 1] == "\r\n":
            start, new = start - 1, "\r" + new
        if text[max(end - 1, 0) : end + 1] == "\r\n":
            end, new = end + 1, new + "\n"
        return start, end, new


class Talk:
    """What a client says to one run of the program. Each message but `exit` is answered by one other, so both have the same number."""

    def __init__(self, dialect, encoding):
        self.dialect, self.frames, self.closed = dialect, [], {}
        self.say("initialize", {"capabilities": {"general": {"positionEncodings": [encoding]}}}, 0)

    def say(self, method, params, id_of=None):
        """Says it; the number of the message."""
        message = {"jsonrpc": "2.0", "method": method, "params": params}
        self.frames.append(framed(compact({**message, "id": id_of} if id_of is not None else message)))
        return len(self.frames) - 1

    def open(self, uri, text, version):
        document = {"uri": uri, "languageId": "fullsub", "version": version, "text": text}
        return self.say("textDocument/didOpen", {"textDocument": document})

    def edit(self, edit):
        if edit.shape == CLOSED:
            self.close(edit.uri)
            return self.open(edit.uri, edit.after, edit.version)
        document = {"uri": edit.uri, "version": edit.version}
        return self.say("textDocument/didChange", {"textDocument": document, "contentChanges": edit.changes})

    def ask(self, uri, question):
        return self.say(question.method, {"textDocument": {"uri": uri}, **question.params}, f"{uri} {question.answer}")

    def close(self, uri):
        self.closed[self.say("textDocument/didClose", {"textDocument": {"uri": uri}})] = published(uri, None, [])

    def answers(self, program):
        """All that the program answers, with empty texts for what does not come, and how it ends where that is not by itself."""
        self.say("shutdown", None, 1)
        count = self.say("exit", None)
        words = [os.path.abspath(program), "--dialect", self.dialect]
        done = subprocess.run(words, input=b"".join(self.frames), capture_output=True, timeout=SECONDS, check=False)
        bodies, rest = bodies_of(done.stdout)
        told = done.stderr.decode(errors="replace").strip()
        answers = bodies + [""] * (count - len(bodies))
        closed = next((answers[at] for at, it in self.closed.items() if answers[at] != it), None)
        if done.returncode or rest or told or closed or len(bodies) != count:
            behind = f", behind a close {closed}" if closed else ""
            return answers, f"status {done.returncode}, {told!r}, {len(bodies)} answers to {count} messages{behind}"
        return answers, None


class Session:
    """Three documents with so many edits in all, in the dialect and the encoding of the session's number."""

    def __init__(self, seed, number, length):
        self.random = Random(f"{seed} {number}")
        self.dialect, self.encoding = "12"[number % 2], ENCODINGS[number // 2 % 3]
        self.number, self.talk = number, Talk(self.dialect, self.encoding)
        is_long = number % LONG == LONG - 1
        editors = [Editor(it, self.random, self.encoding, is_long and it == EDITED[0]) for it in EDITED]
        for it in editors:
            it.last.answer = self.talk.open(it.uri, it.last.after, 0)
        self.steps = []
        for version in range(1, length + 1):
            editor = self.random.choices(editors, RATES if is_long else None)[0]
            other = self.random.choice([it for it in editors if it is not editor])
            edit = editor.edit(version)
            edit.answer = self.talk.edit(edit)
            self.steps.append(self.asked([edit, other.last] if self.random.random() < OTHER else [edit]))

    def asked(self, edits):
        """Asks about the documents of these edits, and then the same about their texts opened anew; all questions."""
        asked = [self.ask(it) for it in edits]
        for it in asked:
            self.ask_anew(it)
        return sum(asked, [])

    def ask(self, edit):
        """Asks about a document as its last edit left it; the questions, of which the first one stands for the diagnostics."""
        asked = [Question(edit, DIAGNOSTICS, {}, edit.answer)]
        for method, params in self.questions(edit):
            asked.append(Question(edit, method, params, len(self.talk.frames)))
            self.talk.ask(edit.uri, asked[-1])
        return asked

    def ask_anew(self, asked):
        """Asks the same about the fourth document, opened with the same text and closed again."""
        asked[0].anew = self.talk.open(ANEW, asked[0].edit.after, asked[0].edit.version)
        for it in asked[1:]:
            it.anew = self.talk.ask(ANEW, it)
        self.talk.close(ANEW)

    def questions(self, edit):
        """What is asked behind an edit, types at some places and all else at one: methods, and their params but for the document."""
        where, *others = ({"position": position(it)} for it in self.places(edit))
        new = self.random.choice((*NAMES, *TYPE_NAMES, *WORD.findall(edit.after, 0, 300), "fresh", "Fresh", "in", "0", ""))
        return [
            *(("textDocument/hover", it) for it in others),
            *((f"textDocument/{it}", where) for it in ("hover", "completion", "definition")),
            ("textDocument/references", {**where, "context": {"includeDeclaration": self.random.random() < 0.5}}),
            ("textDocument/rename", {**where, "newName": new}),
            ("fullsub/derivation", where),
        ]

    def places(self, edit):
        """Places of characters: of words, behind dots, near the edit, and any; some are behind the end of their line."""
        text = edit.after
        any_of = range(len(text) + 1)
        words = [it.start() for it in WORD.finditer(text)] or any_of
        dots = [it.end() for it in re.finditer(r"\.", text)] or any_of
        front = len(os.path.commonprefix([edit.before, text]))
        near = any_of[max(front - 3, 0) : front + 6]
        for spots in self.random.choices((words, dots, near, any_of), (10, 2, 4, 4), k=PLACES):
            line, column = place_of(text, self.random.choice(spots), self.encoding)
            yield line, column + self.random.choice((*9 * (0,), 1, 300))

    def played(self, program, given, counts):
        """Plays the session; what is wrong, or nothing. Counts what was edited and answered."""
        answers, end = self.talk.answers(program)
        derivations = []
        title = f"session {self.number}, dialect {self.dialect}, {self.encoding}"
        for version, asked in enumerate(self.steps, 1):
            is_apart = version % given.apart == self.number % given.apart
            for it in asked:
                ours, anew = answers[it.answer], answers[it.anew].replace(ANEW, it.edit.uri)
                told = difference(asked[0].edit, it, ours, anew, "a fourth document")
                if is_apart and not told:
                    told = difference(asked[0].edit, it, ours, self.apart(program, it), "a process of its own")
                if told:
                    return f"{title}, edit {version}:\n{told}\n  it ended with {end or 'status 0'}"
                count(counts, it, ours, is_apart)
                if it.method == "fullsub/derivation" and (derivation := json.loads(ours).get("result")):
                    derivations.append((it.edit.after, derivation))
            counts["edits"][asked[0].edit.shape] += 1
        told = end or unverified(given.checker, self, derivations)
        return f"{title}: {told}" if told else None

    def apart(self, program, question):
        """What is answered in a process of its own, which is given this text and this question alone."""
        talk, edit = Talk(self.dialect, self.encoding), question.edit
        talk.open(edit.uri, edit.after, edit.version)
        if question.method != DIAGNOSTICS:
            talk.ask(edit.uri, question)
        answers, end = talk.answers(program)
        return end or answers[-2]


def difference(edit, question, ours, other, where):
    """How the answers differ, or nothing."""
    if ours and ours == other:
        return None
    shown = {
        "edited": edit.uri,
        "text before": compact(edit.before),
        "edit": f"{edit.shape}, {compact(edit.changes)}",
        "asked about": question.edit.uri,
        "its text now": compact(question.edit.after),
        "asked": compact([question.method, question.params]),
        "of this document": ours or "nothing",
        f"opened anew, in {where}": other or "nothing",
    }
    return "\n".join(f"  {name}: {it}" for name, it in shown.items())


def unverified(checker, session, derivations):
    """What the checker says of the session's derivations, each with the text that it is of, where it does not accept all; else nothing."""
    if not derivations:
        return None
    with tempfile.TemporaryDirectory() as room:
        with open(f"{room}/derivations", "w", encoding="utf-8") as lines:
            for number, (text, derivation) in enumerate(derivations):
                with open(f"{room}/{number}", "wb") as it:
                    it.write(text.encode())
                print(compact({"derivation": derivation, "file": f"{number}"}), file=lines)
        words = [os.path.abspath(checker), "--dialect", session.dialect, "--position-encoding", session.encoding, "--verify", "derivations"]
        done = subprocess.run(words, cwd=room, capture_output=True, timeout=SECONDS, check=False)
    verdicts = done.stdout.decode().splitlines()
    if done.returncode == 0 and len(verdicts) == len(derivations):
        return None
    refused = next((at for at, it in enumerate(verdicts) if ": accepted: " not in it), 0)
    return f"{verdicts[refused : refused + 1]}, {done.stderr.decode()!r}\n  {compact(derivations[refused : refused + 1])}"


def count(counts, question, answer, is_apart):
    """Counts what is compared: the codes of the diagnostics, else the request, and its answer where that tells something."""
    if question.method == DIAGNOSTICS:
        counts["texts"].update(set(re.findall(r'"code":"(\w+)"', answer)) or {"no diagnostic"})
        return
    counts["answers"][question.method.partition("/")[2]] += not re.search(r'"error":|"result":(null|\[\])', answer)
    counts["requests"]["compared with a fourth document"] += 1
    counts["requests"]["compared with a process of its own"] += is_apart


def lines_of(counts):
    """What was counted, for the reader to judge the test by."""
    for name, counted in counts.items():
        yield f"  {name}: " + ", ".join(f"{it} {number:,}" for it, number in sorted(counted.items(), key=lambda it: -it[1]))


def count_right(program, given):
    """Plays sessions up to the first difference; prints it and what was counted, and returns how many are right and how many wrong."""
    start, right, told = time.monotonic(), 0, None
    counts = {it: collections.Counter() for it in ("edits", "texts", "answers", "requests")}
    for number in range(-(-given.count // LENGTH)):
        session = Session(given.seed, number, min(LENGTH, given.count - number * LENGTH))
        told = session.played(program, given, counts)
        if told:
            print(told)
            break
        right += 1
    print(f"{os.path.relpath(program)}: {sum(counts['edits'].values())} edits, {1 if told else 0} differences; seed {given.seed}")
    for line in lines_of(counts):
        print(line)
    print(f"  {time.monotonic() - start:.1f} s", flush=True)
    return right, 1 if told else 0


def main():
    words = argparse.ArgumentParser(description=__doc__)
    words.add_argument("programs", metavar="PROGRAM", nargs="*", help="a program to play against (else those that the gate built)")
    words.add_argument("--checker", default=CHECKER, help="what verifies derivations (else what the gate built)")
    words.add_argument("--count", type=int, default=7500, help="how many edits are made (else 7500)")
    words.add_argument("--seed", type=int, default=7, help="what the random numbers are made of (else 7)")
    words.add_argument("--apart", type=int, default=APART, help=f"after one edit in so many each question has a process of its own (else {APART})")
    given = words.parse_args()
    right, wrong = map(sum, zip(*(count_right(it, given) for it in built(given.programs))))
    print(f"{right} passed, {wrong} failed")
    return 1 if wrong or not right else 0


if __name__ == "__main__":
    sys.exit(main())
