"""Row files, read: README.md in this folder says how they are written. The examples of a page in Markdown are rows, too."""

import json
import os
import re
from dataclasses import dataclass, field

from texts import ENCODINGS, Line, Mistake, expanded, units

MARK = re.compile(r"  ( *)([~^]*)(?: +(.*))?$")
MARKED = re.compile(r" *[~^]")
AT = re.compile(r"at (\d+):(\d+)(?:\.\.(\d+):(\d+))?(?: in (\d+):(\d+)\.\.(\d+):(\d+))? (.*)$")
LINE_ENDS = {"LF": "\n", "CR": "\r", "CR LF": "\r\n"}


@dataclass
class Row:
    """A row: its title and where it stands, how it is to be played, and its steps in order."""

    file: str
    line: int
    title: str
    dialects: tuple = ("1",)
    encodings: tuple = ("utf-16",)
    line_end: str = "\n"
    arguments: tuple = ()
    steps: list = field(default_factory=list)
    status: int = None
    is_cut: bool = False


@dataclass
class Mark:
    """A place under a document's line, or one in numbers, and what is said of it. Places are (line, index of the character), and
    (line, units) where `is_counted`."""

    line: int
    says: str
    signs: str
    start: tuple
    end: tuple
    cursor: tuple
    is_counted: bool = False

    @property
    def verb(self):
        return self.says.split()[0]

    @property
    def rest(self):
        return self.says.partition(" ")[2].strip()


@dataclass
class Block:
    """A text with its marks. `kind` is what is done with it: open, now, and, whole, applied. Marks belong to the line `shown`: the last
    one or, in a file, whose lines are all here, the one that was quoted last."""

    line: int
    kind: str
    uri: str
    lines: list = field(default_factory=list)
    marks: list = field(default_factory=list)
    given: str = None
    file: str = None
    shown: int = -1

    def text(self, line_end):
        return self.given if self.given is not None else line_end.join(it.text for it in self.lines)


@dataclass
class Words:
    """Any other line of a row: its first word, and the rest."""

    line: int
    verb: str
    rest: str


def quoted(text):
    """A text of a row: a JSON string in quotes, `nothing`, or the words as they stand."""
    if text.startswith('"'):
        try:
            return expanded(json.loads(text))
        except ValueError as error:
            raise Mistake(f"no JSON string: {text}") from error
    return "" if text == "nothing" else expanded(text)


SETTINGS = {
    "dialect": lambda row, rest: setattr(row, "dialects", chosen(rest, ("1", "2"))),
    "encoding": lambda row, rest: setattr(row, "encodings", chosen(rest, ENCODINGS)),
    "lines": lambda row, rest: setattr(row, "line_end", LINE_ENDS[chosen_one(rest, LINE_ENDS)]),
    "arguments": lambda row, rest: setattr(row, "arguments", tuple(quoted(it) for it in rest.split())),
    "status": lambda row, rest: setattr(row, "status", number(rest)),
    "cut": lambda row, rest: setattr(row, "is_cut", chosen_one(rest, ("at each byte",)) != ""),
}

BLOCKS = ("now", "and", "whole", "applied")

TEXTS = ("document", "text", "file")

VERBS = (*SETTINGS, *BLOCKS, *TEXTS, "initialize", "close", "send", "get", "says", "complains", "prints", "plays", "leaves")


def chosen_one(word, words):
    if word not in words:
        raise Mistake(f"{word!r} is none of: {', '.join(words)}")
    return word


def chosen(rest, words):
    return tuple(chosen_one(it, words) for it in rest.split())


def number(rest):
    if not rest.isdigit():
        raise Mistake(f"{rest!r} is no number")
    return int(rest)


def numbered(file, text):
    """The lines of a row file with their numbers. Of a page these are the blocks of `fsub`, each as a row."""
    lines = enumerate(text.split("\n"), 1)
    if not file.endswith(".md"):
        yield from lines
        return
    is_inside = False
    for at, line in lines:
        if line.startswith("```"):
            is_inside = line.startswith("```fsub")
            if is_inside:
                yield at, "== an example"
                yield at, f"dialect {2 if line.endswith('dialect=2') else 1}"
        elif is_inside:
            yield at, ("  " if MARKED.match(line) else "| ") + line


class Reader:
    """Reads one file, line by line."""

    def __init__(self, file):
        self.file = file
        self.rows = []
        self.mistakes = []
        self.kind = "open"
        self.uri = "file:///a"

    def read(self):
        """The rows of the file, and its mistakes as pairs of line and reason."""
        with open(self.file, encoding="utf-8", newline="\n") as it:
            for at, source in numbered(self.file, it.read()):
                try:
                    self.take(at, source)
                except (Mistake, ValueError, IndexError) as mistake:
                    self.mistakes.append((at, str(mistake)))
        if not self.rows:
            self.mistakes.append((1, "the file has no row"))
        return self.rows, self.mistakes

    def take(self, at, source):
        if not source.strip() or source.startswith("#"):
            return
        if source.startswith("== "):
            self.rows.append(Row(self.file, at, source[3:].strip()))
            self.kind, self.uri = "open", "file:///a"
        elif not self.rows:
            raise Mistake("the first row begins with a line '== its title'")
        elif source.startswith("|"):
            self.take_line(self.block(at), source[2:])
        elif source.startswith("  "):
            self.take_mark(at, source)
        elif source.startswith("at "):
            self.take_place(at, source)
        else:
            self.take_words(at, source)

    def block(self, at):
        """The block to which a line of text or a mark belongs."""
        steps = self.rows[-1].steps
        if not steps or not isinstance(steps[-1], Block) or self.kind:
            steps.append(Block(at, self.kind or "open", self.uri))
            self.kind = None
        return steps[-1]

    def last_block(self):
        steps = self.rows[-1].steps
        if self.kind or not steps or not isinstance(steps[-1], Block):
            raise Mistake("a mark without a text above it")
        return steps[-1]

    def take_line(self, block, text):
        """A line of the text; of a file, the next line that reads so."""
        if block.file is None:
            block.lines.append(Line(text))
            block.shown = len(block.lines) - 1
            return
        found = [it for it in range(block.shown + 1, len(block.lines)) if block.lines[it].text == text]
        if not found:
            raise Mistake(f"{block.file} has no such line, or none below the last one")
        block.shown = found[0]

    def take_file(self, block, name):
        """The text of a file, which is named from the folder of the row file."""
        if block.lines or block.given is not None:
            raise Mistake("a file is a text by itself")
        block.file = os.path.join(os.path.dirname(self.file), name)
        try:
            with open(block.file, encoding="utf-8", newline="") as it:
                block.given = it.read()
        except OSError as error:
            raise Mistake(f"{block.file} cannot be read") from error
        block.lines = [Line(it) for it in block.given.split("\n")]

    def take_mark(self, at, source):
        block = self.last_block()
        found = MARK.match(source)
        if not found or not found[3]:
            raise Mistake("under a text stand marks, of ^ and ~, each with what is said of it")
        if block.given is not None and block.file is None:
            raise Mistake("under a text in quotes only 'at LINE:COLUMN' can mark a place")
        if block.shown < 0:
            raise Mistake("under the name of a file a line of it is quoted, and marks stand under that")
        blanks, signs, says = found.groups()
        line, shown = block.shown, block.lines[block.shown]
        start, end, cursor = len(blanks), len(blanks) + len(signs), len(blanks) + max(signs.find("^"), 0)
        if not signs:
            start = end = cursor = 0
        elif signs == "^" and start == shown.end:
            # A cursor may stand behind the last character.
            end = start
        places = [(line, shown.index(it)) for it in (start, end, cursor)]
        block.marks.append(Mark(at, says, signs, *places))

    def take_place(self, at, source):
        found = AT.match(source)
        if not found:
            raise Mistake("a place in numbers is 'at LINE:COLUMN', with '..LINE:COLUMN' or ' in LINE:COLUMN..LINE:COLUMN', and what is said")
        *numbers, says = found.groups()
        pairs = [(int(a), int(b)) if a else None for a, b in zip(numbers[::2], numbers[1::2])]
        cursor, end, start_in, end_in = pairs
        mark = Mark(at, says, "", start_in or cursor, end_in or end or cursor, cursor, True)
        self.last_block().marks.append(mark)

    def take_words(self, at, source):
        verb, _, rest = source.partition(" ")
        chosen_one(verb, VERBS)
        row = self.rows[-1]
        if verb in SETTINGS:
            SETTINGS[verb](row, rest)
        elif verb in BLOCKS:
            self.kind = verb
        elif verb == "document":
            self.kind, self.uri = "open", rest
        elif verb == "text":
            block = self.block(at)
            block.given = quoted(rest)
        elif verb == "file":
            self.take_file(self.block(at), rest)
        else:
            row.steps.append(Words(at, verb, rest))
            self.kind = self.kind or "open"


def counted(block, mark, encoding):
    """Start, end and cursor of a mark as a client counts them: lines and units."""
    places = (mark.start, mark.end, mark.cursor)
    if mark.is_counted:
        return places
    return tuple((line, units(block.lines[line].text[:index], encoding)) for line, index in places)
