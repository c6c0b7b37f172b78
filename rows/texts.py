"""Texts as a row file shows them: repetitions, the columns under which marks stand, and the positions that a client counts."""

import json
import re
import unicodedata

ENCODINGS = ("utf-8", "utf-16", "utf-32")

# <<40*text>>, <<1..40*text with {n} and {n-1}>>, and before the star `sorted` or `by ", "`.
REPETITION = re.compile(r'<<(\d+)(?:\.\.(\d+))?( sorted)?(?: by ("[^"]*"))?\*(.*?)>>')

# <<3 from Nat*{a:{}, b:{}}>>: three times, {} being what came before.
NESTING = re.compile(r"<<(\d+) from ([^*<>]*)\*(.*?)>>")

LINE_END = re.compile(r"\r\n|\n|\r")


class Mistake(Exception):
    """What is wrong with a row as it is written."""


def repeated(found):
    """The text that a repetition stands for."""
    first, last, in_order, between, body = found.groups()
    numbers = range(int(first)) if last is None else range(int(first), int(last) + 1)
    numbers = sorted(numbers, key=str) if in_order else numbers
    parts = [body.replace("{n}", str(n)).replace("{n-1}", str(n - 1)) for n in numbers]
    return json.loads(between or '""').join(parts)


def nested(found):
    """The text that a nesting stands for."""
    text = found[2]
    for _ in range(int(found[1])):
        text = found[3].replace("{}", text)
    return text


def expanded(source):
    """The source with each repetition and each nesting written out."""
    return NESTING.sub(nested, REPETITION.sub(repeated, source))


def width(character):
    """The columns that a terminal gives the character."""
    if unicodedata.combining(character):
        return 0
    return 2 if unicodedata.east_asian_width(character) in "WF" else 1


class Line:
    """A line of a document as the row shows it: its text, and which columns begin a character of it."""

    def __init__(self, source):
        self.text = ""
        self.characters_before = {0: 0}
        self.end = 0
        done = 0
        for found in REPETITION.finditer(source):
            for character in source[done : found.start()]:
                self.add(character, width(character))
            self.add(repeated(found), sum(map(width, found[0])))
            done = found.end()
        for character in source[done:]:
            self.add(character, width(character))

    def add(self, text, columns):
        self.text += text
        self.end += columns
        self.characters_before[self.end] = len(self.text)

    def index(self, column):
        """How many characters stand before the column."""
        if column in self.characters_before:
            return self.characters_before[column]
        if column > self.end:
            raise Mistake("a mark stands behind the end of its line")
        raise Mistake("a mark begins or ends inside a wide character or a repetition")


def units(text, encoding):
    """The length of the text as a client counts it."""
    if encoding == "utf-8":
        return len(text.encode())
    return len(text.encode("utf-16-le")) // 2 if encoding == "utf-16" else len(text)


def offset_of(text, position, encoding):
    """How many characters stand before the position (line and units), by the rules of the protocol."""
    line, character = position
    starts = [0, *(found.end() for found in LINE_END.finditer(text))]
    if line >= len(starts):
        return len(text)
    content = LINE_END.split(text[starts[line] :], maxsplit=1)[0]
    taken = 0
    while taken < len(content) and units(content[: taken + 1], encoding) <= character:
        taken += 1
    return starts[line] + taken


def edited(text, change, encoding):
    """The text behind a change, which is a range or none, and the new text."""
    where, new = change
    if where is None:
        return new
    start, end = sorted(offset_of(text, position, encoding) for position in where)
    return text[:start] + new + text[end:]
