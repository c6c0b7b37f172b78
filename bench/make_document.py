"""make_document.py [COMMANDS]: prints a well-typed document, a command a line, always the same document.

A third of the commands are lets, a third functions, a third records, in random order, and each
uses names of earlier ones. Without a number there are 10,000, some 400 KB.
"""

import random
import sys

SEED = 16


class Document:
    """The lines so far, and the names that they define, by kind."""

    def __init__(self):
        self.random = random.Random(SEED)
        self.lines = ["start = {a=0, b=1};", "first = lambda r:{a:Nat, b:Nat}. r.a;"]
        self.records = ["start"]  # each has the fields a and b, both Nat, and perhaps more
        self.functions = ["first"]  # each takes a record with a and b, and gives a Nat
        self.numbers = ["start.b"]

    def number(self):
        """A term of Nat that is no application."""
        if self.random.random() < 0.5:
            return self.random.choice(self.numbers)
        return f"{self.random.choice(self.records)}.{self.random.choice('ab')}"

    def call(self, argument):
        return f"{self.random.choice(self.functions)} {argument}"

    def add_let(self):
        name = f"n{len(self.lines)}"
        number, record = self.number(), self.random.choice(self.records)
        self.lines.append(
            self.random.choice(
                [
                    f"{name} = let m = {number} in if iszero m then 0 else pred m;",
                    f"{name} = let r = {record} in succ ({self.call('r')});",
                ]
            )
        )
        self.numbers.append(name)

    def add_function(self):
        name = f"f{len(self.lines)}"
        self.lines.append(
            self.random.choice(
                [
                    f"{name} = lambda r:{{a:Nat, b:Nat}}. {self.call('r')};",
                    f"{name} = lambda r:{{b:Nat}}. {self.call(f'{{b=r.b, a={self.number()}}}')};",
                    f"{name} = lambda _:Top. succ {self.number()};",
                ]
            )
        )
        self.functions.append(name)

    def add_record(self):
        name = f"r{len(self.lines)}"
        fields = [f"a={self.number()}", f"b={self.call(self.random.choice(self.records))}"]
        if self.random.random() < 0.3:
            fields.append("c=true")
        self.random.shuffle(fields)
        self.lines.append(f"{name} = {{{', '.join(fields)}}};")
        self.records.append(name)


def document(commands):
    made = Document()
    for _ in range(commands - len(made.lines)):
        made.random.choice([made.add_let, made.add_function, made.add_record])()
    return "".join(f"{line}\n" for line in made.lines)


if __name__ == "__main__":
    print(document(int(sys.argv[1]) if len(sys.argv) > 1 else 10_000), end="")
