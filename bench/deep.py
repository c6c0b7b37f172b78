"""Commands of up to 2,000 tokens in which one production of the grammar stands in itself, as deep as it goes, and what must be answered
about them. Each text is one line of ASCII, so that a column is a byte."""

import collections
import re
from dataclasses import dataclass

from client import span

URI = "file:///a"

# The tokens of the greatest command, and the levels of the deepest type, of records with one field each.
TOKENS = 2000
LEVELS = 4095

# The texts that the program answers with 8 MiB of stack but, if Rattle's own compiler built it, not with 4.
LARGE = ("application to the left", "parentheses in a term that stay open", "application of a numeral")

# Terms that stand in a layer as they are written. There `!` says that what stands before it is the first term of a letrec, which is read
# as the fix of a function, and `~` that it is a Bool where a Nat is wanted.
LEAVES = {"0": ("T-Num", "Nat"), "true": ("T-True", "Bool"), "f": ("T-Var", "Nat->Nat")}
PARTS = re.compile(r"(\b(?:0|true|f)\b|[!~])")


def tokens(text):
    """How many tokens the text has."""
    return len(re.findall(r"->|\w+|[^\s!~]", text))


def made(value, *numbers):
    """The value, or what it makes of these numbers."""
    return value(*numbers) if callable(value) else value


@dataclass
class Deep:
    """A text that is so many levels deep, and what is to be answered about it."""

    title: str
    depth: int
    text: str
    # The proof of the last command, and the entries that this command sees.
    steps: list
    context: list
    # Where a variable stands, as deep as any, and the entries that it sees.
    variable: int
    inner: list
    # A name that is bound where it stands first, and where one of its uses stands.
    name: str
    use: int
    # What is listed behind the dot that stands behind the variable.
    labels: tuple = ()
    dialect: str = "1"

    def own(self):
        """A column of the last command's term that belongs to none of its parts."""
        term = self.steps[-1]
        at = term["range"]["start"]["character"]
        for part in (self.steps[it] for it in term["from"]):
            if starts_at(part, at):
                at = part["range"]["end"]["character"]
        return at

    def ask(self, session):
        """Opens the text, asks each question about it and changes it."""
        term, step = self.steps[-1], next(it for it in self.steps if it["rule"] == "T-Var" and starts_at(it, self.variable))
        types = dict(it.split(":", 1) for it in self.inner)
        session.open(URI, self.text)
        for at, shown in ((self.own(), term), (self.variable, step)):
            session.hover(URI, at, shown["range"], shown["type"])
        session.derive(URI, self.own(), self.context, self.steps)
        session.derive(URI, self.variable, self.inner, [{**step, "from": []}])
        session.complete(URI, self.variable, [f"{it}:{types[it]}" for it in sorted(types)], 6)
        if self.labels:
            session.complete(URI, step["range"]["end"]["character"] + 1, self.labels, 5)
        self.ask_about_name(session)
        session.becomes(URI, 2, span((0, 0), (0, len(self.text))), " ")

    def ask_about_name(self, session):
        """Asks where the name comes from, who uses it, and for a new one."""
        new, found = self.name + "1", re.finditer(rf"\b{self.name}\b", self.text)
        places = [{"range": span((0, it.start()), (0, it.end())), "uri": URI} for it in found]
        edits = [{"newText": new, "range": it["range"]} for it in places]
        session.query("textDocument/definition", URI, self.use, places[0])
        session.query("textDocument/references", URI, self.use, places, context={"includeDeclaration": True})
        session.query("textDocument/rename", URI, self.use, {"changes": {URI: edits}}, newName=new)


@dataclass
class Faulty:
    """A text with one fault, so many levels deep, and why no name in it can be changed."""

    title: str
    depth: int
    text: str
    start: int
    end: int
    code: str
    refusal: str = "some command does not parse"
    dialect: str = "1"

    def ask(self, session):
        """Opens the text, asks for a type and a proof where it has its fault, for a new name, and changes it."""
        session.open(URI, self.text, [((0, self.start), (0, self.end), self.code)])
        session.hover(URI, self.start + 1)
        session.derive(URI, self.start + 1)
        session.query("textDocument/rename", URI, 0, None, self.refusal, newName="y")
        session.becomes(URI, 2, span((0, 0), (0, len(self.text))), " ")


def starts_at(step, at):
    return "range" in step and step["range"]["start"]["character"] == at


class Writer:
    """Writes a text from left to right, and the proof of its last command."""

    def __init__(self, text):
        self.text, self.steps, self.begun = text, [], [(0, [])]

    def begin(self):
        """Begins a term."""
        self.begun.append((len(self.text), []))

    def end(self, rule, ty):
        """Ends the term that was begun last."""
        start, parts = self.begun.pop()
        self.conclude(rule, ty, parts, span((0, start), (0, len(self.text))))

    def conclude(self, rule, ty, parts, place):
        self.steps.append({"from": parts, "range": place, "rule": rule, "type": ty})
        self.begun[-1][1].append(len(self.steps) - 1)

    def again(self, rule, ty, proof=()):
        """One more step about the last term, with this proof of subtyping: rule, lower type, upper type and premises of each step."""
        last, first = self.begun[-1][1].pop(), len(self.steps)
        for used, lower, upper, parts in proof:
            self.steps.append({"from": [first + it for it in parts], "lower": lower, "rule": used, "upper": upper})
        parts = [last, len(self.steps) - 1] if proof else [last]
        self.conclude(rule, ty, parts, self.steps[last]["range"])

    def leaf(self, text, rule, ty):
        self.begin()
        self.text += text
        self.end(rule, ty)

    def part(self, written):
        """Writes a piece of text, in which only leaves are terms."""
        for it in PARTS.split(written):
            if it in LEAVES:
                self.leaf(it, *LEAVES[it])
            elif it == "!":
                self.again("T-Abs", "Nat->Nat")
                self.again("T-Fix", "Nat")
            elif it == "~":
                self.again("T-Sub", "Nat", [("S-BoolNat", "Bool", "Nat", ())])
            else:
                self.text += it


# Types as they are shown, so many levels deep.


def arrows(count, last="Nat"):
    return "Nat->" * count + last


def functions(count):
    """A function of a function of a function."""
    return "(" * (count - 1) + "Nat->Nat" + ")->Nat" * (count - 1)


def records(count, last="Nat"):
    return "{a:" * count + last + "}" * count


def by_names(before, after, count, letter, core):
    """Commands that write so many levels, each as many as it can, and the name of the last one."""
    most, text, number = (TOKENS - 3) // tokens(before + after), "", 0
    while count:
        levels = min(count, most)
        count, number = count - levels, number + 1
        text += f"{letter}{number} = {before * levels}{core}{after * levels}; "
        core = f"{letter}{number}"
    return text, core


# Terms in terms.

# What is written around a term to make the next one, and its rule and type.
Layer = collections.namedtuple("Layer", "before after rule ty")


def nested(title, *layers, ty="Nat", names=None, parentheses=0, before="", seen=(), binds=(), dialect="1"):
    """These layers around one another, as often as they have room; innermost stands `y.a`, of the type `ty`, in so many parentheses.

    Where the type of a layer is not always the same it is made of its level, from 1 for the innermost, and of how many there are; so is
    `ty`, and `names` gives the commands by which it is written. `before` are more commands, whose entries are `seen`, and `binds` are
    the entries that each layer adds.
    """
    once = sum(tokens(it.before + it.after) for it in layers)
    depth = (TOKENS - 3 - 2 * parentheses) // once if layers else parentheses
    ty = made(ty, depth)
    commands, written = names(depth) if names else ("", ty)
    writer = Writer(f"{before}{commands}y : {{a:{written}}}; ")
    for it in layers * depth:
        writer.begin()
        writer.part(it.before)
    writer.begin()
    writer.part("(" * parentheses)
    variable = len(writer.text)
    writer.leaf("y", "T-Var", f"{{a:{ty}}}")
    writer.part(".a" + ")" * parentheses)
    writer.end("T-Proj", ty)
    for level in range(1, depth + 1):
        for it in reversed(layers):
            writer.part(it.after)
            writer.end(it.rule, made(it.ty, level, depth))
    context = [*seen, f"y:{{a:{ty}}}"]
    inner = context + depth * list(binds)
    return Deep(title, depth, writer.text, writer.steps, context, variable, inner, "y", variable, (f"a:{ty}",), dialect)


def let(title, before, after="", **more):
    return nested(title, Layer(before, after, "T-Let", "Nat"), **more)


def conditional(title, before, after="", ty="Nat"):
    return nested(title, Layer(before, after, "T-If", ty), ty=ty)


def operator(word, rule):
    return nested(word, Layer(f"({word} ", ")", rule, "Nat"))


def application(title, before, after, **more):
    """An application of a function to as many arguments as it has parameters."""
    layer = Layer(before, after, "T-App", lambda level, depth: arrows(depth - level))
    return nested(title, layer, ty=arrows, **more)


def type_names(before, after):
    """For a number of levels, the commands that name the type with so many layers around Nat, and its name."""
    return lambda depth: by_names(before, after, depth, "Y", "Nat")


X = ("x:Nat",)


def terms():
    """The productions of terms."""
    bodies = Layer("lambda x:Nat. ", "", "T-Abs", lambda level, depth: arrows(level))
    fields = Layer("{a=", "}", "T-Rcd", lambda level, depth: records(level))
    labels = Layer("", ".a", "T-Proj", lambda level, depth: records(depth - level))
    return [
        nested("parentheses in a term", parentheses=998),
        nested("lambda", bodies, binds=X),
        let("let, its first term", "let x = ", " in 0"),
        let("let, its second term", "let x = 0 in ", binds=X),
        let("letrec, its first term", "letrec x:Nat = ", "! in 0", binds=X),
        let("letrec, its second term", "letrec x:Nat = 0! in ", binds=X),
        conditional("if, its condition", "if ", " then true else true", "Bool"),
        conditional("if, its second term", "if true then ", " else 0"),
        conditional("if, its third term", "if true then 0 else "),
        operator("succ", "T-Succ"),
        operator("pred", "T-Pred"),
        nested("iszero, in dialect 2", Layer("(iszero ", "~)", "T-IsZero", "Bool"), ty="Bool", dialect="2"),
        nested("fix of a lambda", Layer("(fix ", ")", "T-Fix", "Nat"), Layer("(lambda x:Nat. ", ")", "T-Abs", "Nat->Nat"), binds=X),
        application("application to the left", "", " 0", names=type_names("Nat->", "")),
        application("application to the left, in parentheses", "(", " 0)"),
        nested("application to the right", Layer("(f ", ")", "T-App", "Nat"), before="f : Nat->Nat; ", seen=("f:Nat->Nat",)),
        nested("record", fields),
        nested("projection", labels, ty=records, names=type_names("{a:", "}")),
        nested("ascription", Layer("(", " as Nat)", "T-Ascribe", "Nat"), parentheses=1),
    ]


# Types in types.


def in_lambda(title, before, after, shown):
    """A lambda whose written type is so many layers around a type name."""
    depth = (TOKENS - tokens("lambda y:Y0. y")) // tokens(before + after)
    ty = shown(depth)
    writer = Writer("Y0 = Nat; ")
    writer.begin()
    writer.part(f"lambda y:{before * depth}Y0{after * depth}. ")
    variable = len(writer.text)
    writer.leaf("y", "T-Var", ty)
    writer.end("T-Abs", f"({ty})->{ty}" if ty.endswith("->Nat") else f"{ty}->{ty}")
    use = writer.text.rindex("Y0")
    return Deep(title, depth, writer.text, writer.steps, [], variable, [f"y:{ty}"], "Y0", use)


def named_type(title, before, after, shown, depth):
    """A name whose declared type is written by names of types."""
    commands, name = by_names(before, after, depth, "Y", "Y0")
    writer = Writer(f"Y0 = Nat; {commands}y : {name}; ")
    variable, ty = len(writer.text), shown(depth)
    writer.leaf("y", "T-Var", ty)
    context, use = [f"y:{ty}"], writer.text.rindex("Y0")
    return Deep(title, depth, writer.text, writer.steps, context, variable, context, "Y0", use)


def named_record(title, depth):
    """A record that is written by names of records."""
    commands, name = by_names("{a=", "}", depth, "x", "y")
    writer = Writer(f"y = 0; {commands}")
    most = (TOKENS - 3) // tokens("{a=}")
    context = ["y:Nat"] + [f"x{it}:{records(min(it * most, depth))}" for it in range(1, int(name[1:]) + 1)]
    variable, use = len(writer.text), writer.text.rindex("y")
    writer.leaf(name, "T-Var", records(depth))
    return Deep(title, depth, writer.text, writer.steps, context, variable, context, "y", use)


def types():
    """The productions of types, and the deepest types that names can write."""
    return [
        in_lambda("parentheses in a type", "(", ")", lambda depth: "Nat"),
        in_lambda("arrow to the right", "Nat->", "", arrows),
        in_lambda("arrow to the left", "(", "->Nat)", functions),
        in_lambda("record type", "{a:", "}", records),
        named_type("abbreviations of record types", "{a:", "}", records, LEVELS),
        named_type("abbreviations of arrows to the right", "Nat->", "", arrows, LEVELS // 2),
        named_type("abbreviations of arrows to the left", "(", "->Nat)", functions, LEVELS // 2),
        named_record("records by their names", LEVELS),
    ]


# Proofs of subtyping, that a deep type is below the same one with Top at its end.


def record_proof(depth, last="Nat"):
    proof = [("S-Top", last, "Top", ())]
    return proof + [("S-RcdDepth", records(it, last), records(it, "Top"), (it - 1,)) for it in range(1, depth + 1)]


def arrow_proof(depth):
    proof = depth * [("S-Refl", "Nat", "Nat", ())] + [("S-Top", "Nat", "Top", ())]
    return proof + [("S-Arrow", arrows(it), arrows(it, "Top"), (depth - it, depth + it - 1)) for it in range(1, depth + 1)]


def ascribed(title, shown, proof, depth, names="", lower=None, upper=None):
    """A declared name as the wider type; the types are written by names, if there are any."""
    writer = Writer(f"{names}y : {lower or shown(depth)}; ")
    variable = len(writer.text)
    writer.begin()
    writer.leaf("y", "T-Var", shown(depth))
    writer.again("T-Sub", shown(depth, "Top"), proof(depth))
    writer.part(f" as {upper or shown(depth, 'Top')}")
    writer.end("T-Ascribe", shown(depth, "Top"))
    context = [f"y:{shown(depth)}"]
    return Deep(title, depth, writer.text, writer.steps, context, variable, context, "y", variable)


def joined(title, depth):
    """An if whose terms have record types that differ at their end."""
    context = [f"y:{records(depth)}", f"z:{records(depth, 'Bool')}"]
    writer = Writer("".join(it.replace(":", " : ", 1) + "; " for it in context))
    writer.begin()
    writer.part("if true then ")
    variable = len(writer.text)
    for name, last, behind in (("y", "Nat", " else "), ("z", "Bool", "")):
        writer.leaf(name, "T-Var", records(depth, last))
        writer.again("T-Sub", records(depth, "Top"), record_proof(depth, last))
        writer.part(behind)
    writer.end("T-If", records(depth, "Top"))
    return Deep(title, depth, writer.text, writer.steps, context, variable, context, "y", variable)


def subtypings():
    """The deepest proofs about types that one command can write."""
    return [
        ascribed("a record type below another", records, record_proof, 499),
        ascribed("an arrow below another", arrows, arrow_proof, 998),
        joined("the join of two record types", 499),
    ]


def deepest_subtyping():
    """The deepest record types that names can write, one below the other."""
    lower, low = by_names("{a:", "}", LEVELS, "L", "Nat")
    upper, up = by_names("{a:", "}", LEVELS, "U", "Top")
    return ascribed("abbreviations of record types, one below another", records, record_proof, LEVELS, lower + upper, low, up)


def faults():
    """Texts that are deep, and no commands or without a type."""
    fixes, zeros, size = "fix (" * 666 + "0" + ")" * 666, "iszero (" * 666 + "0" + ")" * 666, len("iszero (")
    unbound = "no bound name here"
    return [
        Faulty("parentheses in a term that stay open", 2000, "(" * 2000, 1999, 2000, "P2"),
        Faulty("parentheses in a type that stay open", 1997, "lambda x:" + "(" * 1997, 2005, 2006, "P2"),
        Faulty("records that stay open", 666, "{a=" * 666, 1997, 1998, "P2"),
        Faulty("a wrong token in parentheses", 999, "(" * 999 + "=" + ")" * 999, 999, 1000, "P1"),
        Faulty("2,001 tokens", 1000, "(" * 1000 + "0" + ")" * 1000, 0, 2001, "L2"),
        Faulty("application of a numeral", 1999, "0" + " 0" * 1999, 0, 3, "E2", unbound),
        Faulty("fix of a numeral", 666, fixes, 5 * 665 - 1, 5 * 665 + len("fix (0))"), "E8", unbound),
        Faulty("iszero of a truth value", 666, zeros, size * 664 - 1, size * 664 + len("iszero (iszero (0)))"), "E6", unbound),
    ]
