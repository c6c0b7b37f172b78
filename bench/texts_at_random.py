"""Random documents of the language, and single commands: well-typed and faulty ones, chains, stars, long ones, and those at a limit."""

import functools
import glob
import os

HERE = os.path.dirname(os.path.realpath(__file__))
EXAMPLES = os.path.join(HERE, "..", "examples")

# Few of each, so that names hide one another, and labels fit.
NAMES = ("x", "y", "f", "g", "point", "x'", "größe", "名")
TYPE_NAMES = ("A", "B", "T", "Point", "Größe")
LABELS = ("a", "b", "c", "x", "größe")
BASES = ("Nat", "Bool", "Unit", "Top")

# Single tokens and characters, those of the language and others.
TOKENS = (
    *"; { } ( ) . , : = -> _ 0 17 /* */ / * - > ' & \" ä é 名 😀 \u00a0 \u0301 \u2028 \ufeff \0".split(" "),
    *"as else false fix if in iszero lambda let letrec pred succ then true unit Bool Nat Top Unit".split(),
    *(" ", "\n", "\r\n", "\r", "\t"),
    *NAMES,
    *TYPE_NAMES,
)

# What stands between two commands, and in comments.
BETWEEN = (";\n", ";\n", ";\n", "; ", ";", ";\r\n", ";\r", ";;\n", "\n;", "; /* 😀 größe; x */ ", ";\n/* a /* b */ ; */\n")

# Terms of Nat over another one.
FORMS = (
    "succ x{}",
    "let y = x{} in if iszero y then 0 else pred y",
    "(lambda r:{{a:Nat}}. r.a) {{b=unit, a=x{}}}",
    "{{a=x{}}}.a",
    "x{} as Nat",
)

# So many fields make a command of 1,999 tokens; 2,000 is the most.
FIELDS = 499


def is_below(lower, upper):
    """Whether a type is below another. An arrow is a pair, a record type a dictionary, any other type its name."""
    if upper == "Top" or lower == upper:
        return True
    if isinstance(lower, dict) and isinstance(upper, dict):
        return all(it in lower and is_below(lower[it], upper[it]) for it in upper)
    if isinstance(lower, tuple) and isinstance(upper, tuple):
        return is_below(upper[0], lower[0]) and is_below(lower[1], upper[1])
    return False


class Writer:
    """Writes commands, which use the names of those before. So many terms in a hundred have another type than they should."""

    def __init__(self, random, faulty=0):
        self.random, self.faulty = random, faulty
        self.names, self.type_names = {}, {}

    def some_type(self, depth=2):
        kind = self.random.randrange(5 if depth else 3)
        if kind < 3:
            return self.random.choice(BASES)
        if kind == 3:
            return self.some_type(depth - 1), self.some_type(depth - 1)
        labels = self.random.sample(LABELS, self.random.randrange(4))
        return {it: self.some_type(depth - 1) for it in labels}

    def written(self, ty):
        """The type as it is written, perhaps by a name that stands for it."""
        known = [name for name, it in self.type_names.items() if it == ty]
        if known and self.random.random() < 0.6:
            return self.random.choice(known)
        if isinstance(ty, tuple):
            left, right = map(self.written, ty)
            return f"({left})->{right}" if isinstance(ty[0], tuple) else f"{left}->{right}"
        if isinstance(ty, dict):
            return "{" + ", ".join(f"{label}:{self.written(it)}" for label, it in ty.items()) + "}"
        return ty

    def term(self, ty, names, depth):
        """A term of the type that uses these names."""
        if self.random.randrange(100) < self.faulty:
            ty = self.some_type()
        if not depth:
            return self.simple(ty, names)
        forms = (self.simple, self.choice, self.let, self.letrec, self.call, self.projection, self.ascription, self.recursion)
        return self.random.choice(forms)(ty, names, depth - 1)

    def atom(self, ty, names, depth):
        return f"({self.term(ty, names, depth)})"

    def simple(self, ty, names, depth=0):
        """A variable, or a term of the form that makes such a type."""
        known = [name for name, it in names.items() if is_below(it, ty)]
        if known and self.random.random() < 0.7:
            return self.random.choice(known)
        if isinstance(ty, tuple):
            name = self.random.choice((*NAMES, "_"))
            return f"lambda {name}:{self.written(ty[0])}. {self.term(ty[1], {**names, name: ty[0]} if name != '_' else names, depth)}"
        if isinstance(ty, dict):
            fields = {self.random.choice(LABELS): self.some_type(1), **ty} if self.random.random() < 0.3 else dict(ty)
            labels = self.random.sample(list(fields), len(fields))
            return "{" + ", ".join(f"{it}={self.term(fields[it], names, depth)}" for it in labels) + "}"
        words = {"Nat": ("0", "17", "succ", "pred"), "Bool": ("true", "false", "iszero")}.get(ty, ("unit",))
        word = self.random.choice(words)
        return f"{word} {self.atom('Nat', names, 0)}" if word in ("succ", "pred", "iszero") else word

    def choice(self, ty, names, depth):
        parts = (self.term(it, names, depth) for it in ("Bool", ty, ty))
        return "if {} then {} else {}".format(*parts)

    def let(self, ty, names, depth):
        name, bound = self.random.choice(NAMES), self.some_type(1)
        return f"let {name} = {self.term(bound, names, depth)} in {self.term(ty, {**names, name: bound}, depth)}"

    def letrec(self, ty, names, depth):
        name, bound = self.random.choice(NAMES), self.some_type(1)
        inner = {**names, name: bound}
        return f"letrec {name}:{self.written(bound)} = {self.term(bound, inner, depth)} in {self.term(ty, inner, depth)}"

    def call(self, ty, names, depth):
        argument = self.some_type(1)
        return f"{self.atom((argument, ty), names, depth)} {self.atom(argument, names, depth)}"

    def projection(self, ty, names, depth):
        label = self.random.choice(LABELS)
        return f"{self.atom({label: ty}, names, depth)}.{label}"

    def ascription(self, ty, names, depth):
        return f"{self.atom(ty, names, depth)} as {self.written(ty)}"

    def recursion(self, ty, names, depth):
        name = self.random.choice(NAMES)
        return f"fix (lambda {name}:{self.written(ty)}. {self.term(ty, {**names, name: ty}, depth)})"

    def command(self):
        """The next command, without a semicolon."""
        kind, ty = self.random.randrange(8), self.some_type()
        if kind == 0:
            name, text = self.random.choice(TYPE_NAMES), self.written(ty)
            self.type_names[name] = ty
            return f"{name} = {text}"
        if kind == 1:
            return self.term(ty, self.names, 2)
        name = self.random.choice(NAMES)
        text = f"{name} : {self.written(ty)}" if kind == 2 else f"{name} = {self.term(ty, self.names, 2)}"
        self.names[name] = ty
        return text


def typed(random, faulty=0):
    writer = Writer(random, faulty)
    return [writer.command() for _ in range(random.randrange(1, 41))]


def linked(random, least=2, most=41):
    """Each command uses the one before, or the first one, or any one before."""
    before = random.choice((lambda n: n - 1, lambda n: 0, random.randrange))
    return ["x0 = 0", *(f"x{n} = {random.choice(FORMS).format(before(n))}" for n in range(1, random.randrange(least, most)))]


def doubled(random):
    """Types that double, as far as the limit or over it, and commands that use them; there may be a fault, which the limit hides."""
    name, sign, least = random.choice((("T", ":", "Nat"), ("x", "=", "0")))
    labels, depth = random.choice((("ab", random.randrange(9, 13)), ("wxyz", random.randrange(4, 7))))
    parts = [least, *(f"{name}{n}" for n in range(depth))]
    commands = [f"{whole} = {{{', '.join(it + sign + part for it in labels)}}}" for part, whole in zip(parts, parts[1:])]
    uses = {
        "T": ("u : {0}", "v = u.a", "f = lambda p:{0}. p", "f v", "K = {{a:{0}}}", "K = {{a:{0}, b:Nat}}"),
        "x": ("y = {{a={0}}}", "y = {{a={0}, b=0}}", "y.a.b", "z = {0}.a", "let p = {0} in p"),
    }[name]
    commands += [it.format(parts[-1]) for it in random.sample(uses, random.randrange(len(uses)))]
    for it in random.sample(("succ true", "k : Q", "x"), random.randrange(3)):
        commands.insert(random.randrange(len(commands) + 1), it)
    return commands


def with_many_tokens(random):
    """A command of about as many tokens as there may be, among others."""
    fields = ", ".join(f"l{n}=0" for n in range(FIELDS + random.randrange(-1, 2)))
    commands = typed(random)[:8]
    return [*commands[:4], f"x = {{{fields}}}", *commands[4:], "x.l7"]


def soup(random):
    return ["".join(random.choices(TOKENS, k=random.randrange(12))) for _ in range(random.randrange(12))]


@functools.lru_cache(None)
def examples():
    texts = []
    for file in sorted(glob.glob(f"{EXAMPLES}/**/*.fsub", recursive=True)):
        with open(file, encoding="utf-8", newline="") as it:
            texts.append(it.read())
    return texts


def laid_out(random, commands):
    """The commands as a text, with the last semicolon or without it."""
    usual = random.choice(BETWEEN)
    between = [usual if random.random() < 0.8 else random.choice(BETWEEN) for _ in commands]
    if between and random.random() < 0.3:
        between[-1] = ""
    return "".join(command + rest for command, rest in zip(commands, between))


def document(random, is_long=False):
    """A document of a random kind, or a long one."""
    if is_long:
        return laid_out(random, linked(random, 250, 350))
    kind = random.choices(range(7), (8, 5, 5, 7, 1, 1, 2))[0]
    if kind == 6:
        return random.choice(examples())
    makers = (typed, functools.partial(typed, faulty=8), linked, doubled, with_many_tokens, soup)
    return laid_out(random, makers[kind](random))
