#!/usr/bin/env python3
"""check.py [--program PATH]: runs the built checker on files, and looks at what it writes and how it ends.

A case has its options, the text of each file, what it must write and its status; what it must write on standard error is given where it
writes there. A file's text is `bytes` where it is no text. Standard error or standard output can be a terminal, and memory can be short.
Each case prints a line only where it is wrong. Then the derivations that the checker writes for the examples are read back by it, and have
to be accepted. The last line is 'N passed, M failed'.
"""

import argparse
import glob
import json
import os
import pty
import resource
import subprocess
import sys
import tempfile
from dataclasses import dataclass

ROOT = os.path.join(os.path.dirname(os.path.realpath(__file__)), "..")
BUILT = f"{ROOT}/crates/lam_check/out/lam_check"

POINT = "point = {x=0, name=true};\nnext = lambda p:{x:Nat}. succ p.x;\n"
NEXT = POINT + "next {name=true};\n"
CALL = POINT + "next point;\n"
TREE = """next point : Nat  (T-App)
  next : {x:Nat}->Nat  (T-Var)
  point : {x:Nat}  (T-Sub)
    point : {x:Nat, name:Bool}  (T-Var)
    {x:Nat, name:Bool} <: {x:Nat}  (S-RcdWidth)
"""
RECURSIVE = "letrec f:Nat->Nat = lambda n:Nat. if iszero n then 0 else f (pred n) in f 3"
RECURSION = f"""{RECURSIVE} : Nat  (T-Let)
  fix (lambda f:Nat->Nat. lambda n:Nat. if iszero n then 0 else f (pred n)) : Nat->Nat  (T-Fix)
    lambda f:Nat->Nat. lambda n:Nat. if iszero n then 0 else f (pred n) : (Nat->Nat)->Nat->Nat  (T-Abs)
      lambda n:Nat. if iszero n then 0 else f (pred n) : Nat->Nat  (T-Abs)
        if iszero n then 0 else f (pred n) : Nat  (T-If)
          iszero n : Bool  (T-IsZero)
            n : Nat  (T-Var)
          0 : Nat  (T-Num)
          f (pred n) : Nat  (T-App)
            f : Nat->Nat  (T-Var)
            (pred n) : Nat  (T-Pred)
              n : Nat  (T-Var)
  f 3 : Nat  (T-App)
    f : Nat->Nat  (T-Var)
    3 : Nat  (T-Num)
"""
# The first term has a smaller type than the written one.
BELOW_WRITTEN = """letrec f:Nat->Top = lambda n:Nat. n in f : Nat->Nat  (T-Let)
  fix (lambda f:Nat->Top. lambda n:Nat. n) : Nat->Nat  (T-Fix)
    lambda f:Nat->Top. lambda n:Nat. n : (Nat->Nat)->Nat->Nat  (T-Sub)
      lambda f:Nat->Top. lambda n:Nat. n : (Nat->Top)->Nat->Nat  (T-Abs)
        lambda n:Nat. n : Nat->Nat  (T-Abs)
          n : Nat  (T-Var)
      (Nat->Top)->Nat->Nat <: (Nat->Nat)->Nat->Nat  (S-Arrow)
        Nat->Nat <: Nat->Top  (S-Arrow)
          Nat <: Nat  (S-Refl)
          Nat <: Top  (S-Top)
        Nat->Nat <: Nat->Nat  (S-Refl)
  f : Nat->Nat  (T-Var)
"""
ARGUMENT = "(/* /* a */ letrec c:Nat = */ (letrec\n\tf /* = */ :Nat\n->Nat\n= /* letrec b:Nat = */ (lambda n:Nat. n) in f))"
FLAT = ARGUMENT.replace("\n", " ").replace("\t", " ")
AS_ARGUMENT = f"""(lambda y:Nat->Nat. y) {FLAT} : Nat->Nat  (T-App)
  (lambda y:Nat->Nat. y) : (Nat->Nat)->Nat->Nat  (T-Abs)
    y : Nat->Nat  (T-Var)
  {FLAT} : Nat->Nat  (T-Let)
    fix (lambda f   :Nat ->Nat. (lambda n:Nat. n)) : Nat->Nat  (T-Fix)
      lambda f   :Nat ->Nat. (lambda n:Nat. n) : (Nat->Nat)->Nat->Nat  (T-Abs)
        (lambda n:Nat. n) : Nat->Nat  (T-Abs)
          n : Nat  (T-Var)
    f : Nat->Nat  (T-Var)
"""
# No letrec, although the name begins as if it were one.
BOUND = """let letrec' = fix (lambda y:Nat. y) in letrec' : Nat  (T-Let)
  fix (lambda y:Nat. y) : Nat  (T-Fix)
    (lambda y:Nat. y) : Nat->Nat  (T-Abs)
      y : Nat  (T-Var)
  letrec' : Nat  (T-Var)
"""
LATEX = r"""\documentclass[border=8pt]{standalone}
\usepackage{bussproofs}
\makeatletter
% five proofs side by side as one, with the next line over them all
\def\Five{\prepQuinary
\setbox\myBoxA=\hbox{\theHypSeparation}%
\global\lcurScoreEnd=\rrrcurScoreEnd
\global\advance\lcurScoreEnd by\wd\rrcurBox
\global\advance\lcurScoreEnd by\wd\rcurBox
\global\advance\lcurScoreEnd by\wd\lcurBox
\global\advance\lcurScoreEnd by\wd\ccurBox
\global\advance\lcurScoreEnd by4\wd\myBoxA
\global\setbox\lcurBox=\hbox{\box\lcurBox\unhcopy\myBoxA\box\ccurBox
\unhcopy\myBoxA\box\rcurBox\unhcopy\myBoxA\box\rrcurBox\unhcopy\myBoxA\box\rrrcurBox}%
\ignorespaces}
% the number of a character without a command, and the name of a command without a glyph
\def\UTFviii@undefined@err#1{\expandafter\Numbered\string#1\relax}
\def\Numbered#1:#2\relax{[U+\UTFviii@hexnumber{\decode@UTFviii#2\relax}]}
\def\TextSymbolUnavailable#1{[\string#1]}
\def\Without#1{\DeclareTextCommand#1{OT1}{\TextSymbolUnavailable#1}}
\Without\textendash\Without\textemdash\Without\textquotedblleft\Without\l\Without\L
\makeatother
\begin{document}
\frenchspacing
\AxiomC{}
\RightLabel{\scriptsize T-Num}
\UnaryInfC{\texttt{0 : Nat}}
\RightLabel{\scriptsize T-Rcd}
\UnaryInfC{\texttt{\char123{}a=0\char125{} : \char123{}a:Nat\char125{}}}
\DisplayProof
\end{document}
"""
HTML = """<!DOCTYPE html>
<html>
<head>
<meta charset=utf-8>
<title>Derivation</title>
<style>
body { font-family: monospace; margin: 2em; }
details { border-left: 1px solid #bbb; margin-left: 0.5em; padding-left: 1em; }
summary { cursor: pointer; padding: 0.15em 0 0.15em 1.1em; text-indent: -1.1em; overflow-wrap: anywhere; }
details:not(:has(> details)) > summary { cursor: default; list-style: none; text-indent: 0; }
summary i { color: #666; padding-left: 1em; white-space: nowrap; }
</style>
</head>
<body>
<details open><summary>succ true : Nat <i>T-Succ</i></summary>
<details open><summary>true : Nat <i>T-Sub</i></summary>
<details open><summary>true : Bool <i>T-True</i></summary>
</details>
<details open><summary>Bool &lt;: Nat <i>S-BoolNat</i></summary>
</details>
</details>
</details>
</body>
</html>
"""
RECURSION_LATEX = (
    LATEX[: LATEX.index("\\AxiomC")]
    + r"""\AxiomC{}
\RightLabel{\scriptsize T-Var}
\UnaryInfC{\texttt{f : Nat}}
\RightLabel{\scriptsize T-Abs}
\UnaryInfC{\texttt{lambda f:Nat. f : Nat->Nat}}
\RightLabel{\scriptsize T-Fix}
\UnaryInfC{\texttt{fix (lambda f:Nat. f) : Nat}}
\AxiomC{}
\RightLabel{\scriptsize T-Var}
\UnaryInfC{\texttt{f : Nat}}
\RightLabel{\scriptsize T-Let}
\BinaryInfC{\texttt{letrec f:Nat = f in f : Nat}}
\DisplayProof
\end{document}
"""
)
DIAGNOSTIC = {
    "code": "E1",
    "message": "unbound name",
    "range": {"end": {"character": 6, "line": 0}, "start": {"character": 5, "line": 0}},
    "severity": 1,
    "source": "fullsub",
}
STEPS = {"context": [], "steps": [{"from": [], "range": {"end": {"character": 1, "line": 0}, "start": {"character": 0, "line": 0}}, "rule": "T-Num", "type": "Nat"}]}


# Before the term of this line, a character of four bytes and one of two: 9 characters, 10 units of UTF-16, 13 bytes.
BEHIND = "/* 😀ö */ "
COLUMNS = (("utf-8", 13), ("utf-16", 10), ("utf-32", 9))

# Each kind of term that can be to blame for the types of its parts, and what is told of it.
WRONG = """f = lambda r:{x:Nat}. r.x;
f {z=1};
pred {};
if 0 then 1 else 2;
1 as {x:Nat};
{b=true, a=1}.c;
1 2;
fix (lambda x:Nat. true);
fix 1;
letrec g:Nat->Nat = lambda x:Nat. true in g;
nobody;
{a=1, a=2};
"""
WRONGS = """a:2:1: error[E3]: argument does not fit the parameter
f {z=1};
^^^^^^^ expected {x:Nat}, found {z:Nat}
a:3:1: error[E6]: operand is not Nat
pred {};
^^^^^^^ expected Nat, found {}
a:4:1: error[E5]: condition is not Bool
if 0 then 1 else 2;
^^^^^^^^^^^^^^^^^^ expected Bool, found Nat
a:5:1: error[E7]: term does not have the written type
1 as {x:Nat};
^^^^^^^^^^^^ expected {x:Nat}, found Nat
a:6:1: error[E4]: no such field
{b=true, a=1}.c;
^^^^^^^^^^^^^^^ found {a:Nat, b:Bool}
a:7:1: error[E2]: not a function
1 2;
^^^ found Nat
a:8:1: error[E8]: fix needs a function whose result fits its parameter
fix (lambda x:Nat. true);
^^^^^^^^^^^^^^^^^^^^^^^^ expected Nat, found Bool
a:9:1: error[E8]: fix needs a function whose result fits its parameter
fix 1;
^^^^^ found Nat
a:10:21: error[E8]: fix needs a function whose result fits its parameter
letrec g:Nat->Nat = lambda x:Nat. true in g;
                    ^^^^^^^^^^^^^^^^^^ expected Nat->Nat, found Nat->Bool
a:11:1: error[E1]: unbound name
nobody;
^^^^^^
a:12:1: error[E9]: label used twice in a record
{a=1, a=2};
^^^^^^^^^^
"""
# A name and a type name that mean something else from command to command.
SHADOWED = """a = true; T = Bool; succ a; a as {x:T}; a = unit; T = Unit; succ a; a as {x:T}"""
SHADOWS = f"""a:1:21: error[E6]: operand is not Nat
{SHADOWED}
{" " * 20}^^^^^^ expected Nat, found Bool
a:1:29: error[E7]: term does not have the written type
{SHADOWED}
{" " * 28}^^^^^^^^^^ expected {{x:Bool}}, found Bool
a:1:61: error[E6]: operand is not Nat
{SHADOWED}
{" " * 60}^^^^^^ expected Nat, found Unit
a:1:69: error[E7]: term does not have the written type
{SHADOWED}
{" " * 68}^^^^^^^^^^ expected {{x:Unit}}, found Unit
"""
# The last command but one has a type of 8,191 nodes, twice those of the one before it and one more, and the limit is 4,096.
LARGE = "a0 = {a=0, b=0};\n" + "".join(f"a{n} = {{a=a{n - 1}, b=a{n - 1}}};\n" for n in range(1, 12)) + "succ true;\n"
# Type names, the last of which stands for a type of 4,095 nodes.
WRITTEN = "T0 = {a:Nat, b:Nat}; " + "".join(f"T{n} = {{a:T{n - 1}, b:T{n - 1}}}; " for n in range(1, 11))
NOPE = """error: unexpected argument '--nope\ufffd[2J' found

  tip: to pass '--nope\ufffd[2J' as a value, use '-- --nope\ufffd[2J'

Usage: lam_check [OPTIONS] [FILE]...

For more information, try '--help'.
"""


def line(value):
    """A line of JSON as the checker writes it."""
    return json.dumps(value, separators=(",", ":")) + "\n"


def place(row, start, end):
    """A range on one line."""
    return {"end": {"character": end, "line": row}, "start": {"character": start, "line": row}}


WIDE = "{x:Nat, name:Bool}"
PROOF = [
    {"from": [], "range": place(2, 0, 4), "rule": "T-Var", "type": "{x:Nat}->Nat"},
    {"from": [], "range": place(2, 5, 10), "rule": "T-Var", "type": WIDE},
    {"from": [], "lower": WIDE, "rule": "S-RcdWidth", "upper": "{x:Nat}"},
    {"from": [1, 2], "range": place(2, 5, 10), "rule": "T-Sub", "type": "{x:Nat}"},
    {"from": [0, 3], "range": place(2, 0, 10), "rule": "T-App", "type": "Nat"},
]
NAMES = [{"name": "point", "type": WIDE}, {"name": "next", "type": "{x:Nat}->Nat"}]
ACCEPTED = f"d: accepted: point:{WIDE}, next:{{x:Nat}}->Nat |- next point : Nat\n"
BELOW = "step {} does not follow by its rule from its premises"
ENTRY = "d: entry {} of the context does not fit its name in the text\n"
OTHER_NAMES = "d: the names of the context are not those that the term sees\n"
# A name of a term, a declared one, and a use of the first.
USED = "r = {a=0, b=true}; s : {b:Bool, a:Nat}; r"


def used(first, second):
    """A line with a derivation of the use of the name in the file `a`, in the context of these types."""
    names = [{"name": "r", "type": first}, {"name": "s", "type": second}]
    return line({"derivation": {"context": names, "steps": [{"from": [], "range": place(0, 40, 41), "rule": "T-Var", "type": first}]}, "file": "a"})


def step(rule, start, end, ty, *premises):
    """A step about a term in the first line."""
    return {"from": list(premises), "range": place(0, start, end), "rule": rule, "type": ty}


def below(rule, lower, upper, *premises):
    """A step that one type is below another."""
    return {"from": list(premises), "lower": lower, "rule": rule, "upper": upper}


def numeral(column):
    """A line with the derivation of a numeral in this column of the file `a`."""
    steps = [step("T-Num", column, column + 1, "Nat")]
    return line({"derivation": {"context": [], "steps": steps}, "file": "a"})


def derived(text, *steps, **context):
    """The text in the file `a`, and a line with these steps about it, in a context of these names and types."""
    names = [{"name": name, "type": ty} for name, ty in context.items()]
    return {"a": text, "d": line({"derivation": {"context": names, "steps": list(steps)}, "file": "a"})}


def nested(depth):
    """A type of this depth."""
    return records(depth - 1, "Nat")


def arrows(count, last):
    """So many arrows from Nat, to this type."""
    return "Nat->" * count + last


def records(count, last):
    """So many records with one field, around this type."""
    return "{a:" * count + last + "}" * count


def named(term, rule, ty):
    """A derivation in one step of a term behind three names, of which the second has no type."""
    before = "c : Bool; b = succ true; a : Nat; "
    return derived(before + term, step(rule, len(before), len(before + term), ty), c="Bool", b=None, a="Nat")


def wider(last, other):
    """A derivation in which a name has one arrow type, a thousand arrows deep, and the name that it defines another."""
    text = f"T = {arrows(500, last)}; y : {arrows(500, 'T')}; x = y; 0"
    return derived(text, step("T-Num", len(text) - 1, len(text), "Nat"), y=arrows(1000, last), x=arrows(1000, other))


def lifted(count, rule, start):
    """A derivation of `succ 0` that is lifted so many times to its own type, with a first step of this rule and from this column on."""
    steps = [step(rule, start, 6, "Nat"), step("T-Succ", 0, 6, "Nat", 0)]
    for last in range(1, 2 * count, 2):
        steps += below("S-Refl", "Nat", "Nat"), step("T-Sub", 0, 6, "Nat", last, last + 1)
    return derived("succ 0", *steps)


def function_of(ty):
    """A derivation that a function of anything is one of this type."""
    return derived(
        "lambda x:Top. 0", step("T-Num", 14, 15, "Nat"), step("T-Abs", 0, 15, "Top->Nat", 0), below("S-Top", ty, "Top"), below("S-Refl", "Nat", "Nat"),
        below("S-Arrow", "Top->Nat", ty + "->Nat", 2, 3), step("T-Sub", 0, 15, ty + "->Nat", 1, 4),
    )


def sent(change=None, names=None, steps=None):
    """A line with the derivation of the call in the file `a`, with one step changed."""
    told = [dict(step) for step in (PROOF if steps is None else steps)]
    if change:
        told[change[0]].update(change[1])
    return line({"derivation": {"context": NAMES if names is None else names, "steps": told}, "file": "a"})


# Derivations that cannot be read, each with what is told of it. What is wrong is never first in its list.
UNREAD = [
    ("an entry that is no object", sent(names=[NAMES[0], 7]), "entry 1 is not an object with exactly the members `name`, a string, and `type`"),
    ("an entry of which the type is cut", sent(names=[NAMES[0], {"name": "next", "type": "{x:Nat"}]), "entry 1 has an unreadable type, or one of over 4,096 levels"),
    ("a step with one member more", sent((3, {"more": 0})), "step 3 is not an object with exactly the members `from`, `range`, `rule` and `type`, or `from`, `lower`, `rule` and `upper`"),
    ("no such rule of typing", sent((4, {"rule": "S-Refl"})), "step 4 does not name a rule of its kind"),
    ("no such rule of subtyping", sent((2, {"rule": "T-Sub"})), "step 2 does not name a rule of its kind"),
    ("a type that is cut", sent((3, {"type": "{x:Nat"})), "step 3 has an unreadable type, or one of over 4,096 levels"),
    ("a lower type that is no text", sent((2, {"lower": 7})), "step 2 has an unreadable type, or one of over 4,096 levels"),
    ("an upper type with a blank before it", sent((2, {"upper": " {x:Nat}"})), "step 2 has an unreadable type, or one of over 4,096 levels"),
    ("a range behind the text", sent((4, {"range": place(9, 0, 4)})), "step 4 does not have a range of characters of the text"),
    ("a premise that is no number", sent((3, {"from": [1, "2"]})), "`from` of step 3 is not a list of step numbers"),
    ("premises that are no list", sent((2, {"from": 0})), "`from` of step 2 is not a list of step numbers"),
    ("a wrong entry after a wrong step", sent((2, {"from": 0}), names=[NAMES[0], 7]), "entry 1 is not an object with exactly the members `name`, a string, and `type`"),
    ("a step of which nothing is right", sent((4, {"from": 0, "range": 7, "rule": "T-Foo", "type": 7})), "step 4 does not name a rule of its kind"),
    ("wrong premises and a wrong range", sent((4, {"from": 0, "range": 7, "type": 7})), "`from` of step 4 is not a list of step numbers"),
    ("a wrong range and a wrong type", sent((4, {"range": 7, "type": 7})), "step 4 does not have a range of characters of the text"),
]


WIDER_LETREC = "letrec f:Nat->Top = lambda n:Nat. n in f"
# A number or a truth value, as a number: by subtyping, and without it.
CHOICE = "if true then 0 else true"
PARTS = [step("T-True", 3, 7, "Bool"), step("T-Num", 13, 14, "Nat"), step("T-True", 20, 24, "Bool")]
LIFTED = derived(CHOICE, *PARTS, below("S-BoolNat", "Bool", "Nat"), step("T-Sub", 20, 24, "Nat", 2, 3), step("T-If", 0, 24, "Nat", 0, 1, 4))
UNLIFTED = derived(CHOICE, *PARTS, step("T-If", 0, 24, "Nat", 0, 1, 2))


@dataclass
class Case:
    """A run of the checker."""

    name: str
    words: list
    files: dict
    written: str
    status: int
    told: str = ""
    given: bytes = b""
    terminal: bool = False  # standard error is one
    painted: dict = None  # standard output is a terminal, and the environment has these variables besides
    full: bool = False  # standard output has no room
    memory: int = 0  # at most so many bytes of address space, if it is not 0


def refused(name, why):
    return f"lam_check: {name}: {why}\n"


CASES = [
    Case("no fault", ["a"], {"a": POINT}, "", 0),
    Case("a fault with its line", ["a"], {"a": NEXT}, "a:3:1: error[E3]: argument does not fit the parameter\nnext {name=true};\n^^^^^^^^^^^^^^^^ expected {x:Nat}, found {name:Bool}\n", 1),
    Case("a tab stays a tab under its text", ["a"], {"a": "\tx"}, "a:1:2: error[E1]: unbound name\n\tx\n\t^\n", 1),
    Case("columns count characters", ["a"], {"a": "größe = 0; 😀 x"}, "a:1:12: error[B1]: character not allowed\ngröße = 0; 😀 x\n           ^^\n", 1),
    Case("a mark is under its text after wide characters", ["a"], {"a": "x = 0; /* 漢字 */ succ true;"}, f"a:1:17: error[E6]: operand is not Nat\nx = 0; /* 漢字 */ succ true;\n{' ' * 18}^^^^^^^^^ expected Nat, found Bool\n", 1),
    Case("and after an emoji", ["a"], {"a": "/* 😀 */ x"}, "a:1:9: error[E1]: unbound name\n/* 😀 */ x\n         ^\n", 1),
    Case("a mark is as wide as its text, and has a column at least", ["a"], {"a": "漢字e\u0301; \u0301"}, f"a:1:1: error[E1]: unbound name\n漢字e\u0301; \u0301\n^^^^^\na:1:7: error[B1]: character not allowed\n漢字e\u0301; \u0301\n{' ' * 7}^\n", 1),
    Case("CR, LF and CR LF end lines", ["a"], {"a": "a = 0;\rb = 0;\r\n\nx"}, "a:4:1: error[E1]: unbound name\nx\n^\n", 1),
    Case("a mark ends with its line", ["a"], {"a": "succ\n  true"}, "a:1:1: error[E6]: operand is not Nat\nsucc\n^^^^ expected Nat, found Bool\n", 1),
    Case("control characters are not sent to a terminal", ["a"], {"a": "\x1b[2J"}, "a:1:1: error[B1]: character not allowed\n\ufffd[2J\n^\na:1:2: error[B1]: character not allowed\n\ufffd[2J\n ^\n", 1),
    Case("faults in the order of the text", ["a"], {"a": "y; succ true; x"}, "a:1:1: error[E1]: unbound name\ny; succ true; x\n^\na:1:4: error[E6]: operand is not Nat\ny; succ true; x\n   ^^^^^^^^^ expected Nat, found Bool\na:1:15: error[E1]: unbound name\ny; succ true; x\n              ^\n", 1),
    Case("what was expected and what was found", ["a"], {"a": WRONG}, WRONGS, 1),
    Case("expected and found where names have changed their types", ["a"], {"a": SHADOWED}, SHADOWS, 1),
    Case("no more is told of a fault beside a type that is too large", ["a"], {"a": LARGE}, "a:12:7: error[L1]: type of more than 4096 nodes\na11 = {a=a10, b=a10};\n      ^^^^^^^^^^^^^^\n", 1),
    Case("standard input", [], {}, "<stdin>:1:1: error[E1]: unbound name\nx\n^\n", 1, given=b"x"),
    Case("standard input by its name", ["-"], {}, "<stdin>:1:1: error[E1]: unbound name\nx\n^\n", 1, given=b"x"),
    Case("the second dialect", ["--dialect", "2", "a"], {"a": "succ true"}, "", 0),
    Case("a file that is gone, and others", ["gone", "a"], {"a": "x"}, "a:1:1: error[E1]: unbound name\nx\n^\n", 4, refused("gone", "No such file or directory (os error 2)")),
    Case("a folder", ["."], {}, "", 4, refused(".", "Is a directory (os error 21)")),
    Case("not UTF-8", ["a"], {"a": b"a = \xff"}, "", 4, refused("a", "it is not UTF-8 from byte 4 on")),
    Case("64 MiB", ["a"], {"a": b" " * (1 << 26)}, "", 0),
    Case("more than 64 MiB", ["a"], {"a": b" " * ((1 << 26) + 1)}, "", 4, refused("a", "it has more than 64 MiB")),
    Case("too little memory", ["a"], {"a": "x = 0; " * 1_000_000}, "", 5, "lam_check: out of memory\n", memory=1 << 26),
    Case("colours on a terminal", ["a"], {"a": "x"}, "a:1:1: \x1b[1;31merror[E1]\x1b[0m: unbound name\nx\n\x1b[1;31m^\x1b[0m\n", 1, painted={}),
    Case("no colours where NO_COLOR is set", ["a"], {"a": "x"}, "a:1:1: error[E1]: unbound name\nx\n^\n", 1, painted={"NO_COLOR": "1"}),
    Case("colours where NO_COLOR is empty", ["a"], {"a": "x"}, "a:1:1: \x1b[1;31merror[E1]\x1b[0m: unbound name\nx\n\x1b[1;31m^\x1b[0m\n", 1, painted={"NO_COLOR": ""}),
    Case("no colours where NO_COLOR is not UTF-8", ["a"], {"a": "x"}, "a:1:1: error[E1]: unbound name\nx\n^\n", 1, painted={"NO_COLOR": "\udcff"}),
    Case("characters that turn the direction of a line", ["a"], {"a": "/* \u202e\u2066 */ x"}, f"a:1:10: error[E1]: unbound name\n/* \ufffd\ufffd */ x\n{' ' * 9}^\n", 1),
    Case("a NUL", ["a"], {"a": "a = 0;\0"}, "a:1:7: error[B1]: character not allowed\na = 0;\ufffd\n      ^\n", 1),
    Case("types", ["--types", "a"], {"a": CALL + "P = {b:Bool, a:Nat}; n : P;"}, "point : {name:Bool, x:Nat}\nnext : {x:Nat}->Nat\nNat\nP :: {a:Nat, b:Bool}\nn : {a:Nat, b:Bool}\n", 0),
    Case("types in the second dialect", ["--dialect", "2", "--types", "a"], {"a": "x = if true then 0 else true"}, "x : Nat\n", 0),
    Case("types in the first dialect", ["--types", "a"], {"a": "x = if true then 0 else true"}, "x : Top\n", 0),
    Case("faults before types", ["--types", "a"], {"a": "succ true; a = 0"}, "a:1:1: error[E6]: operand is not Nat\nsucc true; a = 0\n^^^^^^^^^ expected Nat, found Bool\na : Nat\n", 1),
    Case("a derivation", ["--why", "3:1", "a"], {"a": CALL.replace("next point;", " next point;")}, "", 1, refused("a", "no type is shown there")),
    Case("a derivation as a tree", ["--why", "3:5", "a"], {"a": CALL}, TREE, 0),
    Case("a letrec is drawn as what it is short for", ["--why", "1:6", "a"], {"a": f"x = {RECURSIVE};"}, RECURSION, 0),
    Case("of a smaller type than the written one", ["--why", "1:1", "a"], {"a": "letrec f:Nat->Top = lambda n:Nat. n in f"}, BELOW_WRITTEN, 0),
    Case("as an argument, with line ends and comments", ["--why", "1:23", "a"], {"a": f"(lambda y:Nat->Nat. y) {ARGUMENT};"}, AS_ARGUMENT, 0),
    Case("a letrec in LaTeX", ["--why", "1:1", "--latex", "a"], {"a": "letrec f:Nat = f in f"}, RECURSION_LATEX, 0),
    Case("a fix in a let is drawn as it is written", ["--why", "1:1", "a"], {"a": "let x = fix (lambda y:Nat. y) in x"}, BOUND.replace("letrec'", "x"), 0),
    Case("a let of a name that begins as letrec", ["--why", "1:1", "a"], {"a": "let letrec' = fix (lambda y:Nat. y) in letrec'"}, BOUND, 0),
    Case("a derivation in LaTeX", ["--why", "1:1", "--latex", "a"], {"a": "{a=0}"}, LATEX, 0),
    Case("a derivation in HTML and in the second dialect", ["--dialect", "2", "--why", "1:1", "--html", "a"], {"a": "succ true"}, HTML, 0),
    Case("a derivation beside a fault", ["--why", "1:7", "a"], {"a": "true; 0; succ true"}, "0 : Nat  (T-Num)\n", 0),
    Case("a line that there is not", ["--why", "9:1", "a"], {"a": "0"}, "", 1, refused("a", "the text has no such line")),
    Case("a line that there is not, as JSON", ["--json", "--why", "2:9", "a"], {"a": "0"}, "", 1, refused("a", "the text has no such line")),
    Case("the line after the last line end", ["--why", "2:1", "a"], {"a": "0;\n"}, "", 1, refused("a", "no type is shown there")),
    Case("no derivation beside a type that is too large", ["--why", "13:6", "a"], {"a": LARGE}, "", 1, refused("a", "no type is shown there")),
    Case("a place past the end of the last line", ["--why", "1:3", "a"], {"a": "0"}, "", 1, refused("a", "the line has no such column")),
    Case("a place past the end of a line", ["--why", "1:3", "a"], {"a": "0\n0"}, "", 1, refused("a", "the line has no such column")),
    Case("a place past the end of a line, as JSON", ["--json", "--why", "1:3", "a"], {"a": "0\n0"}, "", 1, refused("a", "the line has no such column")),
    Case("control characters in a name", ["a\x1b[2J\n"], {"a\x1b[2J\n": "x"}, "a\ufffd[2J\ufffd:1:1: error[E1]: unbound name\nx\n^\n", 1),
    Case("control characters in the name of a file that is gone", ["gone\x1b[2J\n"], {}, "", 4, refused("gone\ufffd[2J\ufffd", "No such file or directory (os error 2)")),
    Case("control characters in the name of a file without such a term", ["--why", "2:1", "a\x1b[2J"], {"a\x1b[2J": "0"}, "", 1, refused("a\ufffd[2J", "the text has no such line")),
    Case("control characters in a name, as JSON", ["--json", "a\x1b[2J"], {"a\x1b[2J": "0"}, line({"diagnostics": [], "file": "a\x1b[2J"}), 0),
    Case("a count of many files on a terminal", ["a"] * 201, {"a": "0"}, "", 0, "lam_check: 100 of 201 files are checked\nlam_check: 200 of 201 files are checked\n", terminal=True),
    Case("no count of a hundred files", ["a"] * 100, {"a": "0"}, "", 0, terminal=True),
    Case("no count where there is no terminal", ["a"] * 201, {"a": "0"}, "", 0),
    Case("a diagnostic as JSON", ["--json", "a"], {"a": "0;   x"}, line({"diagnostics": [DIAGNOSTIC], "file": "a"}), 1),
    Case("diagnostics as JSON in the second dialect", ["--dialect", "2", "--json", "a"], {"a": "succ true"}, line({"diagnostics": [], "file": "a"}), 0),
    *(
        Case(f"a diagnostic as JSON, in {encoding}", ["--json", "--position-encoding", encoding, "a"], {"a": BEHIND + "x"},
             line({"diagnostics": [{**DIAGNOSTIC, "range": place(0, column, column + 1)}], "file": "a"}), 1)
        for encoding, column in COLUMNS
    ),
    *(
        Case(f"a derivation as JSON, in {encoding}", ["--json", "--position-encoding", encoding, "--why", "1:10", "a"], {"a": BEHIND + "0"}, numeral(column), 0)
        for encoding, column in COLUMNS
    ),
    *(
        Case(f"a derivation in {encoding} is verified", ["--verify", "--position-encoding", encoding, "d"], {"a": BEHIND + "0", "d": numeral(column)}, "d: accepted: 0 : Nat\n", 0)
        for encoding, column in COLUMNS
    ),
    Case("a derivation in UTF-8 is read in UTF-16", ["--verify", "d"], {"a": BEHIND + "0", "d": numeral(13)}, "d: step 0 does not have a range of characters of the text\n", 1),
    Case("a derivation in UTF-32 is read in UTF-16", ["--verify", "d"], {"a": BEHIND + "0", "d": numeral(9)}, "d: step 0 is not about a term of the text\n", 1),
    Case("a derivation as JSON", ["--json", "--why", "1:1", "a"], {"a": "0"}, line({"derivation": STEPS, "file": "a"}), 0),
    Case("a derivation is verified", ["--verify", "d"], {"a": CALL, "d": sent()}, ACCEPTED, 0),
    Case("of a text that is named", ["--verify", "--of", "b", "d"], {"b": CALL, "d": json.dumps({"context": NAMES, "steps": PROOF}, indent=1)}, ACCEPTED, 0),
    Case("in more than 64 MiB", ["--verify", "--of", "b", "d"], {"b": CALL, "d": b" " * (1 << 26) + json.dumps({"context": NAMES, "steps": PROOF}).encode()}, ACCEPTED, 0),
    Case("of no text", ["--verify", "d"], {"d": line({"context": NAMES, "steps": PROOF})}, "d: it names no file that can be read: give the file of its text with --of\n", 1),
    Case("what is sent is verified, line by line", ["--verify", "d"], {"a": CALL, "d": sent() + sent((4, {"type": "Bool"}))}, ACCEPTED + "d: " + BELOW.format(4) + "\n", 1),
    Case("a numeral is verified", ["--verify", "d"], {"a": "0", "d": line({"derivation": STEPS, "file": "a"})}, "d: accepted: 0 : Nat\n", 0),
    Case("another type", ["--verify", "d"], {"a": CALL, "d": sent((1, {"type": "{x:Nat}"}))}, "d: " + BELOW.format(1) + "\n", 1),
    Case("another supertype", ["--verify", "d"], {"a": CALL, "d": sent((2, {"upper": "{x:Bool}"}))}, "d: " + BELOW.format(2) + "\n", 1),
    Case("another rule", ["--verify", "d"], {"a": CALL, "d": sent((2, {"rule": "S-RcdDepth"}))}, "d: " + BELOW.format(2) + "\n", 1),
    Case("no step", ["--verify", "d"], {"a": CALL, "d": sent(steps=[])}, "d: it has no steps\n", 1),
    Case("the first of two wrong steps", ["--verify", "d"], {"a": CALL, "d": sent((4, {"type": "Bool"}), steps=[*PROOF[:1], {**PROOF[1], "rule": "T-Unit"}, *PROOF[2:]])}, "d: " + BELOW.format(1) + "\n", 1),
    Case("a premise about no part of the term", ["--verify", "d"], {"a": CALL, "d": sent(steps=[*PROOF[:4], PROOF[1], {**PROOF[4], "from": [0, 3, 4]}])}, "d: " + BELOW.format(5) + "\n", 1),
    Case("a premise is dropped", ["--verify", "d"], {"a": CALL, "d": sent((3, {"from": [1]}))}, "d: the premises of step 3 are not the last steps of the proofs directly before it\n", 1),
    Case("steps are cut", ["--verify", "d"], {"a": CALL, "d": sent(steps=PROOF[:4])}, "d: the steps do not form one proof of typing that ends in step 3\n", 1),
    Case("another range", ["--verify", "d"], {"a": CALL, "d": sent((0, {"range": place(2, 0, 3)}))}, "d: step 0 does not have the range of its term\n", 1),
    Case("a range outside", ["--verify", "d"], {"a": CALL, "d": sent((0, {"range": place(9, 0, 4)}))}, "d: step 0 does not have a range of characters of the text\n", 1),
    Case("another text", ["--verify", "d"], {"a": CALL.replace("next p", "nest p"), "d": sent()}, "d: " + BELOW.format(0) + "\n", 1),
    Case("other names", ["--verify", "d"], {"a": CALL, "d": sent(names=NAMES[:1])}, "d: the names of the context are not those that the term sees\n", 1),
    Case("the least types of names", ["--verify", "d"], {"a": USED, "d": used("{a:Nat, b:Bool}", "{b:Bool, a:Nat}")}, "d: accepted: r:{a:Nat, b:Bool}, s:{b:Bool, a:Nat} |- r : {a:Nat, b:Bool}\n", 0),
    Case("another order of fields in the type of a term", ["--verify", "d"], {"a": USED, "d": used("{b:Bool, a:Nat}", "{b:Bool, a:Nat}")}, "d: accepted: r:{b:Bool, a:Nat}, s:{b:Bool, a:Nat} |- r : {b:Bool, a:Nat}\n", 0),
    Case("another order of fields in a written type", ["--verify", "d"], {"a": USED, "d": used("{a:Nat, b:Bool}", "{a:Nat, b:Bool}")}, ENTRY.format(1), 1),
    Case("a context with another type of a name", ["--verify", "d"], {"a": USED, "d": used("Bool", "{b:Bool, a:Nat}")}, ENTRY.format(0), 1),
    Case("a wider type of a name that a command defines", ["--verify", "d"], {"a": USED, "d": used("{a:Nat}", "{b:Bool, a:Nat}")}, "d: accepted: r:{a:Nat}, s:{b:Bool, a:Nat} |- r : {a:Nat}\n", 0),
    Case("the widest type of a name", ["--verify", "d"], {"a": USED, "d": used("Top", "{b:Bool, a:Nat}")}, "d: accepted: r:Top, s:{b:Bool, a:Nat} |- r : Top\n", 0),
    Case("a narrower type than the least one of a name", ["--verify", "d"], {"a": USED, "d": used("{a:Nat, b:Bool, c:Nat}", "{b:Bool, a:Nat}")}, ENTRY.format(0), 1),
    Case("a wider type than the written one", ["--verify", "d"], {"a": USED, "d": used("{a:Nat, b:Bool}", "{a:Nat}")}, ENTRY.format(1), 1),
    Case("the outermost of two wrong entries", ["--verify", "d"], {"a": USED, "d": used("Bool", "{a:Nat}")}, ENTRY.format(0), 1),
    Case("a label twice in a wider type of a name", ["--verify", "d"], {"a": USED, "d": used("{a:Nat, a:Nat}", "{b:Bool, a:Nat}")}, ENTRY.format(0), 1),
    Case("a type that a name does not have", ["--verify", "d"], derived("x = 0; x", step("T-Var", 7, 8, "Bool"), x="Bool"), ENTRY.format(0), 1),
    Case("no type of a name that has one", ["--verify", "d"], derived("x = 0; 0", step("T-Num", 7, 8, "Nat"), x=None), ENTRY.format(0), 1),
    Case("a wider type of a name in the second dialect", ["--dialect", "2", "--verify", "d"], derived("x = true; succ x", step("T-Var", 15, 16, "Nat"), step("T-Succ", 10, 16, "Nat", 0), x="Nat"), "d: accepted: x:Nat |- succ x : Nat\n", 0),
    Case("a type of a name that is wider in the second dialect only", ["--verify", "d"], derived("x = true; succ x", step("T-Var", 15, 16, "Nat"), step("T-Succ", 10, 16, "Nat", 0), x="Nat"), ENTRY.format(0), 1),
    Case("a wider type of the name of a let", ["--verify", "d"], derived("let x = {a=0, b=true} in x.a", step("T-Var", 25, 26, "{a:Nat}"), step("T-Proj", 25, 28, "Nat", 0), x="{a:Nat}"), "d: accepted: x:{a:Nat} |- x.a : Nat\n", 0),
    Case("the written type of a parameter", ["--verify", "d"], derived("lambda x:{a:Nat, b:Bool}. x", step("T-Var", 26, 27, "{a:Nat, b:Bool}"), x="{a:Nat, b:Bool}"), "d: accepted: x:{a:Nat, b:Bool} |- x : {a:Nat, b:Bool}\n", 0),
    Case("a wider type of a parameter", ["--verify", "d"], derived("lambda x:{a:Nat, b:Bool}. x", step("T-Var", 26, 27, "{a:Nat}"), x="{a:Nat}"), ENTRY.format(0), 1),
    Case("a wider type of the name of a letrec behind its in", ["--verify", "d"], derived(WIDER_LETREC, step("T-Var", 39, 40, "Nat->Top"), f="Nat->Top"), "d: accepted: f:Nat->Top |- f : Nat->Top\n", 0),
    Case("a wider type of the name of a letrec in its first term", ["--verify", "d"], derived(WIDER_LETREC, step("T-Var", 34, 35, "Nat"), f="Top", n="Nat"), ENTRY.format(0), 1),
    Case("entries are chosen one by one", ["--verify", "d"], derived("x = {a=0, b=true}; y = x; y", step("T-Var", 26, 27, "{a:Nat, b:Bool}"), x="{a:Nat}", y="{a:Nat, b:Bool}"), "d: accepted: x:{a:Nat}, y:{a:Nat, b:Bool} |- y : {a:Nat, b:Bool}\n", 0),
    Case("a step by the least type of a name with a wider one", ["--verify", "d"], derived("x = {a=0, b=true}; x.b", step("T-Var", 19, 20, "{a:Nat, b:Bool}"), step("T-Proj", 19, 22, "Bool", 0), x="{a:Nat}"), "d: " + BELOW.format(0) + "\n", 1),
    Case("a name without a type", ["--verify", "d"], derived("x = succ true; 0", step("T-Num", 15, 16, "Nat"), x=None), "d: accepted: x |- 0 : Nat\n", 0),
    Case("a type of a name without one", ["--verify", "d"], derived("x = succ true; 0", step("T-Num", 15, 16, "Nat"), x="Nat"), ENTRY.format(0), 1),
    Case("a type of a name whose written type is none", ["--verify", "d"], derived("x : Foo; 0", step("T-Num", 9, 10, "Nat"), x="Top"), ENTRY.format(0), 1),
    Case("a context with another type of a name that is not used", ["--verify", "d"], {"a": USED, "d": used("{a:Nat, b:Bool}", "Nat")}, ENTRY.format(1), 1),
    Case("a context with no type of a name", ["--verify", "d"], {"a": USED, "d": used("{a:Nat, b:Bool}", None)}, ENTRY.format(1), 1),
    Case("a label twice in a context", ["--verify", "d"], {"a": USED, "d": used("{a:Nat, b:Bool, b:Bool}", "{b:Bool, a:Nat}")}, ENTRY.format(0), 1),
    Case("a derivation of a text with a type that is too large", ["--verify", "d"], {"a": "0;\n" + LARGE, "d": line({"derivation": STEPS, "file": "a"})}, "d: the text has a type of more than 4,096 nodes\n", 1),
    Case("a derivation of a text with a written type that is too large", ["--verify", "d"], {"a": "0;\n" + WRITTEN + "x : {a:T10, b:Nat}", "d": line({"derivation": STEPS, "file": "a"})}, "d: the text has a type of more than 4,096 nodes\n", 1),
    Case("an argument that is not lifted", ["--verify", "d"], {"a": CALL, "d": sent(steps=[*PROOF[:2], {**PROOF[4], "from": [0, 1]}])}, "d: " + BELOW.format(2) + "\n", 1),
    Case("a branch that is not lifted", ["--dialect", "2", "--verify", "d"], UNLIFTED, "d: " + BELOW.format(3) + "\n", 1),
    Case("a branch that is lifted", ["--dialect", "2", "--verify", "d"], LIFTED, f"d: accepted: {CHOICE} : Nat\n", 0),
    Case("a branch that is lifted as in the other dialect", ["--verify", "d"], LIFTED, "d: " + BELOW.format(3) + "\n", 1),
    Case("the innermost entry", ["--verify", "d"], named("a", "T-Var", "Nat"), "d: accepted: c:Bool, b, a:Nat |- a : Nat\n", 0),
    Case("the innermost entry with the type of the outermost", ["--verify", "d"], named("a", "T-Var", "Bool"), "d: " + BELOW.format(0) + "\n", 1),
    Case("an entry without a type", ["--verify", "d"], named("b", "T-Var", "Nat"), "d: " + BELOW.format(0) + "\n", 1),
    Case("the outermost entry", ["--verify", "d"], named("c", "T-Var", "Bool"), "d: accepted: c:Bool, b, a:Nat |- c : Bool\n", 0),
    Case("a term that uses no entry", ["--verify", "d"], named("unit", "T-Unit", "Unit"), "d: accepted: c:Bool, b, a:Nat |- unit : Unit\n", 0),
    Case("a premise of subtyping where the rule has none", ["--verify", "d"], derived("unit", below("S-Refl", "Unit", "Unit"), step("T-Unit", 0, 4, "Unit", 0)), "d: " + BELOW.format(1) + "\n", 1),
    Case("no premise of subtyping where the rule has one", ["--verify", "d"], derived("unit", step("T-Unit", 0, 4, "Unit"), step("T-Sub", 0, 4, "Unit", 0)), "d: " + BELOW.format(1) + "\n", 1),
    Case("a wider type a thousand arrows deep", ["--verify", "d"], wider("Nat", "Top"), f"d: accepted: y:{arrows(1000, 'Nat')}, x:{arrows(1000, 'Top')} |- 0 : Nat\n", 0),
    Case("a narrower type a thousand arrows deep", ["--dialect", "2", "--verify", "d"], wider("Top", "Nat"), ENTRY.format(1), 1),
    Case("no such rule", ["--verify", "d"], {"a": CALL, "d": sent((0, {"rule": "T-Foo"}))}, "d: step 0 does not name a rule of its kind\n", 1),
    Case("no type", ["--verify", "d"], {"a": CALL, "d": sent((0, {"type": "{x:Nat"}))}, "d: step 0 has an unreadable type, or one of over 4,096 levels\n", 1),
    *(Case(name, ["--verify", "d"], {"a": CALL, "d": told}, f"d: {why}\n", 1) for name, told, why in UNREAD),
    Case("no derivation", ["--verify", "d"], {"a": CALL, "d": line({"derivation": None, "file": "a"})}, "d: it is not an object with exactly the members `context` and `steps`, both lists\n", 1),
    Case("a file beside its lists", ["--verify", "--of", "a", "d"], {"a": "0", "d": line(dict(STEPS, file="a"))}, "d: it is not an object with exactly the members `context` and `steps`, both lists\n", 1),
    Case("a line below a derivation is not JSON", ["--verify", "d"], {"a": CALL, "d": "\n" + sent() + "x\n" + sent()}, ACCEPTED + "d: it is not JSON: invalid JSON at line 3 column 1\n" + ACCEPTED, 1),
    Case("300,000 lines that are not JSON", ["--verify", "--of", "a", "d"], {"a": "0", "d": "0\n" + "x\n" * 299_999},
         "d: it is not an object with exactly the members `context` and `steps`, both lists\n" + "".join(f"d: it is not JSON: invalid JSON at line {n} column 1\n" for n in range(2, 300_001)), 1),
    Case("JSON is cut", ["--verify", "d"], {"a": CALL, "d": sent()[:14]}, "d: it is not JSON: EOF while parsing at line 1 column 14\n", 1),
    Case("derivations not in UTF-8", ["--verify", "d"], {"d": b"\xff"}, "", 4, refused("d", "it is not UTF-8 from byte 0 on")),
    Case("a text that is gone", ["--verify", "d"], {"d": sent()}, "", 4, refused("a", "No such file or directory (os error 2)")),
    Case("the function that a letrec stands for", ["--verify", "d"], derived("letrec f:Nat->Nat = lambda n:Nat. n in f 0", step("T-Var", 34, 35, "Nat"), step("T-Abs", 20, 35, "Nat->Nat", 0), step("T-Abs", 20, 35, "(Nat->Nat)->Nat->Nat", 1)), OTHER_NAMES, 1),
    Case("the fix that a letrec stands for", ["--verify", "d"], derived("letrec x:Nat = x in 0", step("T-Var", 15, 16, "Nat"), step("T-Abs", 15, 16, "Nat->Nat", 0), step("T-Fix", 15, 16, "Nat", 1)), OTHER_NAMES, 1),
    Case("blank lines between derivations", ["--verify", "d"], {"a": CALL, "d": sent() + "\n \r\n" + sent() + "\n"}, ACCEPTED + ACCEPTED, 0),
    Case("control characters in the name of a file of derivations", ["--verify", "d\x1b[2J"], {"a": CALL, "d\x1b[2J": sent()}, ACCEPTED.replace("d:", "d\ufffd[2J:", 1), 0),
    Case("control characters in the name of a text", ["--verify", "d"], {"d": line({"derivation": STEPS, "file": "a\x1b[2J"})}, "", 4, refused("a\ufffd[2J", "No such file or directory (os error 2)")),
    Case("a derivation of standard input", ["--verify", "d"], {"d": line({"derivation": STEPS, "file": "<stdin>"})}, "d: it names no file that can be read: give the file of its text with --of\n", 1),
    Case("a derivation of standard input, told by a dash", ["--verify", "d"], {"d": line({"derivation": STEPS, "file": "-"})}, "d: it names no file that can be read: give the file of its text with --of\n", 1, given=b"0"),
    Case("a blank line before derivations", ["--verify", "d"], {"a": CALL, "d": "\n" + sent() + sent()}, ACCEPTED + ACCEPTED, 0),
    Case(
        "control characters in a label of a type",
        ["--verify", "d"],
        function_of("{a\n\x1b[2Jb:Nat}"),
        "d: accepted: lambda x:Top. 0 : {a\ufffd\ufffd[2Jb:Nat}->Nat\n",
        0,
    ),
    Case("steps on twenty thousand levels", ["--verify", "d"], lifted(20_000, "T-Num", 5), "d: accepted: succ 0 : Nat\n", 0),
    Case("a wrong step below twenty thousand others", ["--verify", "d"], lifted(20_000, "T-Var", 5), "d: " + BELOW.format(0) + "\n", 1),
    Case("a wrong range below twenty thousand others", ["--verify", "d"], lifted(20_000, "T-Num", 0), "d: step 0 does not have the range of its term\n", 1),
    Case("a type with a depth of 4,096", ["--verify", "d"], function_of(nested(4095)), f"d: accepted: lambda x:Top. 0 : {nested(4095)}->Nat\n", 0),
    Case("a type with a depth of 4,097", ["--verify", "d"], function_of(nested(4096)), "d: step 4 has an unreadable type, or one of over 4,096 levels\n", 1),
    Case(
        "a permutation only if a label may have a colon",
        ["--verify", "d"],
        derived(
            "lambda r:{x:Nat}. r.x", step("T-Var", 18, 19, "{x:Nat}"), step("T-Proj", 18, 21, "Nat", 0), step("T-Abs", 0, 21, "{x:Nat}->Nat", 1),
            below("S-RcdPerm", "{a:{b:Nat, x:Nat, y:Nat}, c:Nat}", "{x:Nat, a:{b:Nat, y:Nat}, c:Nat}"), below("S-RcdWidth", "{x:Nat, a:{b:Nat, y:Nat}, c:Nat}", "{x:Nat}"),
            below("S-Trans", "{a:{b:Nat, x:Nat, y:Nat}, c:Nat}", "{x:Nat}", 3, 4), below("S-Refl", "Nat", "Nat"),
            below("S-Arrow", "{x:Nat}->Nat", "{a:{b:Nat, x:Nat, y:Nat}, c:Nat}->Nat", 5, 6), step("T-Sub", 0, 21, "{a:{b:Nat, x:Nat, y:Nat}, c:Nat}->Nat", 2, 7),
        ),
        "d: " + BELOW.format(3) + "\n",
        1,
    ),
    Case("a text on standard input", ["--verify", "--of", "-", "d"], {"d": sent()}, "", 2, "error: --of takes the name of a file\n", given=CALL.encode()),
    Case("verifying and types", ["--verify", "--types", "a"], {"a": "0"}, "", 2, None),
    Case("a derivation and types", ["--why", "1:1", "--types", "a"], {"a": "0"}, "", 2, None),
    Case("a text of nothing", ["--of", "a", "a"], {"a": "0"}, "", 2, None),
    Case("no such option", ["--nope"], {}, "", 2, None),
    Case("no such position encoding", ["--verify", "--position-encoding", "latin-1", "a"], {"a": "0"}, "", 2, None),
    Case("a position encoding of no JSON", ["--position-encoding", "utf-8", "a"], {"a": "0"}, "", 2, "error: --position-encoding goes with --json or --verify\n"),
    Case("no place", ["--why", "1", "a"], {"a": "0"}, "", 2, "error: --why takes a line and a column, both from 1, as in 3:14\n"),
    Case("control characters in a wrong option", ["--nope\x1b[2J"], {}, "", 2, NOPE),
    Case("LaTeX and HTML", ["--latex", "--html", "--why", "1:1", "a"], {"a": "0"}, "", 2, None),
    Case("JSON and HTML", ["--json", "--html", "--why", "1:1", "a"], {"a": "0"}, "", 2, None),
    *(Case(f"no room for what {name} prints", words, {"a": "succ true"}, "", 4, full=True) for name, words in (("a report", ["a"]), ("a type", ["--types", "a"]), ("the help", ["--help"]))),
]

# Steps of subtyping, each with its rule, its types and its premises. Before them are the dialects in which they are a proof, and the step
# that is told where they are none; there they are counted from 1.
A, B, AB, BA = "{a:Nat}", "{b:Nat}", "{a:Nat, b:Nat}", "{b:Nat, a:Nat}"
NATS = (("S-Refl", "Nat", "Nat"), ("S-Refl", "Nat", "Nat"))
SUBTYPINGS = [
    ("12", 0, ("S-RcdWidth", AB, A)),
    ("", 1, ("S-RcdWidth", AB, B)),
    ("12", 0, ("S-RcdWidth", AB, AB)),
    ("", 1, ("S-RcdWidth", A, AB)),
    ("12", 0, ("S-RcdWidth", AB, "{}")),
    ("12", 0, ("S-RcdPerm", AB, BA)),
    ("12", 0, ("S-RcdPerm", AB, AB)),
    ("", 1, ("S-RcdPerm", AB, A)),
    ("", 1, ("S-RcdPerm", A, AB)),
    ("12", 0, ("S-Refl", AB, AB)),
    ("", 1, ("S-Refl", AB, BA)),
    ("12", 0, ("S-RcdDepth", "{}", "{}")),
    ("", 1, ("S-RcdDepth", AB, BA)),
    ("", 1, ("S-Trans", AB, AB)),
    ("", 1, ("S-Top", AB, "{}")),
    ("12", 0, ("S-Top", "Top", "Top")),
    ("2", 1, ("S-BoolNat", "Bool", "Nat")),
    ("", 1, ("S-BoolNat", "Nat", "Bool")),
    # The two premises of transitivity share the type in the middle.
    ("12", 0, ("S-RcdPerm", AB, BA), ("S-RcdWidth", BA, B), ("S-Trans", AB, B, 1, 2)),
    ("", 2, ("S-RcdPerm", AB, BA), ("S-RcdWidth", AB, B), ("S-Trans", AB, B, 1, 2)),
    ("", 3, ("S-RcdPerm", AB, AB), ("S-RcdWidth", BA, B), ("S-Trans", AB, B, 1, 2)),
    # The first premise goes from the upper parameter to the lower one.
    ("12", 0, ("S-Top", B, "Top"), NATS[0], ("S-Arrow", "Top->Nat", "{b:Nat}->Nat", 1, 2)),
    ("", 3, ("S-Top", AB, "Top"), NATS[0], ("S-Arrow", "Top->Nat", "{b:Nat}->Nat", 1, 2)),
    # Depth keeps the labels in their order.
    ("12", 0, *NATS, ("S-RcdDepth", AB, AB, 1, 2)),
    ("", 3, *NATS, ("S-RcdDepth", AB, BA, 1, 2)),
    ("", 3, *NATS, ("S-RcdDepth", AB, B, 1, 2)),
    ("", 3, *NATS, ("S-RcdDepth", AB, "{}", 1, 2)),
]


def subtypings():
    """A case for each of these lists in each dialect, by which a declared name has the wider type."""
    for dialects, wrong_one, *proof in SUBTYPINGS:
        rule, lower, upper, *_ = proof[-1]
        text = f"x : {lower}; x"
        end = len(text)
        files = derived(text, step("T-Var", end - 1, end, lower), *(below(*it) for it in proof), step("T-Sub", end - 1, end, upper, 0, len(proof)), x=lower)
        for dialect in "12":
            accepted = dialect in dialects
            told = f"accepted: x:{lower} |- x : {upper}" if accepted else BELOW.format(wrong_one)
            yield Case(f"{rule}, {lower} <: {upper}", ["--dialect", dialect, "--verify", "d"], files, f"d: {told}\n", 0 if accepted else 1)


def ended(program, case, room):
    """A run, and what it wrote on standard error."""
    words = [program, *case.words]
    if case.memory:
        run = subprocess.run(words, cwd=room, capture_output=True, check=False, timeout=60, preexec_fn=lambda: resource.setrlimit(resource.RLIMIT_AS, (case.memory,) * 2))
        return run, run.stderr.decode()
    if case.painted is not None:
        return painted(words, case, room)
    if case.full:
        with open("/dev/full", "wb") as full:
            run = subprocess.run(words, cwd=room, input=case.given, stdout=full, stderr=subprocess.PIPE, check=False, timeout=60)
        run.stdout = b""
        return run, run.stderr.decode()
    if not case.terminal:
        run = subprocess.run(words, cwd=room, input=case.given, capture_output=True, check=False, timeout=60)
        return run, run.stderr.decode()
    near, far = pty.openpty()
    run = subprocess.run(words, cwd=room, input=case.given, stdout=subprocess.PIPE, stderr=far, check=False, timeout=60)
    os.close(far)
    told = written_on(near)
    os.close(near)
    return run, told.decode().replace("\r\n", "\n")


def painted(words, case, room):
    """A run with a terminal as its standard output, and what it wrote on standard error."""
    near, far = pty.openpty()
    variables = {**{name: it for name, it in os.environ.items() if name != "NO_COLOR"}, **case.painted}
    run = subprocess.run(words, cwd=room, env=variables, stdout=far, stderr=subprocess.PIPE, check=False, timeout=60)
    os.close(far)
    run.stdout = written_on(near).replace(b"\r\n", b"\n")
    os.close(near)
    return run, run.stderr.decode()


def written_on(terminal):
    """All that was written on a terminal whose far end is closed. It may come in pieces."""
    told = b""
    try:
        while more := os.read(terminal, 4096):
            told += more
    except OSError:  # the end
        pass
    return told


def wrong(program, case):
    """What is wrong with a run, or nothing."""
    with tempfile.TemporaryDirectory() as room:
        for name, text in case.files.items():
            with open(f"{room}/{name}", "wb") as it:
                it.write(text if isinstance(text, bytes) else text.encode())
        run, told = ended(program, case, room)
    for kind, seen, wanted in (("status", run.returncode, case.status), ("output", run.stdout.decode(), case.written), ("standard error", told, case.told)):
        if wanted is not None and seen != wanted:
            return f"{kind} is {seen!r} and not {wanted!r}"
    return None


# A type that doubles, and a `fix` of a function whose result is as large as a type may be: the proof widens the parameter to the result.
WIDENED = "x0 = {a=0, b=0};\n" + "".join(f"x{i} = {{a=x{i - 1}, b=x{i - 1}}};\n" for i in range(1, 10)) + "fix (lambda x:Top. {a=x9, b=0})"


def written_and_read(program, name, text):
    """What is wrong with the derivations that the checker writes here and there in a text, or nothing: each is accepted."""
    lines = text.splitlines()
    places = [(i, j) for i, it in enumerate(lines, 1) for j in range(1, len(it) + 1)][::7]
    with tempfile.TemporaryDirectory() as room:
        with open(f"{room}/a", "w", encoding="utf-8") as it:
            it.write(text)
        told = b"".join(subprocess.run([program, "--json", "--why", f"{i}:{j}", "a"], cwd=room, capture_output=True, check=False).stdout for i, j in places)
        run = subprocess.run([program, "--verify", "-"], cwd=room, input=told, capture_output=True, check=False)
    if not told:
        return f"{name}: no derivation is written"
    refusals = [it for it in run.stdout.decode().splitlines() if not it.startswith("<stdin>: accepted: ")]
    if run.returncode or refusals or run.stdout.count(b"\n") != told.count(b"\n"):
        return f"{name}: status {run.returncode}, {refusals or run.stderr.decode()}"
    return None


APPLIED = "(lambda r:{x:Nat}. r.x) {y=true, x=0};"
CHOSEN = "let y = {b=0, a=true} in if y.a then y else {a=false}"
DECLARED = "f : {a:Nat}->Nat; f {a=0, b=true}"
HIDDEN = "y = succ true; T = Nat; x : T; lambda r:{b:Nat, a:Bool}. let _ = r.b in let x = r in x"
ROW = "{b:Nat, a:Bool}"
FIELDS = [*range(500, 699), *range(200, 500)]
TAKEN = [*range(500, 697), *range(200, 500)]
# x198 has the type Nat, as each one with an even number.
FRONT = "".join(f"x{n} = {'true' if n % 2 else '0'}; " for n in range(199))
DEEP_ARROWS = f"T = {arrows(500, 'Nat')}; U = {arrows(500, 'Top')}; x : {arrows(500, 'T')}; x as {arrows(500, 'U')}"
DEEP_RECORDS = f"L = {records(400, 'Bool')}; M = {records(400, 'L')}; U = {records(400, 'Nat')}; V = {records(400, 'U')}; x : {records(200, 'M')}; x as {records(200, 'V')}"


def fields(numbers, each):
    """Fields with these numbers in their labels, each followed by this."""
    return "{" + ", ".join(f"l{n}{each}" for n in numbers) + "}"


def doubled(count, ty="Nat"):
    """The type, so many times as both fields of a record."""
    return doubled(count - 1, f"{{a:{ty}, b:{ty}}}") if count else ty


# Texts of one line: the derivation that is written of the term around this character, in these dialects, is accepted, and says this.
# Without anything that it says, none is written.
DERIVED = [
    ("12", APPLIED, 23, "(lambda r:{x:Nat}. r.x) {y=true, x=0} : Nat"),
    ("1", APPLIED, 19, "r:{x:Nat} |- r : {x:Nat}"),
    ("1", CHOSEN, 25, f"y:{ROW} |- if y.a then y else {{a=false}} : {{a:Bool}}"),
    ("1", CHOSEN, 28, f"y:{ROW} |- y : {ROW}"),
    ("1", CHOSEN, 0, f"{CHOSEN} : {{a:Bool}}"),
    ("1", DECLARED, 18, "f:{a:Nat}->Nat |- f : {a:Nat}->Nat"),
    ("1", DECLARED, 19, "f:{a:Nat}->Nat |- f {a=0, b=true} : Nat"),
    ("1", "f : {a:Nat}->Nat; r = {b=true, a=0}; f r", 38, "f:{a:Nat}->Nat, r:{b:Bool, a:Nat} |- f r : Nat"),
    ("1", "letrec f:Nat->Nat = lambda n:Nat. f n in f", 35, "f:Nat->Nat, n:Nat |- f n : Nat"),
    ("12", "letrec f:Nat->Nat = lambda n:Nat. n in f", 0, "letrec f:Nat->Nat = lambda n:Nat. n in f : Nat->Nat"),
    ("1", WIDER_LETREC, 0, f"{WIDER_LETREC} : Nat->Nat"),
    ("1", "letrec f:Nat->Top = lambda n:Nat. n in f 0", 0, "letrec f:Nat->Top = lambda n:Nat. n in f 0 : Nat"),
    ("1", "letrec f:Nat->Top = lambda n:Nat. n in f unit", 0, None),
    ("1", "fix (lambda x:Top. 0)", 0, "fix (lambda x:Top. 0) : Nat"),
    ("1", "if true then {a=0} else {b=0}", 0, "if true then {a=0} else {b=0} : {}"),
    ("2", CHOICE, 0, f"{CHOICE} : Nat"),
    ("2", "lambda c:Bool. if c then (lambda x:Nat. x) else (lambda x:Bool. 0)", 0, "lambda c:Bool. if c then (lambda x:Nat. x) else (lambda x:Bool. 0) : Bool->Bool->Nat"),
    ("1", "Y = Q; z : Y; lambda x:Nat. x", 14, "z |- lambda x:Nat. x : Nat->Nat"),
    ("1", "(iszero (succ (pred 0))) as Top", 25, "(iszero (succ (pred 0))) as Top : Top"),
    ("12", "(iszero (succ (pred 0))) as Bool", 25, "(iszero (succ (pred 0))) as Bool : Bool"),
    ("2", "succ true", 0, "succ true : Nat"),
    ("2", "y = succ true; z = y;", 19, "y:Nat |- y : Nat"),
    ("1", HIDDEN, 85, f"y, x:Nat, r:{ROW}, _:Nat, x:{ROW} |- x : {ROW}"),
    # Other commands and pieces that are none.
    ("1", "; x = 0;; ( ; y = x;", 18, "x:Nat |- x : Nat"),
    ("1", "x = 0; " * 25_000 + "x", 175_000, ", ".join(["x:Nat"] * 25_000) + " |- x : Nat"),
    # Large and deep ones.
    ("1", f"x = {fields(FIELDS, '=0')};", 4, f"{fields(FIELDS, '=0')} : {fields(FIELDS, ':Nat')}"),
    ("1", f"f = lambda r:{fields(TAKEN, ':Nat')}. r.l696;", 4, f"lambda r:{fields(TAKEN, ':Nat')}. r.l696 : {fields(TAKEN, ':Nat')}->Nat"),
    ("1", f"{FRONT}x199 = x198;", len(FRONT) + 7, ", ".join(f"x{n}:{'Bool' if n % 2 else 'Nat'}" for n in range(199)) + " |- x198 : Nat"),
    ("1", f"{WRITTEN}x : {{a:T10}}; 0", len(WRITTEN) + 13, f"x:{{a:{doubled(11)}}} |- 0 : Nat"),
    ("1", DEEP_ARROWS, DEEP_ARROWS.index("as"), f"x:{arrows(1000, 'Nat')} |- x as {arrows(500, 'U')} : {arrows(1000, 'Top')}"),
    ("2", DEEP_RECORDS, DEEP_RECORDS.index("as"), f"x:{records(1000, 'Bool')} |- x as {records(200, 'V')} : {records(1000, 'Nat')}"),
    ("1", DEEP_RECORDS, DEEP_RECORDS.index("as"), None),
]


def derivations(program):
    """A case for each of these texts in each dialect: what is written is read again."""
    for dialects, text, at, claim in DERIVED:
        for dialect in dialects:
            name, words = f"the derivation at {at} in {text[:60]}", ["--dialect", dialect, "--why", f"1:{at + 1}", "a"]
            if claim is None:
                yield Case(name, words, {"a": text}, "", 1, refused("a", "no type is shown there"))
                continue
            with tempfile.TemporaryDirectory() as room:
                with open(f"{room}/a", "w", encoding="utf-8") as it:
                    it.write(text)
                told = subprocess.run([program, "--json", *words], cwd=room, capture_output=True, check=False).stdout
            yield Case(name, ["--dialect", dialect, "--verify", "d"], {"a": text, "d": told}, f"d: accepted: {claim}\n", 0)


def texts():
    """The examples, and a text of its own."""
    yield "a type that a proof widens", WIDENED
    for name in sorted(glob.glob(f"{ROOT}/examples/*.fsub")):
        with open(name, encoding="utf-8") as it:
            yield os.path.relpath(name, ROOT), it.read()


def main():
    words = argparse.ArgumentParser(description=__doc__.partition(":")[0])
    words.add_argument("--program", default=BUILT, help="the built checker; where none is named, that of `make`")
    program = os.path.realpath(words.parse_args().program)
    if not os.path.isfile(program):
        sys.exit(f"there is no program {program}: run make, or name one by --program")
    failed, cases = 0, [*CASES, *subtypings(), *derivations(program)]
    for case in cases:
        what = wrong(program, case)
        if what:
            failed += 1
            print(f"{case.name}: {what}")
    own = [written_and_read(program, *it) for it in texts()]
    for what in filter(None, own):
        failed += 1
        print(f"derivations that were written are read: {what}")
    print(f"{len(cases) + len(own) - failed} passed, {failed} failed")
    return 1 if failed else 0


if __name__ == "__main__":
    sys.exit(main())
