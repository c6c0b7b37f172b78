"""hover.py SERVER: opens the tour in real editors, and prints what each shows of every construct.

The cursor is put on the first letter of a text; then the editor asks for the type as it does for
its user, and by a request of its own for some derivations. Last it is said whether both editors
were told the same.
"""

import json
import os
import shutil
import subprocess
import sys

from terminal import EMACS, EMACS_INIT, HERE, NEOVIM, ROOM, Terminal, prepare, said_by_emacs, said_by_neovim

TOUR = f"{HERE}/../../examples/tour.fsub"

# Stands in front of the tour. It gives no name, so the tour sees no more than without it.
WORKED = "(lambda r:{x:Nat}. r.x) {y=true, x=0};\n"

# Each construct, by a text that begins with it and stands once in the tour.
PLACES = [
    ("numeral", "1);\ntwo"),
    ("succ", "succ (succ"),
    ("pred", "pred three"),
    ("iszero", "iszero 0"),
    ("unit", "unit;\n\n/* A record"),
    ("ascription", "as Point;"),
    ("projection", ".x, y=origin"),
    ("record", "{x=succ origin"),
    ("lambda", "lambda p:Point. lambda q"),
    ("applied function", "move origin"),
    ("application", " right;"),
    ("argument below the parameter", "coloured {x=7"),
    ("let", "let side"),
    ("lambda without a name", "lambda _:Top"),
    ("if", "if c then"),
    ("fix", "fix (lambda"),
    ("declared name", "measure right"),
    ("name with a quote", "x'.größe) as"),
    ("comment", "😀 */"),
    ("name of a command", "five = plus"),
]

# What is derived, each within one line; of an application only the space is no part of a part.
DERIVED = [
    ("application", " {y=true, x=0}"),
    ("argument", "{y=true, x=0}"),
    ("projection", ".x, y=p.y"),
    ("comment", "😀 */"),
]

NEOVIM_ASK = """luaeval('(function()
  vim.fn.cursor(%d, %d)
  local told = vim.lsp.buf_request_sync(0, "%s", vim.lsp.util.make_position_params(), 2000)
  for _, reply in pairs(told or {}) do return vim.fn.json_encode(reply.result) end
end)()')"""

EMACS_ASK = """(with-current-buffer "a.fsub"
  (goto-char (byte-to-position %d))
  (json-encode (jsonrpc-request (eglot-current-server) :%s (eglot--TextDocumentPositionParams))))"""


def ask_neovim(text, at, method):
    before = text[:at].encode()
    line = before.count(b"\n")
    column = len(before) - (before.rfind(b"\n") + 1)
    return said_by_neovim(NEOVIM_ASK % (line + 1, column + 1, method))


def ask_emacs(text, at, method):
    return said_by_emacs(EMACS_ASK % (len(text[:at].encode()) + 1, method))


def ready(ask, text, at):
    """Whether the editor listens, and has the server behind it."""
    try:
        return ask(text, at, "textDocument/hover") is not None
    except (subprocess.CalledProcessError, json.JSONDecodeError):
        return False


def print_derivation(told):
    if not told:
        print("    nothing")
        return
    seen = ", ".join(f"{entry['name']}:{entry.get('type')}" for entry in told["context"])
    print(f"    context: {seen or 'empty'}")
    for number, step in enumerate(told["steps"]):
        if "type" in step:
            what = step["type"]
            where = f"{step['range']['start']['character']}..{step['range']['end']['character']}"
        else:
            what, where = f"{step['lower']} below {step['upper']}", ""
        by = "from " + " and ".join(map(str, step["from"])) if step["from"] else ""
        print(f"    {number:<3}{step['rule']:12}{what:36}{where:>7}   {by}".rstrip())


def watch(server, text, command, ask, end, init=""):
    prepare(server, text, init)
    editor = Terminal(command)
    first = text.index(PLACES[0][1])
    while not ready(ask, text, first):
        editor.wait(1)
    answers = []
    for name, begin in PLACES:
        told = ask(text, text.index(begin), "textDocument/hover")
        answers.append(told)
        shown = told["contents"]["value"] if told else "nothing"
        quoted = begin.split("\n")[0]
        print(f"    {name:30}{quoted:28}{shown}")
    for name, begin in DERIVED:
        told = ask(text, text.index(begin), "fullsub/derivation")
        answers.append(told)
        print(f"\n    {name}, `{begin}`:")
        print_derivation(told)
    for keys in end:
        editor.type(keys)
        editor.wait(0.9)
    print(f"\n    (ends with status {editor.close()})\n")
    return answers


def main():
    server = os.path.abspath(sys.argv[1])
    with open(TOUR, newline="") as file:
        text = WORKED + file.read()
    print("Neovim:\n")
    neovim = watch(server, text, NEOVIM, ask_neovim, ["\x1b", ":q!\r"])
    print("Emacs:\n")
    end = ["\x1bxeglot-shutdown-all\r", "\x18\x03"]
    emacs = watch(server, text, EMACS, ask_emacs, end, EMACS_INIT)
    print("Both were told the same." if neovim == emacs else "They were told different things.")
    shutil.rmtree(ROOM)


main()
