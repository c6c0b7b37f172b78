"""watch.py SERVER: types a command into real editors, and prints the faults that each shows.

A line of the transcript is what has been typed and, for each fault that the editor shows then,
its text and in quotes what it stands on in the buffer.
"""

import os
import shutil
import sys

from terminal import EMACS, EMACS_INIT, NEOVIM, ROOM, Terminal, prepare, said_by_emacs, said_by_neovim

# The command is typed into the empty line.
START = "x = {a=0, b=true};\n\nz = x.a;\n"
PIECES = ["y = ", "/* 😀 ", "*/ ", "if x.b ", "then x.", "a ", "else 1", " )", "\x7f\x7f", "😀", "\x7f", ".b"]

NEOVIM_KEYS = ["jI;", "\x1b[D"]
NEOVIM_ASK = """luaeval('vim.fn.json_encode({
  lines = vim.api.nvim_buf_get_lines(0, 0, -1, false),
  faults = vim.tbl_map(function(fault) return {
    text = (fault.code or "") .. " " .. fault.message,
    start = { fault.lnum, fault.col },
    ["end"] = { fault.end_lnum, fault.end_col } } end, vim.diagnostic.get(0)) })')"""

EMACS_KEYS = ["\x0e;", "\x02"]
EMACS_ASK = """(with-current-buffer "a.fsub"
  (json-encode (vconcat (mapcar (lambda (fault)
    (vector (flymake-diagnostic-text fault)
            (buffer-substring-no-properties (flymake-diagnostic-beg fault) (flymake-diagnostic-end fault))))
    (flymake-diagnostics)))))"""


def neovim_faults():
    """Each fault's text, and what it stands on; Neovim counts columns in bytes."""
    buffer = said_by_neovim(NEOVIM_ASK)
    lines = [f"{line}\n".encode() for line in buffer["lines"]] + [b""]

    def offset(place):
        return len(b"".join(lines[: place[0]])) + place[1]

    whole = b"".join(lines)
    return [
        (fault["text"], whole[offset(fault["start"]) : offset(fault["end"])].decode())
        for fault in buffer["faults"]
    ]


def emacs_faults():
    """The same; Emacs cuts the buffer itself."""
    return said_by_emacs(EMACS_ASK)


def watch(server, command, first, faults_now, end, init=""):
    prepare(server, START, init)
    editor = Terminal(command)
    for keys in first:
        editor.type(keys)
    typed = ""
    for piece in PIECES:
        editor.type(piece)
        back = piece.count("\x7f")
        typed = typed[:-back] if back else typed + piece
        faults = None
        # On a busy machine an editor may still show the faults of what stood before.
        while faults != (faults := sorted(faults_now())):
            editor.wait(1.2)
        shown = "; ".join(f"{text.strip()} at `{place}`".replace("\n", "⏎") for text, place in faults)
        print(f"    {typed:42}{shown}")
    for keys in end:
        editor.type(keys)
        editor.wait(0.9)
    print(f"    (ends with status {editor.close()})\n")


def main():
    server = os.path.abspath(sys.argv[1])
    print("Neovim:\n")
    watch(server, NEOVIM, NEOVIM_KEYS, neovim_faults, ["\x1b", ":q!\r"])
    print("Emacs:\n")
    end = ["\x18\x13", "\x1bxeglot-shutdown-all\r", "\x18\x03"]
    watch(server, EMACS, EMACS_KEYS, emacs_faults, end, EMACS_INIT)
    shutil.rmtree(ROOM)


main()
