#!/usr/bin/env python3
"""try.py ROOT: installs both packages of dist/ into a Debian 12 that has Neovim and nothing else besides its base, and tries them there.

Where the folder ROOT is not there yet debootstrap makes it, in a minute or two; the script runs as root. Of each package the server plays
all of rows/, the checker does what rows/check.py has it do, and Neovim, with a home that is empty, opens a file and has to show a
diagnostic and a type.
"""

import glob
import os
import shutil
import subprocess
import sys
import tempfile

HERE = os.path.dirname(os.path.realpath(__file__))

TEXT = "point = {x=0, name=true};\nnext = lambda p:{x:Nat}. succ p.x;\nnext {name=true};\nnext point;\n"
LOOK = """
vim.wait(10000, function() return #vim.diagnostic.get(0) > 0 end, 50)
for _, it in ipairs(vim.diagnostic.get(0)) do io.stdout:write(it.code, " in line ", it.lnum + 1, "\\n") end
vim.api.nvim_win_set_cursor(0, { 4, 5 })
for _, it in pairs(vim.lsp.buf_request_sync(0, "textDocument/hover", vim.lsp.util.make_position_params(0, "utf-16"), 5000)) do
  io.stdout:write(it.result.contents.value, "\\n")
end
vim.cmd("qall!")
"""
SEEN = "E3 in line 3\n{name:Bool, x:Nat}\n"


def main():
    if len(sys.argv) != 2 or os.geteuid():
        sys.exit("usage, as root: try.py ROOT")
    root = os.path.realpath(sys.argv[1])
    if not os.path.isdir(root):
        subprocess.run(["debootstrap", "--variant=minbase", "--include=neovim", "bookworm", root], check=True)

    def inside(*words):
        """Runs a command in the root, with an empty home, and returns what it says."""
        bare = ["env", "-i", "-C", "/try", "HOME=/try", "PATH=/usr/local/bin:/usr/sbin:/usr/bin:/sbin:/bin", "LANG=C.UTF-8", "TERM=dumb"]
        return subprocess.run(["chroot", root, *bare, *words], stdout=subprocess.PIPE, encoding="utf-8", check=True, timeout=300).stdout

    def plays(script, program):
        """Whether what the script has the program do is right. It runs in the folder of the root that the script is in."""
        with tempfile.TemporaryDirectory(dir=f"{root}/try") as room:
            path = f"{room}/{os.path.basename(program)}"
            with open(path, "w", encoding="utf-8") as it:
                it.write(f'#!/bin/sh\nexec chroot "{root}" env -C "${{PWD#{root}}}/" {program} "$@"\n')
            os.chmod(path, 0o755)
            return not subprocess.run([sys.executable, f"{HERE}/../rows/{script}", "--program", path], cwd=room, env={**os.environ, "TMPDIR": room}, check=False).returncode

    def tried(kind, folder):
        """Whether the programs in this folder do all that they should."""
        right = [plays("play.py", f"{folder}/lam_server"), plays("check.py", f"{folder}/lam_check")]
        seen = inside("nvim", "--headless", "a.fsub", "-c", "luafile look.lua")
        print(f"{kind}: Neovim shows {'what it should' if seen == SEEN else seen}", flush=True)
        return all(right) and seen == SEEN

    shutil.rmtree(f"{root}/try", ignore_errors=True)
    os.makedirs(f"{root}/try")
    for name, text in (("a.fsub", TEXT), ("look.lua", LOOK)):
        with open(f"{root}/try/{name}", "w", encoding="utf-8") as it:
            it.write(text)
    (tar,), (deb,) = glob.glob(f"{HERE}/../dist/*.tar.gz"), glob.glob(f"{HERE}/../dist/*.deb")
    shutil.copy(tar, f"{root}/try/moorbasket.tar.gz")
    shutil.copy(deb, f"{root}/try/moorbasket.deb")
    print(inside("dpkg", "-i", "moorbasket.deb"), end="")
    right = [tried("the Debian package", "/usr/bin")]
    inside("dpkg", "-P", "moorbasket")
    inside("tar", "xzf", "moorbasket.tar.gz")
    print(inside("sh", "-c", "moorbasket-*/install.sh /usr/local"), end="")
    right.append(tried("the tar file", "/usr/local/bin"))
    inside("rm", "-r", "/usr/local/share/nvim", "/usr/local/bin/lam_server", "/usr/local/bin/lam_check")
    return 0 if all(right) else 1


if __name__ == "__main__":
    sys.exit(main())
