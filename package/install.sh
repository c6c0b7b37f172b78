#!/bin/sh
# install.sh [PREFIX]: copies bin/ and share/ below PREFIX (~/.local where none is named), and says what an editor still needs.
set -eu
prefix=${1:-$HOME/.local}
here=$(dirname "$0")
for program in lam_server lam_check; do
  "$here/bin/$program" --help > /dev/null || {
    echo "install.sh: $program does not run here. It needs Linux on x86-64, and glibc @LIBC@ or later." >&2
    exit 1
  }
done
mkdir -p "$prefix"
prefix=$(cd "$prefix" && pwd)
cd "$here"
find bin share -type f | while IFS= read -r file; do
  case $file in bin/*) mode=755 ;; *) mode=644 ;; esac
  install -D -m "$mode" "$file" "$prefix/$file"
done
echo "lam_server and lam_check are in $prefix/bin."
case :$PATH: in *":$prefix/bin:"*) ;; *) echo "Put that folder on the PATH, for the editors too." ;; esac
case $prefix in
"$HOME/.local" | /usr/local | /usr) echo "Neovim 0.7 or later finds its part by itself." ;;
*) echo "Neovim: put this into init.vim: set packpath+=$prefix/share/nvim/site" ;;
esac
echo 'Vim with ALE: put these lines into the vimrc:'
echo '  source $VIMRUNTIME/defaults.vim'
echo '  packadd! ale'
echo "  set packpath+=$prefix/share/vim/vimfiles"
echo "Emacs: put this into the init file: (load \"$prefix/share/emacs/site-lisp/moorbasket/fullsub-autoloads\")"
echo "Kate: put what is in $prefix/share/doc/moorbasket/kate/settings.json into ~/.config/kate/lspclient/settings.json"
echo "Then open a file of $prefix/share/doc/moorbasket/examples. How to go on: man lam_server"
