" How lines of fullsub files are indented, for Vim and Neovim.
if exists('b:did_indent')
  finish
endif
let b:did_indent = 1

setlocal indentexpr=fullsub#indent(v:lnum)
setlocal indentkeys=o,O,!^F,0),0}
setlocal nolisp nosmartindent autoindent

let b:undo_indent = 'setlocal indentexpr< indentkeys< lisp< smartindent< autoindent<'
