" Comments, words and keys of fullsub files. Neovim reads this too, and has its keys for the server from a file of its own.
if exists('b:did_ftplugin')
  finish
endif
let b:did_ftplugin = 1

setlocal comments=s1:/*,mb:*,ex:*/
setlocal commentstring=/*\ %s\ */
setlocal formatoptions-=t formatoptions+=croql
" A name may hold a quote, so x' is one word.
setlocal iskeyword+='
setlocal shiftwidth=4 softtabstop=4 expandtab
let b:undo_ftplugin = 'setlocal comments< commentstring< formatoptions< iskeyword< shiftwidth< softtabstop< expandtab omnifunc<'

" Where the editor or another plugin has gc already, that one stays.
if maparg('gcc', 'n') ==# ''
  nnoremap <buffer> gcc <Cmd>call fullsub#toggle(line('.'), line('.') + v:count1 - 1)<CR>
  xnoremap <buffer> gc :<C-u>call fullsub#toggle(line("'<"), line("'>"))<CR>
endif

" What follows asks the server through ALE.
if has('nvim') || !exists(':ALEHover')
  finish
endif
let s:server = get(g:, 'ale_fullsub_lam_server_executable', 'lam_server')
if !executable(s:server)
  echohl WarningMsg | echomsg s:server 'is not on the PATH of Vim, so there are only colours, indenting and comments' | echohl None
endif
setlocal omnifunc=fullsub#complete
nnoremap <buffer> K <Cmd>ALEHover<CR>
nnoremap <buffer> gd <Cmd>ALEGoToDefinition<CR>
nnoremap <buffer> gr <Cmd>ALEFindReferences<CR>
nnoremap <buffer> <F2> <Cmd>ALERename<CR>
nnoremap <buffer> ]d <Cmd>ALENextWrap<CR>
nnoremap <buffer> [d <Cmd>ALEPreviousWrap<CR>
nnoremap <buffer> gl <Cmd>ALEDetail<CR>

" Faults are shown while a line is typed, whatever is set for other files: the server keeps up with every key.
augroup fullsub
  autocmd! * <buffer>
  autocmd TextChangedI <buffer> call ale#Queue(ale#Var(bufnr(''), 'lint_delay'))
augroup END
let b:undo_ftplugin .= ' | execute "autocmd! fullsub * <buffer>"'
