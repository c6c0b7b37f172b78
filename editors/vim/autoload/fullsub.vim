" What the fullsub files for Vim and Neovim call: indenting, comments on and off, and completion by ALE.

" Where the innermost comment opens that is still open in front of the cursor, else [0, 0].
function! s:comment() abort
  return searchpairpos('/\*', '', '\*/', 'bnW')
endfunction

" The last sign in front of the cursor that matches and stands outside of comments; the cursor goes there.
function! s:back_to(pattern) abort
  while search(a:pattern, 'bW')
    let sign = getline('.')[col('.') - 1]
    if sign ==# '/'
      " From the slash that ends a comment one would look for the comment around it: step inside.
      call cursor(line('.'), col('.') - 1)
    endif
    let open = s:comment()
    if open == [0, 0]
      return sign
    endif
    while open != [0, 0]
      call cursor(open)
      let open = s:comment()
    endwhile
  endwhile
  return ''
endfunction

" The indent of a line. A command begins where the one in front of it does; a broken line stands one step behind the line of the
" bracket around it, or behind the first line of its command; the lines of a comment stand below its words.
function! fullsub#indent(line) abort
  let view = winsaveview()
  try
    return s:indent(a:line)
  finally
    call winrestview(view)
  endtry
endfunction

function! s:indent(line) abort
  call cursor(a:line, 1)
  let comment = s:comment()
  if comment != [0, 0]
    return virtcol(comment) + 2
  endif
  if index(['', ';'], s:back_to('\S')) >= 0
    return 0
  endif
  call cursor(a:line, 1)
  let closed = 0
  while 1
    let sign = s:back_to('[;(){}]')
    if index(['', ';'], sign) >= 0
      return shiftwidth()
    elseif index([')', '}'], sign) >= 0
      let closed += 1
    elseif closed
      let closed -= 1
    else
      return indent('.') + (getline(a:line) =~# '^\s*[)}]' ? 0 : shiftwidth())
    endif
  endwhile
endfunction

" Whether the text is one comment, which opens at its first sign and closes at its last, and not before.
function! s:is_comment(text) abort
  let [depth, at] = [0, 0]
  while at == 0 || depth > 0
    let [mark, start, at] = matchstrpos(a:text, '/\*\|\*/', at)
    if start < 0 || depth == 0 && (start > 0 || mark ==# '*/')
      return 0
    endif
    let depth += mark ==# '/*' ? 1 : -1
  endwhile
  return at == len(a:text)
endfunction

" Makes these lines one comment, or takes its marks away where they are one. Comments nest, so there may be others in it.
function! fullsub#toggle(first, last) abort
  let text = join(getline(a:first, a:last), "\n")
  let [all, before, body, behind; rest] = matchlist(text, '^\(\_s*\)\(\_.\{-}\)\(\_s*\)$')
  if s:is_comment(body)
    let body = substitute(body[2 : -3], '^ \| $', '', 'g')
  elseif body !=# ''
    let body = '/* ' . body . ' */'
  endif
  call setline(a:first, split(before . body . behind, "\n", 1))
endfunction

" ALE's completion, with a word that begins where Vim's does: ALE takes one to end in front of a quote.
function! fullsub#complete(findstart, base) abort
  let told = ale#completion#OmniFunc(a:findstart, a:base)
  if a:findstart
    return told < 0 ? told : match(strpart(getline('.'), 0, col('.') - 1), '\k*$')
  endif
  return filter(told, {_, item -> stridx(item.word, a:base) == 0})
endfunction
