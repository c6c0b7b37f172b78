" Colours of fullsub files, for Vim and Neovim.
if exists('b:current_syntax')
  finish
endif

syntax case match
" Sooner than from the top a nested comment cannot be told from its outer one.
syntax sync fromstart

syntax keyword fullsubKeyword lambda if then else let letrec in fix as
syntax keyword fullsubFunction succ pred iszero
syntax keyword fullsubBoolean true false
syntax keyword fullsubConstant unit
syntax keyword fullsubType Bool Nat Unit Top
syntax match fullsubTypeName /\<[A-Z]\k*/
syntax match fullsubNumber /\<\d\+/
syntax match fullsubOperator /->/
syntax match fullsubDelimiter /[;:.,=]/
syntax region fullsubComment start=+/\*+ end=+\*/+ contains=fullsubComment,fullsubTodo fold
syntax keyword fullsubTodo TODO FIXME XXX contained

highlight default link fullsubKeyword Keyword
highlight default link fullsubFunction Function
highlight default link fullsubBoolean Boolean
highlight default link fullsubConstant Constant
highlight default link fullsubType Type
highlight default link fullsubTypeName Type
highlight default link fullsubNumber Number
highlight default link fullsubOperator Operator
highlight default link fullsubDelimiter Delimiter
highlight default link fullsubComment Comment
highlight default link fullsubTodo Todo

let b:current_syntax = 'fullsub'
