" Highlighting of MIR for Vim: copy to ~/.vim/syntax/mir.vim, and write `au BufRead,BufNewFile *.mir set ft=mir`.
if exists('b:current_syntax')
  finish
endif
syn case match
syn keyword mirWord begin end receive goto if call return print trap global
syn keyword mirOperator mod min max shl shr shra and or xor
syn keyword mirReserved sequence
syn match mirComment "||.*$"
syn match mirNumber "\<\d\+\>"
syn match mirNumber "\%(\%(^\|[^A-Za-z0-9_ \t]\|\<\%(mod\|min\|max\|shl\|shr\|shra\|and\|or\|xor\|print\|return\|if\)\)\s*\)\@<=-\d\+\>"
syn match mirArrow "<-\|←"
syn match mirLabel "\<[A-Za-z][A-Za-z0-9_]*\ze\s*:"
syn match mirType "(\s*\zsval\ze\s*)\|,\s*\zsint\>"
hi def link mirWord Keyword
hi def link mirOperator Operator
hi def link mirReserved Error
hi def link mirComment Comment
hi def link mirNumber Number
hi def link mirArrow Operator
hi def link mirLabel Label
hi def link mirType Type
let b:current_syntax = 'mir'
