" Words, comments and parentheses in the files of tlplan.
if exists('b:current_syntax')
  finish
endif

" A token is a run of these bytes; a pattern of its own, so that it does not lean on 'iskeyword'.
let s:token = '[-!#$%&*+./0-9:<=>?@A-Z^_a-z~]'
let s:word = '\%(' . s:token . '\)\@1<!\%(%s\)\%(' . s:token . '\)\@!'

syntax sync fromstart
execute 'syntax match tlplanItem /' . printf(s:word, 'domain\|problem\|predicate\|function\|define\|defined\|operator\|bounds\|pre\|effects\|control\|init\|goal\|repeat\|pair\|none\|none-within') . '/'
execute 'syntax match tlplanEffect /' . printf(s:word, 'add\|del\|set\|when\|each') . '/'
execute 'syntax match tlplanTemporal /' . printf(s:word, 'next\|always\|eventually\|until\|within\|for') . '/'
execute 'syntax match tlplanConnective /' . printf(s:word, 'not\|and\|or\|implies\|forall\|exists\|true\|false\|[<>]=\?\|[-=+*]') . '/'
execute 'syntax match tlplanVariable /' . s:token . '\@1<!?' . s:token . '*/'
execute 'syntax match tlplanNumber /' . printf(s:word, '-\?[0-9]\+') . '/'
syntax match tlplanError /)/
syntax region tlplanList matchgroup=tlplanParenthesis start=/(/ end=/)/ contains=TOP,tlplanError
syntax match tlplanComment /;.*$/ contains=@Spell

highlight default link tlplanItem Statement
highlight default link tlplanEffect Type
highlight default link tlplanTemporal Special
highlight default link tlplanConnective Operator
highlight default link tlplanVariable Identifier
highlight default link tlplanNumber Number
highlight default link tlplanParenthesis Delimiter
highlight default link tlplanComment Comment
highlight default link tlplanError Error

let b:current_syntax = 'tlplan'
