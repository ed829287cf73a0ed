" Comments, parentheses and indentation in the files of tlplan.
if exists('b:did_ftplugin')
  finish
endif
let b:did_ftplugin = 1

setlocal comments=:; commentstring=;\ %s formatoptions-=t
setlocal iskeyword=33,35-38,42-43,45-58,60-90,94-95,97-122,126
setlocal expandtab shiftwidth=1 softtabstop=1
setlocal indentexpr=TlplanIndent(v:lnum) indentkeys=o,O,!^F

let b:undo_ftplugin = 'setlocal comments< commentstring< formatoptions< iskeyword< expandtab< shiftwidth< softtabstop<'
      \ . ' indentexpr< indentkeys<'

if exists('*TlplanIndent')
  finish
endif

" One column more than the line in which the list begins that the line stands in.
function TlplanIndent(line)
  call cursor(a:line, 1)
  let l:open = searchpair('(', '', ')', 'bnW', 'synIDattr(synID(line("."), col("."), 0), "name") ==# "tlplanComment"')
  return l:open > 0 ? indent(l:open) + 1 : 0
endfunction
