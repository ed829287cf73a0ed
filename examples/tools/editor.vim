" Writes to the file g:out what Vim makes of the words of the store, and where it goes when a file is refused.
function Shown(word)
  call cursor(1, 1)
  call search('\V' . a:word, 'c')
  return a:word . ' ' . synIDattr(synID(line('.'), col('.'), 1), 'name')
endfunction

edit examples/tools/store.domain
let s:words = ['; A store', 'operator (move', '?r ?from', 'del (', 'always', 'exists', '6 (can', '> (battery', 'robot-at 2']
let s:lines = [&filetype] + map(s:words, 'Shown(v:val)')
compiler tlplan
silent make plan breadth 20 20000 examples/ferry/ferry-open.domain examples/ferry/ferry.problem
cfirst
call add(s:lines, expand('%') . ':' . line('.') . ':' . col('.'))
cnext
call add(s:lines, expand('%') . ':' . line('.') . ':' . col('.'))
call writefile(s:lines, g:out)
qall!
