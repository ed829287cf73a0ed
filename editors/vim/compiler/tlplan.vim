" Runs tlplan from Vim, and jumps to where a file is refused:
"
"   :compiler tlplan
"   :make plan breadth 20 20000 % my.problem
"
" `g:tlplan_where` names the tool, where it is not `tlplan-where` in PATH.
if exists('current_compiler')
  finish
endif
let current_compiler = 'tlplan'

execute 'CompilerSet makeprg=' . escape(get(g:, 'tlplan_where', 'tlplan-where'), ' \|"')
CompilerSet errorformat=%f:%l:%c:\ note:\ %m,%f:%l:%c:\ %m,%-G%.%#
