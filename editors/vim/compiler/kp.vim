" :make checks the description in the current file, and the quickfix list has the first rule that it violates. The rules are in kp(5).
"
" kp reads standard input and prints `refused E9 11:13`, without a file name. So the name is printed first: %P takes it for the lines after it.
if exists('current_compiler') | finish | endif
let current_compiler = 'kp'

if exists(':CompilerSet') != 2
  command -nargs=* CompilerSet setlocal <args>
endif

CompilerSet makeprg=(printf\ '\\%s\\n'\ %:S;\ kp\ check\ <\ %:S)
CompilerSet errorformat=refused\ %m\ %l:%c,%-P%f,%-G%.%#
