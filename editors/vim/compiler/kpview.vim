" :make explains the description in the current file, or the assembler program. The quickfix list has each error and each warning,
" with its lines of help after it.
if exists('current_compiler') | finish | endif
let current_compiler = 'kpview'

if exists(':CompilerSet') != 2
  command -nargs=* CompilerSet setlocal <args>
endif

if &filetype ==# 'kpdlx'
  CompilerSet makeprg=kpview\ explain\ asm\ %:S
else
  CompilerSet makeprg=kpview\ explain\ %:S
endif
CompilerSet errorformat=%E%f:%l:%c:\ error\ %m,%W%f:%l:%c:\ warning\ %m,%C%*[\ ]=\ %m,%-C%.%#,%-G%.%#
